; Two red and two blue blocks on a board of 4 columns and 3 rows, the reds to the right of the blues at the start.
(define (problem two-colours)
  (:domain grouping)
  (:objects red1 red2 blue1 blue2 - block)
  (:init (= (columns) 4) (= (rows) 3)
    (= (column red1) 3) (= (row red1) 1) (= (column red2) 4) (= (row red2) 2)
    (= (column blue1) 1) (= (row blue1) 1) (= (column blue2) 2) (= (row blue2) 3))
  (:goal (and (= (column red1) (column red2)) (= (row red1) (row red2))
    (= (column blue1) (column blue2)) (= (row blue1) (row blue2)) (< (column red1) (column blue1)))))
