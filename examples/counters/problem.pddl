; From 5, 3, 2, 0 to a < b < c < d.
(define (problem ascending)
  (:domain counters)
  (:objects a b c d - counter)
  (:init (= (greatest) 5) (= (value a) 5) (= (value b) 3) (= (value c) 2) (= (value d) 0))
  (:goal (and (< (value a) (value b)) (< (value b) (value c)) (< (value c) (value d)))))
