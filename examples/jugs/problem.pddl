; Exactly 4 litres in the large jug of 5, with a small one of 3, from two empty ones.
(define (problem four-litres)
  (:domain jugs)
  (:objects small large - jug one two three four five - amount)
  (:init (= (size small) 3) (= (size large) 5) (= (level small) 0) (= (level large) 0)
    (= (litres one) 1) (= (litres two) 2) (= (litres three) 3) (= (litres four) 4) (= (litres five) 5))
  (:goal (= (level large) 4)))
