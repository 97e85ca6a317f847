; From 0 to exactly 1.
(define (problem to-one)
  (:domain endless)
  (:init (= (place) 0))
  (:goal (= (place) 1)))
