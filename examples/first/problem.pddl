; From 0 to at least 3.
(define (problem to-three)
  (:domain steps)
  (:init (= (x) 0))
  (:goal (and (>= (x) 3))))
