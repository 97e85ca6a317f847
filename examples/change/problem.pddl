; 8 small coins from 2 large ones and a small one.
(define (problem eight-small)
  (:domain change)
  (:init (= (large) 2) (= (small) 1))
  (:goal (>= (small) 8)))
