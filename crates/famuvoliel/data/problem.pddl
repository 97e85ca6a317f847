(define (problem p) (:domain steps) (:init (= (x) 0)) (:goal (and (>= (x) 3))))
