; From 2 times 3 to an area of 12: twice wider, or once each.
(define (problem twelve)
  (:domain field)
  (:init (= (width) 2) (= (length) 3))
  (:goal (>= (* (width) (length)) 12)))
