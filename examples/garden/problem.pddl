; Two cans and three pots, from outside.
;
; By hand: two cans at 2 and three pots at 3 are 13, and the way in takes 1 more. That is 14, and no plan does with less: whoever wants
; pots has to go in. certificate.txt says so by all three reasons, each where it serves best.
(define (problem two-and-three)
  (:domain garden)
  (:init (= (cans) 0) (= (pots) 0))
  (:goal (and (>= (cans) 2) (>= (pots) 3)))
  (:metric minimize (minutes)))
