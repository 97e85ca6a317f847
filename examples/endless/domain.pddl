; One that spends its budget: steps of 2 to the right and to the left on a line without end, and the goal is to stand at exactly 1.
;
; By hand: `place` stays even, so there is no plan. But no search that only looks at states can find that out: it spends each
; budget. d steps reach 2d and -2d as new places, so 2d - 1 states are reached by fewer than d steps. With the default budget of
; 100000 the states of fewer than 50000 steps are expanded, which are 99999, and one of 50000 steps; the other one waits, so the
; bound is 50000. With NODES 10 these are 9 states of fewer than 5 steps and one of 5, and the bound is 5.
(define (domain endless)
  (:functions (place))
  (:action right
    :parameters ()
    :effect (increase (place) 2))
  (:action left
    :parameters ()
    :effect (decrease (place) 2)))
