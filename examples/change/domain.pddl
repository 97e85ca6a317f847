; An unsolvable one: a large coin is broken into 3 small ones, and 4 small ones are joined into a large one.
;
; By hand, for the problem beside it: 3 * large + small never grows, for breaking keeps it and joining lowers it by 1. It is 7 at the
; start and the goal asks for 8, so there is no plan of any length. The search doesn't see that; it ends since only 12 states
; are reachable, and none is a goal.
;
; The last of the 12 has no large coin and 3 small ones, and is 10 steps from the start. So with NODES 12 the answer is the same,
; and with NODES 11 it is `Budget spent 11, bound 10, weak 0`.
(define (domain change)
  (:functions (large) (small))
  (:action break
    :parameters ()
    :precondition (>= (large) 1)
    :effect (and (decrease (large) 1) (increase (small) 3)))
  (:action join
    :parameters ()
    :precondition (>= (small) 4)
    :effect (and (decrease (small) 4) (increase (large) 1))))
