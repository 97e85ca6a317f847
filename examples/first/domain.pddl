; Counting up: one value, and one action that raises it by 1. Each step costs 1, and the goal of problem.pddl is 3 away: three
; steps `(up)`. With NODES 2 the states 0 and 1 are expanded, and 2 waits, at a path cost of 2: that is the bound.
(define (domain steps)
  (:functions (x))

  (:action up
    :parameters ()
    :precondition (and)
    :effect (and (increase (x) 1))))
