; Bread from a wood-fired oven: wood is chopped, the oven is heated with it, and then it bakes four loaves at a time.
(define (domain bread)
  (:predicates (hot))
  (:functions (wood) (loaves) (effort))
  (:action chop
    :parameters ()
    :effect (and (increase (wood) 1) (increase (effort) 2)))
  (:action heat
    :parameters ()
    :precondition (>= (wood) 3)
    :effect (and (hot) (decrease (wood) 3) (increase (effort) 1)))
  (:action bake
    :parameters ()
    :precondition (hot)
    :effect (and (increase (loaves) 4) (increase (effort) 3))))
