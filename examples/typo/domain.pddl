; What a refusal looks like: the effect, in line 8, names a predicate that isn't declared, `lit` for `light`.
(define (domain lamps)
  (:types lamp)
  (:predicates (light ?l - lamp))
  (:action switch
    :parameters (?l - lamp)
    :precondition (not (light ?l))
    :effect (lit ?l)))
