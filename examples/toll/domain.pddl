; One whose costs aren't whole: the toll of the bridge is 2.5. `run` takes fractions; `list`, `solve` and `check` take whole costs from 0
; on. With the prices counted in halves, 5 and 4, each takes it: costs are then twice as large, and the cheapest plans are the same.
(define (domain toll)
  (:types place)
  (:predicates (at ?p - place))
  (:functions (toll ?from ?to - place) (total-cost))
  (:action cross
    :parameters (?from ?to - place)
    :precondition (and (at ?from) (> (toll ?from ?to) 0))
    :effect (and (not (at ?from)) (at ?to) (increase (total-cost) (toll ?from ?to)))))
