; Jobs at two places: cans are emptied over the beds outside, pots are washed inside, and the way between takes a minute.
(define (domain garden)
  (:predicates (inside))
  (:functions (cans) (pots) (minutes))
  (:action water
    :parameters ()
    :precondition (not (inside))
    :effect (and (increase (cans) 1) (increase (minutes) 2)))
  (:action wash
    :parameters ()
    :precondition (inside)
    :effect (and (increase (pots) 1) (increase (minutes) 3)))
  (:action go-in
    :parameters ()
    :precondition (not (inside))
    :effect (and (inside) (increase (minutes) 1)))
  (:action go-out
    :parameters ()
    :precondition (inside)
    :effect (and (not (inside)) (increase (minutes) 1))))
