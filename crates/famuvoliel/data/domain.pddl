(define (domain steps) (:functions (x))
(:action up :parameters () :precondition (and) :effect (and (increase (x) 1))))
