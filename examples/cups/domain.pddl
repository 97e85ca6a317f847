; The three cups: a step turns two of them at once, and all shall stand upright.
;
; By hand: a step changes the number of cups that are upright by 2 or by nothing. For the problem beside it that number is 2 at the
; start, so it stays even and is never 3. There are four states, the three with two cups upright and the one with none, and from
; each the steps lead to these four. So the search ends: there is no plan.
;
; certificate.txt has an entry for each of the four. Each says that there is no plan from its state, and rests on others, in a
; circle. That does no harm: a plan from one of them would hold a shorter plan from another, and plans don't grow shorter without end.
(define (domain cups)
  (:types cup)
  (:predicates (upright ?c - cup))
  (:action turn-two-over
    :parameters (?a ?b - cup)
    :precondition (and (not (= ?a ?b)) (upright ?a) (upright ?b))
    :effect (and (not (upright ?a)) (not (upright ?b))))
  (:action turn-two-up
    :parameters (?a ?b - cup)
    :precondition (and (not (= ?a ?b)) (not (upright ?a)) (not (upright ?b)))
    :effect (and (upright ?a) (upright ?b)))
  (:action turn-one-of-each
    :parameters (?a ?b - cup)
    :precondition (and (upright ?a) (not (upright ?b)))
    :effect (and (not (upright ?a)) (upright ?b))))
