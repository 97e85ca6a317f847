; Trucks bring boxes from place to place. A truck has room for so much, burns fuel on each way, and fills up at stations by cans of
; 4 litres, as far as its tank takes them.
;
; By hand, for the problem beside it: the boxes take 4 of room and the truck has 2, so it drives to the shop at least twice and
; back at least once: 3 drives of 5. Each box is loaded and unloaded once at least: 6 at a cost of 1. Three drives burn 12 litres
; and 8 are there, so at least one can at a cost of 2: no plan costs less than 15 + 6 + 2 = 23.
; The crate first, back to the depot with an empty tank, one can, and the two bags: 23, in 10 steps.
(define (domain delivery)
  (:types truck box - thing place)
  (:predicates (at ?t - thing ?p - place) (in ?b - box ?t - truck) (station ?p - place))
  (:functions (distance ?from ?to - place) (fuel ?t - truck) (tank ?t - truck) (burn ?t - truck)
    (size ?b - box) (carried ?t - truck) (capacity ?t - truck) (total-cost))
  (:action drive
    :parameters (?t - truck ?from ?to - place)
    :precondition (and (at ?t ?from) (not (= ?from ?to)) (>= (fuel ?t) (* (burn ?t) (distance ?from ?to))))
    :effect (and (not (at ?t ?from)) (at ?t ?to)
      (decrease (fuel ?t) (* (burn ?t) (distance ?from ?to))) (increase (total-cost) (distance ?from ?to))))
  (:action refuel
    :parameters (?t - truck ?p - place)
    :precondition (and (at ?t ?p) (station ?p) (<= (+ (fuel ?t) 4) (tank ?t)))
    :effect (and (increase (fuel ?t) 4) (increase (total-cost) 2)))
  (:action load
    :parameters (?b - box ?t - truck ?p - place)
    :precondition (and (at ?b ?p) (at ?t ?p) (<= (+ (carried ?t) (size ?b)) (capacity ?t)))
    :effect (and (not (at ?b ?p)) (in ?b ?t) (increase (carried ?t) (size ?b)) (increase (total-cost) 1)))
  (:action unload
    :parameters (?b - box ?t - truck ?p - place)
    :precondition (and (in ?b ?t) (at ?t ?p))
    :effect (and (not (in ?b ?t)) (at ?b ?p) (decrease (carried ?t) (size ?b)) (increase (total-cost) 1))))
