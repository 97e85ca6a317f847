; A van takes crates from place to place. It needs fuel for each road and has room for so much weight, and there are pumps. Fuel and
; weights are decimals; the roads are a table that no step changes, in which a pair of places without a road has no length.
;
; By hand, for the problem beside it: the van can't take both crates at once, for 1.5 and 2 together are more than 2.5. So two
; drives go from the ford to the town, and one back between them; and one goes from the mill to the ford at the start. That makes
; 6 + 6 + 6 + 4 = 22, and takes 11 litres, at half a litre each. There are 3, so it has to fill up twice with 4, at a cost of 2 each
; time. Each crate is taken once at least, at a cost of 1: no plan costs less than 22 + 4 + 2 = 28.
; The plan of plan.txt fills up twice at the ford, with 1 litre left, which makes 9; the three roads from there take 3 each.
(define (domain vans)
  (:requirements :typing :numeric-fluents :equality)
  (:types van crate - movable movable place - object)
  (:predicates (at ?x - movable ?p - place) (in ?c - crate ?v - van) (pump ?p - place))
  (:functions (road ?from ?to - place) (fuel ?v - van) (use ?v - van)
    (carried ?v - van) (room ?v - van) (weight ?c - crate) (total-cost))
  (:action drive
    :parameters (?v - van ?from ?to - place)
    :precondition (and (at ?v ?from) (not (= ?from ?to)) (>= (fuel ?v) (* (use ?v) (road ?from ?to))))
    :effect (and (not (at ?v ?from)) (at ?v ?to) (decrease (fuel ?v) (* (use ?v) (road ?from ?to)))
      (increase (total-cost) (road ?from ?to))))
  (:action fill
    :parameters (?v - van ?p - place)
    :precondition (and (at ?v ?p) (pump ?p))
    :effect (and (increase (fuel ?v) 4) (increase (total-cost) 2)))
  (:action take
    :parameters (?c - crate ?v - van ?p - place)
    :precondition (and (at ?c ?p) (at ?v ?p) (<= (+ (carried ?v) (weight ?c)) (room ?v)))
    :effect (and (not (at ?c ?p)) (in ?c ?v) (increase (carried ?v) (weight ?c)) (increase (total-cost) 1)))
  (:action leave
    :parameters (?c - crate ?v - van ?p - place)
    :precondition (and (in ?c ?v) (at ?v ?p))
    :effect (and (not (in ?c ?v)) (at ?c ?p) (decrease (carried ?v) (weight ?c)))))
