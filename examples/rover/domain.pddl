; A rover takes samples and sends what it finds from where it sees the lander. Moves, samples and messages take energy; in the sun it
; recharges by 6 at a time, as far as its battery goes. The metric is the time.
;
; By hand, for the problem beside it: to the crater and back are 4 moves of 2 km or more, which take 12 of energy; two samples and
; two messages take 2 each. That makes 20. There are 8, so it recharges at least twice: no plan takes less than 4 * 2 for moves,
; 2 * 3 for recharging and 4 for samples and messages, which is 18. It reaches the ridge with 5, takes the soil, recharges to 9,
; takes the rock in the crater, is back on the ridge with 1, recharges to 7, and sends both at the lander with nothing left.
(define (domain rover)
  (:types rover place sample)
  (:predicates (at ?r - rover ?p - place) (found ?s - sample ?p - place) (sunny ?p - place) (sees-lander ?p - place)
    (has ?r - rover ?s - sample) (sent ?s - sample))
  (:functions (energy ?r - rover) (battery ?r - rover) (need ?r - rover) (way ?from ?to - place) (total-cost))
  (:action move
    :parameters (?r - rover ?from ?to - place)
    :precondition (and (at ?r ?from) (>= (energy ?r) (* (need ?r) (way ?from ?to))))
    :effect (and (not (at ?r ?from)) (at ?r ?to)
      (decrease (energy ?r) (* (need ?r) (way ?from ?to))) (increase (total-cost) (way ?from ?to))))
  (:action recharge
    :parameters (?r - rover ?p - place)
    :precondition (and (at ?r ?p) (sunny ?p) (<= (energy ?r) (- (battery ?r) 6)))
    :effect (and (increase (energy ?r) 6) (increase (total-cost) 3)))
  (:action take
    :parameters (?r - rover ?s - sample ?p - place)
    :precondition (and (at ?r ?p) (found ?s ?p) (not (has ?r ?s)) (>= (energy ?r) 2))
    :effect (and (has ?r ?s) (decrease (energy ?r) 2) (increase (total-cost) 1)))
  (:action send
    :parameters (?r - rover ?s - sample ?p - place)
    :precondition (and (at ?r ?p) (sees-lander ?p) (has ?r ?s) (>= (energy ?r) 2))
    :effect (and (sent ?s) (decrease (energy ?r) 2) (increase (total-cost) 1))))
