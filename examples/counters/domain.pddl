; The counters of the literature: counters from 0 to a greatest value, which a step raises or lowers by 1, shall stand in ascending
; order. Without a metric each step costs 1.
;
; By hand, for the problem beside it: d - a is -5 at the start and at least 3 at the end, since b and c lie between, so that a and
; d take at least 8 steps. c - b is -1 and at least 1 at the end, so that b and c take at least 2. So no plan has fewer than
; 10 steps, and 4 times lower a, 4 times raise d, once lower b and once raise c do it: 1, 2, 3, 4.
(define (domain counters)
  (:types counter)
  (:functions (value ?c - counter) (greatest))
  (:action raise
    :parameters (?c - counter)
    :precondition (<= (+ (value ?c) 1) (greatest))
    :effect (increase (value ?c) 1))
  (:action lower
    :parameters (?c - counter)
    :precondition (>= (value ?c) 1)
    :effect (decrease (value ?c) 1)))
