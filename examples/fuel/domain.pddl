; A van drives from place to place, burns fuel on the way, and may stop at a pump for 2 litres, as far as its tank takes them.
; A kilometre costs 1, a stop 2. A road that has no length isn't there.
;
; By hand, for the problem beside it: the van has 4.5 litres and burns half a litre a kilometre. The direct road to the town takes
; 5 litres, so the first drive goes to the ford. There 2.5 litres are left, and the road on takes 3.5. To drive back makes it
; less. So it has to stop, which makes 4.5 litres, and then the road on is the cheapest way: 4 + 2 + 7 = 13.
(define (domain fuel)
  (:types van place) (:predicates (at ?v - van ?p - place) (pump ?p - place))
  (:functions (road ?from ?to - place) (fuel ?v - van) (tank ?v - van) (burn ?v - van) (total-cost))
  (:action drive :parameters (?v - van ?from ?to - place)
    :precondition (and (at ?v ?from) (>= (fuel ?v) (* (burn ?v) (road ?from ?to))))
    :effect (and (not (at ?v ?from)) (at ?v ?to)
      (decrease (fuel ?v) (* (burn ?v) (road ?from ?to))) (increase (total-cost) (road ?from ?to))))
  (:action refuel :parameters (?v - van ?p - place)
    :precondition (and (at ?v ?p) (pump ?p) (<= (+ (fuel ?v) 2) (tank ?v)))
    :effect (and (increase (fuel ?v) 2) (increase (total-cost) 2))))
