; A trader buys goods where they are cheap, carries them to another town, and sells them. Each town has a price for a good, at which
; it is bought and sold there. A trade takes an hour and the road takes some; the metric is the hours.
;
; By hand, for the problem beside it: salt gains 3 on the way to the hills and wool 4 on the way to the coast. 14 have to be gained.
; No piece gains more than 4, so at least 4 pieces are bought and sold, which takes 8 hours. One road with 3 pieces gains 12 at
; most, so at least two roads are taken, which takes 8 hours: no plan takes less than 16.
; One salt to the hills leaves 6 - 2 + 5 = 9, for which 3 wool are bought; at the coast they bring 21.
(define (domain market)
  (:types good town)
  (:predicates (at ?t - town))
  (:functions (price ?g - good ?t - town) (hours ?from ?to - town) (money) (pieces ?g - good) (carried) (most) (total-cost))
  (:action buy
    :parameters (?g - good ?t - town)
    :precondition (and (at ?t) (>= (money) (price ?g ?t)) (< (carried) (most)))
    :effect (and (decrease (money) (price ?g ?t)) (increase (pieces ?g) 1) (increase (carried) 1)
      (increase (total-cost) 1)))
  (:action sell
    :parameters (?g - good ?t - town)
    :precondition (and (at ?t) (>= (pieces ?g) 1))
    :effect (and (increase (money) (price ?g ?t)) (decrease (pieces ?g) 1) (decrease (carried) 1)
      (increase (total-cost) 1)))
  (:action travel
    :parameters (?from ?to - town)
    :precondition (and (at ?from) (> (hours ?from ?to) 0))
    :effect (and (not (at ?from)) (at ?to) (increase (total-cost) (hours ?from ?to)))))
