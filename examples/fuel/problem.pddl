; From the mill to the town: 10 km on the direct road, or 11 over the ford.
(define (problem to-town) (:domain fuel) (:objects v - van mill ford town - place)
  (:init (at v mill) (pump ford) (= (total-cost) 0) (= (fuel v) 4.5) (= (tank v) 6) (= (burn v) 0.5)
    (= (road mill ford) 4) (= (road ford mill) 4) (= (road ford town) 7) (= (road mill town) 10))
  (:goal (at v town)) (:metric minimize (total-cost)))
