; From 6 to 20 of money, with salt from the coast and wool from the hills, and a mule that carries 3 pieces.
(define (problem twenty)
  (:domain market)
  (:objects salt wool - good coast hills - town)
  (:init (at coast) (= (money) 6) (= (pieces salt) 0) (= (pieces wool) 0) (= (carried) 0) (= (most) 3) (= (total-cost) 0)
    (= (price salt coast) 2) (= (price salt hills) 5) (= (price wool coast) 7) (= (price wool hills) 3)
    (= (hours coast hills) 4) (= (hours hills coast) 4))
  (:goal (>= (money) 20))
  (:metric minimize (total-cost)))
