; Soil from the ridge and a rock from the crater, which lies behind it.
(define (problem soil-and-rock)
  (:domain rover)
  (:objects r - rover lander ridge crater - place soil rock - sample)
  (:init (at r lander) (found soil ridge) (found rock crater) (sunny ridge) (sees-lander lander)
    (= (energy r) 8) (= (battery r) 12) (= (need r) 1.5) (= (total-cost) 0)
    (= (way lander ridge) 2) (= (way ridge lander) 2) (= (way ridge crater) 2) (= (way crater ridge) 2))
  (:goal (and (sent soil) (sent rock)))
  (:metric minimize (total-cost)))
