; One to save, where x + y is 7 to 8 and y - x is 4 to 5, from the origin.
(define (problem one-aboard)
  (:domain sailing)
  (:objects b - boat p - person)
  (:init (= (x b) 0) (= (y b) 0) (= (sum p) 7) (= (difference p) 4))
  (:goal (saved p)))
