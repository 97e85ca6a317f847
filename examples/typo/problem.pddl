(define (problem one) (:domain lamps)
  (:objects l - lamp)
  (:goal (light l)))
