; Two machines from 6 parts and 1 of money, where 2 parts must stay.
(define (problem two-machines)
  (:domain stock)
  (:init (= (parts) 6) (= (machines) 0) (= (money) 1) (= (reserve) 2))
  (:goal (>= (machines) 2)))
