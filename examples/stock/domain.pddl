; Stock with a lower limit: a machine takes 3 parts, and a reserve must stay in stock. An order costs 2 and brings 4 parts, a sale of a
; machine brings 3. Without a metric each step costs 1.
;
; By hand, for the problem beside it: let a, o and s count assemblies, orders and sales of a plan.
;   machines:  a - s >= 2
;   money:     1 + 3s - 2o >= 0
;   stock:     6 + 4o - 3a >= 2
; Without a sale no order can be paid, and one assembly is all that the stock allows. So s >= 1, then a >= 3, then 4o >= 5, so
; o >= 2: at least 6 steps. One plan of 6 steps is (assemble) (sell) (order) (assemble) (order) (assemble). There are others.
(define (domain stock)
  (:functions (parts) (machines) (money) (reserve))
  (:action assemble
    :parameters ()
    :precondition (>= (- (parts) 3) (reserve))
    :effect (and (decrease (parts) 3) (increase (machines) 1)))
  (:action order
    :parameters ()
    :precondition (>= (money) 2)
    :effect (and (decrease (money) 2) (increase (parts) 4)))
  (:action sell
    :parameters ()
    :precondition (>= (machines) 1)
    :effect (and (decrease (machines) 1) (increase (money) 3))))
