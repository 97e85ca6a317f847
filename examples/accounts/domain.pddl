; A pair without a plan that no search can show to be one: amounts go from one of two accounts to the other, one at a time, and an
; account may be overdrawn without end.
(define (domain accounts)
  (:functions (left) (right))
  (:action to-right
    :parameters ()
    :effect (and (decrease (left) 1) (increase (right) 1)))
  (:action to-left
    :parameters ()
    :effect (and (increase (left) 1) (decrease (right) 1))))
