; One that isn't linear: a field grows by 1 in its width or its length, and its area is asked for, which is the product of two values
; that change. `run` computes it; binding, and so `list`, `solve` and `check`, takes sums of values times numbers alone.
(define (domain field)
  (:functions (width) (length))
  (:action widen
    :parameters ()
    :effect (increase (width) 1))
  (:action lengthen
    :parameters ()
    :effect (increase (length) 1)))
