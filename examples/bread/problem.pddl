; Seven loaves are wanted.
;
; By hand: each loaf wants a hot oven, and that three logs, which are chopped at 2 each. So 6 and 1 go before the first loaf; seven
; loaves are two batches at 3 each. That is 13, and no plan does with less. The table in certificate.txt says so in one line.
(define (problem seven)
  (:domain bread)
  (:init (= (wood) 0) (= (loaves) 0))
  (:goal (>= (loaves) 7))
  (:metric minimize (effort)))
