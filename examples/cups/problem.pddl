; Two upright and one turned over; all three upright.
(define (problem all-upright)
  (:domain cups)
  (:objects left middle right - cup)
  (:init (upright left) (upright middle))
  (:goal (and (upright left) (upright middle) (upright right))))
