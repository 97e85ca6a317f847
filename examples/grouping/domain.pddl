; Block grouping, after the domain of the literature: blocks move by 1 on a board, and several may be on one square. Blocks of one
; colour shall meet on a square, those of different colours on different ones.
;
; By hand, for the problem beside it: the reds shall be in a column to the left of the blues. In the rows the two reds are 1 apart
; and the two blues 2 apart, which takes at least 1 and 2 steps. Let the reds meet in column r and the blues in column b, so
; b >= r + 1. From columns 3 and 4 the reds take (3 - r) + (4 - r) steps or more, and from 1 and 2 the blues (b - 1) + (b - 2) or
; more: together 4 + 2 (b - r), so at least 6. No plan has fewer than 3 + 6 = 9 steps, and with r = 2 and b = 3 it is 5 and 4.
(define (domain grouping)
  (:types block)
  (:functions (column ?b - block) (row ?b - block) (columns) (rows))
  (:action left
    :parameters (?b - block)
    :precondition (>= (column ?b) 2)
    :effect (decrease (column ?b) 1))
  (:action right
    :parameters (?b - block)
    :precondition (< (column ?b) (columns))
    :effect (increase (column ?b) 1))
  (:action down
    :parameters (?b - block)
    :precondition (>= (row ?b) 2)
    :effect (decrease (row ?b) 1))
  (:action up
    :parameters (?b - block)
    :precondition (< (row ?b) (rows))
    :effect (increase (row ?b) 1)))
