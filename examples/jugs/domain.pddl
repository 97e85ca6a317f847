; Jugs of water: a step fills a jug to the brim, empties it, or pours from one into another until the one is empty or the other full.
; What an effect adds must not be a value that changes, so the amount that is poured is an object, whose litres are static; the
; conditions let the right one alone be poured.
;
; By hand, for the problem beside it: write (s, l) for the litres in the small and the large jug. From (0, 0) each of these is first
; reached by so many steps:
;   1: (3, 0) (0, 5)           4: (1, 5) (2, 0)
;   2: (3, 5) (0, 3) (3, 2)    5: (1, 0) (2, 5)
;   3: (3, 3) (0, 2)           6: (0, 1) (3, 4)
; From a state of one line the steps lead back to (0, 0), or to states up to the next line. So no plan has fewer than 6 steps, and
; (0, 5) (3, 2) (0, 2) (2, 0) (2, 5) (3, 4) are those of a plan that has 6.
(define (domain jugs)
  (:types jug amount)
  (:functions (level ?j - jug) (size ?j - jug) (litres ?a - amount))
  (:action fill
    :parameters (?j - jug ?a - amount)
    :precondition (= (+ (level ?j) (litres ?a)) (size ?j))
    :effect (increase (level ?j) (litres ?a)))
  (:action empty
    :parameters (?j - jug ?a - amount)
    :precondition (= (level ?j) (litres ?a))
    :effect (decrease (level ?j) (litres ?a)))
  (:action pour-all
    :parameters (?from ?to - jug ?a - amount)
    :precondition (and (not (= ?from ?to)) (= (level ?from) (litres ?a))
      (<= (+ (level ?to) (litres ?a)) (size ?to)))
    :effect (and (decrease (level ?from) (litres ?a)) (increase (level ?to) (litres ?a))))
  (:action pour-to-the-brim
    :parameters (?from ?to - jug ?a - amount)
    :precondition (and (not (= ?from ?to)) (>= (level ?from) (litres ?a))
      (= (+ (level ?to) (litres ?a)) (size ?to)))
    :effect (and (decrease (level ?from) (litres ?a)) (increase (level ?to) (litres ?a)))))
