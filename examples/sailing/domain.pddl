; Sailing, after the domain of the literature: on a sea without end a boat makes 1.5 along both axes to the north-east or
; north-west, 3 to the east or west, 2 along both axes to the south-east or south-west, and 2 to the south. Someone can be taken
; aboard in a small place, which is bounded by x + y and y - x.
;
; By hand, for the problem beside it. The steps change (x + y, y - x) so:
;   north-east (3, 0)    east (3, -3)    south-west (-4, 0)    south (-2, -2)
;   north-west (0, 3)    west (-3, 3)    south-east (0, -4)
; Let n count those to the north-east and north-west and m the three that go south. At the place x + y is 7 or 8 and y - x is 4 or
; 5, and 3n - 4m, their sum, is 11, 12 or 13. With m = 0 it isn't reached, since x + y is then a multiple of 3. With m = 1 it takes
; n = 5, and with m of 2 or more n of 7 or more. So at least 6 steps lead there, and taking someone aboard is one more. 3 to the
; north-east, 2 to the north-west and 1 to the south lead to (7, 4): 7 steps. No bound on the values is needed for this answer.
(define (domain sailing)
  (:types boat person)
  (:predicates (saved ?p - person))
  (:functions (x ?b - boat) (y ?b - boat) (sum ?p - person) (difference ?p - person))
  (:action go-north-east
    :parameters (?b - boat)
    :effect (and (increase (x ?b) 1.5) (increase (y ?b) 1.5)))
  (:action go-north-west
    :parameters (?b - boat)
    :effect (and (decrease (x ?b) 1.5) (increase (y ?b) 1.5)))
  (:action go-east
    :parameters (?b - boat)
    :effect (increase (x ?b) 3))
  (:action go-west
    :parameters (?b - boat)
    :effect (decrease (x ?b) 3))
  (:action go-south-west
    :parameters (?b - boat)
    :effect (and (decrease (x ?b) 2) (decrease (y ?b) 2)))
  (:action go-south-east
    :parameters (?b - boat)
    :effect (and (increase (x ?b) 2) (decrease (y ?b) 2)))
  (:action go-south
    :parameters (?b - boat)
    :effect (decrease (y ?b) 2))
  (:action save
    :parameters (?b - boat ?p - person)
    :precondition (and (>= (+ (x ?b) (y ?b)) (sum ?p)) (<= (+ (x ?b) (y ?b)) (+ (sum ?p) 1))
      (>= (- (y ?b) (x ?b)) (difference ?p)) (<= (- (y ?b) (x ?b)) (+ (difference ?p) 1)))
    :effect (saved ?p)))
