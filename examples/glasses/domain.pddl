; Glasses are filled by halves of a litre as far as their size allows, and only clean ones. The large glass has no size, so no step pours
; into it.
;
; By hand, for the problem beside it: the goal needs more than 0.75 in the small glass, so two pours at a cost of 1 each.
;
; And what `list` prints (list.txt). The start value 0 and the change 0.5 become whole with the unit 2. Read as conditions are two
; atoms, that the small glass is clean and that the large one is, and one term, the level of the small glass. Let L be
; that level in halves. `pour` needs 1.25 - 0.5 - L/2 to be at least 0, so 1.5 - L, which for a whole L is 1 - L. The goal
; needs L/2 above 0.75, so L above 1.5, which for a whole L is L - 2 at least 0.
(define (domain glasses)
  (:requirements :typing :numeric-fluents :negative-preconditions)
  (:types glass)
  (:predicates (clean ?g - glass))
  (:functions (level ?g - glass) (size ?g - glass) (total-cost))
  (:action pour
    :parameters (?g - glass)
    :precondition (and (clean ?g) (<= (+ (level ?g) 0.5) (size ?g)))
    :effect (and (increase (level ?g) 0.5) (increase (total-cost) 1)))
  (:action wash
    :parameters (?g - glass)
    :precondition (not (clean ?g))
    :effect (and (clean ?g) (increase (total-cost) 3))))
