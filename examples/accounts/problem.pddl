; 4 and 6 are there, at least 6 and 5 are wanted.
;
; By hand: the sum stays 10, and 11 is wanted, so there is no plan. A search finds a new state to each side with each further step,
; so with the default budget of 100000 the states of fewer than 50000 steps are expanded, which are 99999, and one of 50000 steps;
; the other one waits, so the bound is 50000. The proof in certificate.txt says in three lines that there is no plan.
(define (problem eleven)
  (:domain accounts)
  (:init (= (left) 4) (= (right) 6))
  (:goal (and (>= (left) 6) (>= (right) 5))))
