(set-option :print-success false)
(set-logic QF_UFLRA)
; One step of a loop that looks for the greatest value of an array f:
;     if f(i) > m then m := f(i);  i := i + 1
(declare-fun f (Real) Real)
(declare-const i Real)
(declare-const m Real)
(declare-const new_i Real)
(declare-const new_m Real)
(assert (= new_m (ite (> (f i) m) (f i) m)))
(assert (= new_i (+ i 1)))
; Before it, f was at most m at some place j.
(declare-const j Real)
(assert (<= (f j) m))
; After it, that does not hold of the new m, at j or at the place before the new i.
(assert (or (> (f j) new_m) (> (f (- new_i 1)) new_m)))
(check-sat)
