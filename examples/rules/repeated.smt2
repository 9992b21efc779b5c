(declare-const p Bool)(assert (or p p))(assert (not p))(check-sat)
