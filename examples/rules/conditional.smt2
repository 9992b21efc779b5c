(declare-sort U 0)(declare-const u U)(declare-const v U)(declare-const p Bool)(assert p)(assert (not p))(check-sat)
