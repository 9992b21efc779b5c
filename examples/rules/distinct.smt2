(declare-const p Bool)(declare-const q Bool)(assert (distinct p q))(assert (= p q))(check-sat)
