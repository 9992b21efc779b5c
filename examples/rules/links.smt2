(declare-const a Bool)(declare-const b Bool)(declare-const c Bool)(declare-const d Bool)
(assert (= a b))(assert (= c b))(assert (= c d))(assert (distinct a d))(check-sat)
