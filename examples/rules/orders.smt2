(declare-const x Real)(declare-const y Real)
(assert (< x y))(assert (< y x))(check-sat)
