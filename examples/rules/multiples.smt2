(declare-const x Real)
(assert (< (* 3 x) 0))(assert (< 0 x))(check-sat)
