(declare-const a Bool)(declare-const b Bool)(declare-const c Bool)
(assert (= a b))(assert (not (= (xor a c) (xor b c))))(check-sat)
