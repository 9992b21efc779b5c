"""Small scripts that show each kind of answer, with what is written for them; the crate run_tests has them too.

A row is the word of the command, the script, and the lines of the output; a proof in it is not written out.
"""

QUIET = b"(set-option :print-success false)\n"
FUNCTION_OF_U = b"(declare-sort U 0)(declare-fun f (U) U)(declare-const a U)"
FUNCTION_OF_REALS = b"(declare-fun f (Real) Real)(declare-const x Real)(declare-const y Real)"
WIDE = b"100000000000000000000"

ROWS = (
    ("solve", b"", b""),
    ("solve", QUIET + b"(check-sat)", b"sat\n"),
    ("certify", QUIET + b"(check-sat)", b"sat\n(\n)\n"),
    ("solve", b"(assert false)(check-sat)", b"success\nunsat\n"),
    ("certify", QUIET + FUNCTION_OF_U + b"(declare-const b U)(assert (= a b))(assert (distinct (f a) (f b)))(check-sat)", None),
    (
        "solve",
        QUIET + FUNCTION_OF_U + b"(assert (= (f (f (f a))) a))(assert (= (f (f (f (f (f a))))) a))(assert (not (= (f a) a)))(check-sat)",
        b"unsat\n",
    ),
    (
        "solve",
        QUIET + b"(set-option :produce-models true)(declare-const x Real)(assert (< 0 x 1))(assert (= (* 3 x) 1))(check-sat)"
        b"(get-value (x (+ x 1)))",
        b"sat\n((x (/ 1 3)) ((+ x 1) (/ 4 3)))\n",
    ),
    (
        "solve",
        QUIET + FUNCTION_OF_REALS + b"(assert (<= x y))(assert (<= y x))(assert (distinct (f x) (f y)))(check-sat)",
        b"unsat\n",
    ),
    (
        "solve",
        QUIET + b"(declare-sort U 0)(declare-fun g (U) Real)(declare-const a U)(declare-const b U)(assert (= a b))"
        b"(assert (> (g a) (g b)))(check-sat)",
        b"unsat\n",
    ),
    (
        "solve",
        QUIET + FUNCTION_OF_REALS + b"(assert (< 0 x))(assert (< x y))(assert (< y 1))(assert (= (f x) 1))(assert (= (f y) 2))"
        b"(check-sat)",
        b"sat\n",
    ),
    (
        "solve",
        QUIET + b"(push 1)(declare-const c Real)(assert (< c c))(check-sat)(pop 1)(declare-const c Bool)(assert c)(check-sat)",
        b"unsat\nsat\n",
    ),
    ("solve", QUIET + b"(push 2)(pop 3)(check-sat)", b'(error "2:9: PopTooFar")\nsat\n'),
    (
        "solve",
        QUIET + b"(declare-const x Real)(assert (> (* " + WIDE + b" (* " + WIDE + b" x)) 1))(check-sat)(get-info :reason-unknown)",
        b"unknown\n(:reason-unknown (overflow mul " + WIDE + b" " + WIDE + b"))\n",
    ),
    (
        "solve",
        QUIET + b"(assert (= 170141183460469231731687303715884105727 0))\n"
        b"(assert (= 170141183460469231731687303715884105728 0))\n(check-sat)",
        b'(error "3:12: NumberWide")\nunsat\n',
    ),
    (
        "solve",
        QUIET + b"(declare-const x Real)\n(declare-const y Real)\n(assert (< (* x y) 1))\n(assert (< (/ x 0.0) 1))\n"
        b"(assert (< (/ x (- (/ 1 2))) 1))\n(assert (< (/ x (+ 1 1)) 1))\n(check-sat)",
        b'(error "4:12: NotLinear")\n(error "5:12: ZeroDivisor")\n(error "7:12: NotLinear")\nsat\n',
    ),
)
