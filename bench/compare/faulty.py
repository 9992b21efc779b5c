"""Makes texts of terms and commands with several faults at once, so that it shows which of them comes first.

The names are those of the declarations and definitions below.
"""

import random

DECLARATIONS = b"""(declare-fun p () Bool)
(declare-fun q () Bool)
(declare-fun |a b| () Bool)
(declare-fun x () Real)
(declare-fun y () Real)
(declare-fun a () U)
(declare-fun b () U)
(declare-fun f (U) U)
(declare-fun g (Real Bool) Bool)
(declare-fun h (Real) Real)""".split(b"\n")
DEFINITIONS = b"""(define-fun both ((v Bool) (w Bool)) Bool (and v w))
(define-fun more ((v Real)) Real (+ v 1))
(define-fun other () Bool (not p))
(define-fun same ((v U) (w U)) Bool (= v w))""".split(b"\n")
LEAVES = b"p q x y a z w true 1 2 0 0.5 other n t1".split()
ODD_LEAVES = b"""zz
let
"s"
:k
()
(p)
and
f
@z
(not)
170141183460469231731687303715884105728""".split(b"\n")
HEADS = b"""and or not = distinct ite => xor < <= > + - * / f g h both more same""".split()
ODD_HEADS = b"""zz forall p true |and| 5 "s" (not) :k @z let ! true""".split()
BOUND = b"z z w p x @v".split()
NUMERALS = [b"0", b"1", b"2", b"0.5", b"1.50", b"0.0", b"10", b"170141183460469231731687303715884105727"]
WIDE = [
    b"170141183460469231731687303715884105728",
    b"0." + b"0" * 37 + b"1",
    b"0." + b"0" * 38 + b"1",
    b"17014118346046923173168730371588410572.7",
    b"17014118346046923173168730371588410572.80",
]
ODD_TERMS = b"""()
(p)
zz
@zz
(zz p)
(forall ((v Bool)) p)
(let () p)
(let ((v)) p)
(let ((and p)) p)
(let ((v p) (v p)) v)
(let ((let p)) p)
(let ((5 p)) p)
(! p)
(! p :named)
(! p a)
(! p :named n)
(! p :named p)
(! zz :named n)
(! p :named let)
(! p :named true)
(! p :named 5)
let
!
"s"
:k
and
f
h
both
((not) p)
(5 p)
(true p)
(p p)
(not p p)
(xor p)
(ite p p)
(ite p x p)
(ite x p p)
(= p x)
(distinct p)
(and)
(and p x)
(+ p)
(- x p)
(/ x)
(* x x)
(< (* x x) 1)
(< (/ x y) 1)
(< (/ x 0) 1)
(< (/ x 0 y) 1)
(< (/ 1 (- 0.0)) x)
(< x)
(< x p)
x
1
(f p)
(g x)
(g p x)
(both p)
(both p x)
(/ x 0 (+ 1 1))
(/ x (+ 2))
(/ x (- 2 1))
(/ x (- 2))
(/ x (/ 1 2 4))
(* (+ 1 1) x)
(* (- 2 1) x 3)
(* (ite p 1 2) x)
(let ((k 2)) (* k x))
(let ((k 2)) (/ x k))
(let ((k 0)) (/ x k))
(let ((z p) (w z)) w)
(let ((z p) (w (not z))) w)
(let ((z p)) (! z :named n))
(let ((z p)) (! (let ((z z)) z) :named n))
(let ((z p)) (! (let ((z q)) z) :named n))
(let ((z p)) (! q :named n))
(! p :named n :named n)
(and (! p :named n) (! n :named m))
(and (! p :named n) (! q :named n))
(and n (! p :named n))
(! (! p :named n) :named m)
(! zz a)
(! p :named n :b c d)
(=> p q p)
(- x y 1)
(/ x 2 4)
(> x y 1)
(distinct p q p)
(distinct a b a)
(= x y 1)
(xor p q p)""".split(b"\n") + WIDE + NUMERALS
ODD_BOUND = b"and let <= |let|".split()
ATTRIBUTES = b""":a
:a 1
:a let
:named n
:named p
:named @n
:named let
:named and
:named n :named n
:named 5
:named
a
:a 1 2""".split(b"\n")
SORTS = b"Bool Bool Real U".split()
ODD_SORTS = b'W let 5 "s" (Bool) () :k |Real|'.split()
NEW_NAMES = [b"d", b"e", b"|d e|", b"m"]
TAKEN_NAMES = b"p x f both d and + let true @d .d n".split()
OTHER_SHAPES = b'5 "s" (d) :k () let'.split()
OF_SORTS = TAKEN_NAMES + ODD_SORTS


def one_of(usual, odd, share=0.3, shapes=()):
    """Returns a usual text, or in this share of the cases an odd one; in few cases one of other shapes."""
    if shapes and random.random() < 0.03:
        return random.choice(shapes)
    return random.choice(odd if random.random() < share else usual)


def several(most, make):
    """Returns texts, separated by blanks; none in few cases."""
    return b" ".join(make() for _ in range(random.choice([0] + 3 * list(range(1, most + 1)))))


def term(size):
    """Makes what may be a term, with faults at any of its places."""
    choice = random.random()
    if choice < 0.15:
        return random.choice(ODD_TERMS)
    if size <= 1 or choice < 0.2:
        return one_of(LEAVES, ODD_LEAVES, 0.25)
    if choice < 0.32:
        return b"(let (" + several(3, lambda: binding(size // 2)) + b") " + term(size // 2) + b")"
    if choice < 0.42:
        return b"(! " + term(size - 1) + b" " + random.choice(ATTRIBUTES) + b")"
    return b"(" + one_of(HEADS, ODD_HEADS, 0.2) + b" " + several(3, lambda: term(size // 2)) + b")"


def binding(size):
    """Makes a binding of `let`."""
    if random.random() < 0.02:
        return random.choice([b"z", b"(z)", b"(z p p)", b"()"])
    return b"(" + one_of(BOUND, ODD_BOUND, 0.2, OTHER_SHAPES) + b" " + term(size) + b")"


def parameter():
    """Makes a parameter of a definition."""
    if random.random() < 0.02:
        return random.choice([b"z", b"(z)", b"(z Bool Bool)", b"()"])
    return b"(" + one_of(BOUND, ODD_BOUND, 0.2, OTHER_SHAPES) + b" " + sort() + b")"


def sort():
    """Makes a sort, mostly one that there is."""
    return one_of(SORTS, ODD_SORTS)


def definition():
    """Makes a definition."""
    name = one_of(NEW_NAMES, TAKEN_NAMES, 0.25, OTHER_SHAPES)
    body = random.choice([b"p", b"x", b"z", term(2), term(4), term(6)])
    return b"(define-fun " + name + b" (" + several(3, parameter) + b") " + sort() + b" " + body + b")"


def declaration():
    """Makes a declaration of a script."""
    name = one_of(NEW_NAMES, TAKEN_NAMES, 0.4, OTHER_SHAPES)
    return random.choice(
        [
            b"(declare-const " + name + b" " + sort() + b")",
            b"(declare-fun " + name + b" (" + several(3, sort) + b") " + sort() + b")",
            b"(declare-sort " + one_of([b"V", b"W"], OF_SORTS) + b" " + one_of([b"0"], [b"1", b"x"], 0.1) + b")",
            b"(define-sort " + one_of([b"V"], OF_SORTS) + b" " + one_of([b"()"], [b"(X)"], 0.1) + b" " + sort() + b")",
            b"(set-logic " + one_of([b"ALL"], [b"QF_BV", b"let", b"5", b"QF_UF QF_UF"], 0.5) + b")",
        ]
    )


def command_of_a_script():
    """Makes a command of a script."""
    choice = random.random()
    if choice < 0.6:
        return b"(assert " + term(random.choice([2, 4, 6])) + b")"
    return definition() if choice < 0.8 else declaration()


def a_script():
    """Makes a script with commands that may have several faults each."""
    lines = [b"(declare-sort U 0)", *random.sample(DECLARATIONS, 8), *random.sample(DEFINITIONS, 2)]
    lines += [command_of_a_script() for _ in range(random.randint(3, 6))]
    return b"\n".join(lines) + b"\n"


NAMES = b"h1 h2 t1 t2 t3".split()
ODD_NAMES = b"|h1| p t9".split()
RULES = b"or resolution weakening and_pos true not_not equiv1 th_resolution |or| refl cong trans eq_congruent".split()
OTHER_RULES = b"hole congr Or".split()
CLAUSE_HEADS = b'|cl| kl "cl" (cl) 5'.split()
ATTRIBUTES_OF_STEPS = b""":args ()
:args (1 zz)
:args 5
:args
:discharge ()
:discharge (zz)
:discharge (5)
:foo ()
rule""".split(b"\n")


def literal():
    """Makes a literal of a clause."""
    return random.choice([b"p", b"(not q)", b"(= x 1)", b"(g x p)", b"x", b"a", term(2), term(4)])


def step():
    """Makes a step, each of whose parts may be wrong."""
    clause = b"(" + one_of([b"cl"], CLAUSE_HEADS, 0.03) + b" " + several(3, literal) + b")"
    parts = [b":rule " + one_of(RULES, OTHER_RULES, 0.4, OTHER_SHAPES)] if random.random() < 0.98 else []
    if random.random() < 0.7:
        parts.append(b":premises (" + several(3, lambda: one_of(NAMES, ODD_NAMES, 0.1, OTHER_SHAPES)) + b")")
    if random.random() < 0.1:
        parts.append(random.choice([*ATTRIBUTES_OF_STEPS, *parts]))
    random.shuffle(parts)
    return b"(step " + one_of(NAMES, ODD_NAMES, 0.1, OTHER_SHAPES) + b" " + clause + b" " + b" ".join(parts) + b")"


def assume(asserted):
    """Makes an assume of one of the terms that are asserted, or of another."""
    assumed = random.choice([*asserted, *asserted, literal(), term(3), b"p q"])
    return b"(assume " + one_of(NAMES, ODD_NAMES, 0.15, OTHER_SHAPES) + b" " + assumed + b")"


def command_of_a_proof(asserted):
    """Makes a command of a proof."""
    choice = random.random()
    return step() if choice < 0.55 else assume(asserted) if choice < 0.75 else definition()
