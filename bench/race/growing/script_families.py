"""Scripts by a number n: pairs of a line and its answer.

An answer is a line, or the column and the name of a refusal, or nothing. Each script has one command a line. Those that
only have to be read end with `echo`; the others end with a check.
"""

from typing import Callable, NamedTuple

SUCCESS = "success"
READ = ('(echo "read")', '"read"')
CHECK = ("(check-sat)", "sat")
# The greatest numerator that is read.
GREATEST = 2**127 - 1
# The definition f0 has two subterms, and each next one twice the applications: that of f24 has one subterm too many.
FIRST_FULL = 24


def taken(lines):
    """Returns the lines of commands that are taken."""
    return [(line, SUCCESS) for line in lines]


def named(head, n, name="p"):
    """Returns a head before n names."""
    return f"({head} {' '.join(f'{name}{i}' for i in range(n))})"


def constants(n, sort="Bool", name="p"):
    """Returns n declarations."""
    return taken(f"(declare-fun {name}{i} () {sort})" for i in range(n))


def declared(n):
    """Constants of sort Bool, and a check."""
    return [*constants(n), CHECK]


def functions(n):
    """Functions of three parameters, and a check."""
    return [*taken(["(declare-sort U 0)"]), *taken(f"(declare-fun f{i} (Bool U Real) U)" for i in range(n)), CHECK]


def sorts(n):
    """Sorts, a constant of each, and a check."""
    pairs = ((f"(declare-sort S{i} 0)", f"(declare-fun c{i} () S{i})") for i in range(n))
    return [*taken(line for pair in pairs for line in pair), CHECK]


def sort_names(n):
    """Names of sorts, of which each stands for the one before it, and a check."""
    first = taken(["(define-sort S0 () Real)"])
    return [*first, *taken(f"(define-sort S{i} () S{i - 1})" for i in range(1, n)), *constants(1, f"S{n - 1}"), CHECK]


def definitions(n):
    """Definitions with parameters, and a check."""
    return [*taken(f"(define-fun d{i} ((x Bool) (y Real)) Bool (and x (< y {i})))" for i in range(n)), CHECK]


def definition_used(n):
    """One definition, used with n constants."""
    first = taken(["(define-fun d ((x Bool) (y Bool)) Bool (and (or x y) (or x (not y))))"])
    return [*first, *constants(n), *taken(f"(assert (d p{i} p{i - 1}))" for i in range(1, n)), READ]


def definitions_chained(n):
    """Definitions that each have the one before twice, so that the last is as deep as they are many."""
    steps = taken(f"(define-fun d{i} () Bool (and d{i - 1} d{i - 1}))" for i in range(1, n))
    return [*constants(1), *taken(["(define-fun d0 () Bool p0)"]), *steps, READ]


def products_chained(n):
    """Definitions of numbers, each twice the one before."""
    steps = taken(f"(define-fun d{i} () Real (* 2 d{i - 1}))" for i in range(1, n))
    return [*constants(1, "Real", "x"), *taken(["(define-fun d0 () Real x0)"]), *steps, READ]


def assertions_chained(n):
    """Assertions with names, each of which has the one before."""
    steps = taken(f"(assert (! (and a{i - 1} p0) :named a{i}))" for i in range(1, n))
    return [*constants(1), *taken(["(assert (! p0 :named a0))"]), *steps, READ]


def nest(front, body, count):
    """Returns lets in each other, each of which has the name of the one before twice."""
    lets = "".join(f"(let ((x{i} (and x{i - 1} x{i - 1}))) " for i in range(1, count))
    return f"(let ((x0 {front})) {lets}{body}{')' * count}"


def lets_nested(n):
    """Lets in each other, in one assertion."""
    return [*constants(1), *taken([f"(assert {nest('p0', f'x{n - 1}', n)})"]), READ]


def lets_in_a_row(n):
    """Lets in one assertion each."""
    return [*constants(1), *taken(["(assert (let ((x p0)) x))"] * n), READ]


def let_wide(n):
    """One let with n names, all of which are used."""
    bound = " ".join(f"(x{i} p0)" for i in range(n))
    return [*constants(1), *taken([f"(assert (let ({bound}) {named('and', n, 'x')}))"]), READ]


def wide(head, sort="Bool"):
    """Returns the family of one assertion with a head before n constants."""
    return lambda n: [*constants(n, sort), *taken([f"(assert {named(head, n)})"]), READ]


def sums(n):
    """Sums with products and decimals, compared with different numbers."""
    steps = (f"(assert (< (+ x0 (* 2.5 x1) (- x2) 0.125) {i}))" for i in range(n))
    return [*constants(3, "Real", "x"), *taken(steps), READ]


def sum_wide(n):
    """One sum of n constants."""
    return [*constants(n, "Real"), *taken([f"(assert (<= {named('+', n)} 0))"]), READ]


def product_wide(n):
    """One product of n numbers and a constant."""
    return [*constants(1, "Real"), *taken([f"(assert (= (* {'2 ' * n}p0) 1))"]), READ]


def quotients(n):
    """Quotients by several numbers."""
    return [*constants(1, "Real"), *taken(f"(assert (= (/ p0 3 (- {i}) (/ 7 2)) 1))" for i in range(1, n + 1)), READ]


def numbers_of_39_digits(n):
    """The n greatest numbers that are read."""
    return [*constants(1, "Real"), *taken(f"(assert (< p0 {GREATEST - i}))" for i in range(n)), READ]


def decimal_long(n):
    """A decimal with n zeros at its end."""
    return [*constants(1, "Real"), *taken([f"(assert (< p0 0.5{'0' * n}))"]), READ]


def numeral_long(n):
    """A numeral of more digits than are read."""
    return [*constants(1, "Real"), (f"(assert (< p0 1{'0' * (n + 38)}))", (15, "NumberWide")), READ]


def names(n):
    """Assertions with a name each, and one that uses all of them."""
    steps = taken(f"(assert (! (or p{i} (not p{i})) :named a{i}))" for i in range(n))
    return [*constants(n), *steps, *taken([f"(assert {named('and', n, 'a')})"]), READ]


def names_of_one(n):
    """One term with n names."""
    return [*constants(1), *taken([f"(assert (! p0 {' '.join(f':named a{i}' for i in range(n))}))"]), READ]


def attributes(n):
    """One term with n attributes that are not known."""
    return [*constants(1), *taken([f"(assert (! p0 {' '.join(f':a{i} (b {i})' for i in range(n))}))"]), READ]


def faults(n):
    """Assertions of 1,000 arguments of which the last is not known, as many as n has thousands; and a check."""
    line = f"(assert (and{' p0' * 999} zz))"
    return [*constants(1), *[(line, (len(line) - 3, "UnknownSymbol"))] * (n // 1000), CHECK]


def levels_in_turn(n):
    """Constants with an assertion of each, and then levels one after the other, each with a constant and an assertion."""
    before = [*constants(n), *taken(f"(assert (or p{i} (not p{i})))" for i in range(n))]
    level = taken(["(push 1)", "(declare-fun q () Bool)", "(assert q)", "(pop 1)"])
    return [*before, *level * n, READ]


def levels_nested(n):
    """Levels in each other, each with a constant and an assertion, which are all closed one by one; and a check."""
    opened = [["(push)", f"(declare-fun p{i} () Bool)", f"(assert p{i})"] for i in range(n)]
    return [*taken(line for lines in opened for line in lines), *taken(["(pop)"] * n), CHECK]


def levels_at_once(n):
    """n levels opened by one command and closed by one, ten times, and a check."""
    return [*taken([f"(push {n})", f"(pop {n})"] * 10), CHECK]


def asserts(n):
    """Assertions of one constant."""
    return [*constants(1), *taken(["(assert p0)"] * n), READ]


def assertions_asked(n):
    """Assertions of one constant, and a question for all of them."""
    listed = ("(get-assertions)", f"({' '.join(['p0'] * n)})")
    return [*taken(["(set-option :produce-assertions true)"]), *constants(1), *taken(["(assert p0)"] * n), listed]


def checked(*commands):
    """Returns commands and a check, after which values may be asked for."""
    return [*taken(["(set-option :produce-models true)", *commands]), CHECK]


def values_asked(n):
    """A check, and n questions for one value."""
    question = ("(get-value (x (+ x 1)))", "((x 1) ((+ x 1) 2))")
    return [*checked("(declare-const x Real)", "(assert (= x 1))"), *[question] * n]


def values_at_once(n):
    """A check, and one question for n values."""
    terms = [f"(+ x {i})" for i in range(n)]
    values = " ".join(f"({term} {i + 1})" for i, term in enumerate(terms))
    return [*checked("(declare-const x Real)", "(assert (= x 1))"), (f"(get-value ({' '.join(terms)}))", f"({values})")]


def value_deep(n):
    """Definitions that each have the one before twice, a check, and a question for the value of the last."""
    first = ["(declare-const p Bool)", "(assert p)", "(define-fun d0 () Bool p)"]
    steps = [f"(define-fun d{i} () Bool (and d{i - 1} d{i - 1}))" for i in range(1, n)]
    return [*checked(*first, *steps), (f"(get-value (d{n - 1}))", f"((d{n - 1} true))")]


def infos_asked(n):
    """Questions for infos and options."""
    return [("(get-info :name)", '(:name "smt_cli")'), ("(get-option :print-success)", "true")] * n


class Family(NamedTuple):
    """A script by a number."""

    script: Callable


FAMILIES = {
    "constants": Family(declared),
    "functions": Family(functions),
    "sorts": Family(sorts),
    "sort names": Family(sort_names),
    "definitions": Family(definitions),
    "a definition used": Family(definition_used),
    "definitions chained": Family(definitions_chained),
    "products chained": Family(products_chained),
    "assertions chained": Family(assertions_chained),
    "lets nested": Family(lets_nested),
    "lets in a row": Family(lets_in_a_row),
    "let wide": Family(let_wide),
    "and wide": Family(wide("and")),
    "or wide": Family(wide("or")),
    "= wide": Family(wide("=")),
    "xor wide": Family(wide("xor")),
    "=> wide": Family(wide("=>")),
    "< wide": Family(wide("<", "Real")),
    "sums": Family(sums),
    "sum wide": Family(sum_wide),
    "product wide": Family(product_wide),
    "quotients": Family(quotients),
    "numbers of 39 digits": Family(numbers_of_39_digits),
    "decimal long": Family(decimal_long),
    "numeral long": Family(numeral_long),
    "names": Family(names),
    "names of one term": Family(names_of_one),
    "attributes": Family(attributes),
    "faults": Family(faults),
    "levels in turn": Family(levels_in_turn),
    "levels nested": Family(levels_nested),
    "levels at once": Family(levels_at_once),
    "asserts": Family(asserts),
    "assertions asked": Family(assertions_asked),
    "values asked": Family(values_asked),
    "values at once": Family(values_at_once),
    "value deep": Family(value_deep),
    "infos asked": Family(infos_asked),
}


class End(NamedTuple):
    """A script that has to end soon: its lines, its status, and the seconds that it may take."""

    name: str
    script: Callable
    status: int
    most: int


def doubled(count):
    """Definitions that each apply the one before twice: for f24 there is no room, and so the next is not known."""
    lines = [("(define-fun f0 ((x Bool)) Bool (not x))", SUCCESS)]
    for i in range(1, count):
        line = f"(define-fun f{i} ((x Bool)) Bool (f{i - 1} (f{i - 1} x)))"
        unknown = line.rindex("(f") + 2, "UnknownSymbol"
        lines.append((line, SUCCESS if i < FIRST_FULL else (1, "Full") if i == FIRST_FULL else unknown))
    return [*lines, READ]


def repeated(count):
    """`distinct` of one constant so often, which takes as many negated equalities as there are pairs."""
    return f"(assert (distinct{' p0' * count}))"


def too_many_pairs(count):
    """A script with more pairs than there is memory for: what comes after it is not run."""
    return [*constants(1), (repeated(count), ""), ("(check-sat)", "")]


ENDS = [
    End("definitions twice the one before, 30", lambda: doubled(30), 1, 60),
    End("`distinct` of one constant 1,000 times", lambda: [*constants(1), (repeated(1_000), SUCCESS), READ], 0, 1),
    End("11,585 times, 67,100,320 pairs", lambda: [*constants(1), (repeated(11_585), SUCCESS), READ], 0, 60),
    End("11,586 times, more than 2^26 pairs", lambda: too_many_pairs(11_586), 3, 1),
    End("1,000,000 times", lambda: too_many_pairs(1_000_000), 3, 5),
]
