"""Formulas in which functions and linear real arithmetic share terms, family by family, for `bench/race.py combination`.

The scripts are the same on each machine: what is random comes from the generator of clause_families.py. Their
logic is `QF_UFLRA`.
"""

from itertools import combinations

from clause_families import numbers
from families import QUIET, Formula
from number_families import claim, declare, number, shuffled

LOGIC = "QF_UFLRA"
# How many places a program has: each script has about twice as many applications, and as many facts of arithmetic.
PLACES = 100
SEEDS = range(4)
GENERATED = (1, 2, 5, 10, 19, 20, 49, 50, 99, 100, 199, 200, 399, 400)
CIRCLES = (5, 10, 20, 40, 59)
FERRIES = (2, 4, 6, 8, 12)
RISERS = (5, 10, 15, 20, 30)
HOLES = (2, 3, 4, 5, 6)
GROUPS = (5, 10, 15, 20)
ROWS = (10, 20, 40, 60, 80)
RINGS = (10, 20, 40, 60)


def function(name, *sorts):
    """Declares a function by the sorts of its parameters and its result."""
    return f"(declare-fun {name} ({' '.join(sorts[:-1])}) {sorts[-1]})\n"


def plus(term, amount):
    """Writes a term with a whole number added."""
    return term if amount == 0 else f"(+ {term} {amount})" if amount > 0 else f"(- {term} {-amount})"


def scan(seed, is_valid):
    """Sums up values of f at indices one apart, of which each is in bounds where its index is.

    Claims that the sum is over the last bound, or reaches it.
    """
    source = numbers(seed)
    yield function("f", "Real", "Real") + "".join(declare(["start", "end", *(f"s{i}" for i in range(PLACES + 1))]))
    yield claim("(<= 0 start)") + claim(f"(= end (+ start {PLACES}))") + claim("(= s0 0)")
    total = 0
    for i in range(PLACES):
        bound, index = 1 + next(source) % 9, plus("start", i)
        total += bound
        yield claim(f"(=> (and (<= 0 {index}) (< {index} end)) (and (<= 0 (f {index})) (<= (f {index}) {bound})))")
        # The index of the sum is written from the other end.
        yield claim(f"(= s{i + 1} (+ s{i} (f (- end {PLACES - i}))))")
    yield claim(f"({'>' if is_valid else '>='} s{PLACES} {total})")


def copies(seed, is_valid):
    """Says that a loop copied values of f to g, an index further on; denies of some index that it was copied.

    One value is not copied where the claim is not valid.
    """
    source = numbers(100 + seed)
    yield function("f", "Real", "Real") + function("g", "Real", "Real") + "".join(declare(["base", "shift", "i"]))
    left_out = None if is_valid else next(source) % PLACES
    yield claim("(<= 1 shift)") + claim("(<= shift 1)")
    for i in shuffled(range(PLACES), source):
        if i != left_out:
            yield claim(f"(= (g (+ base {i} shift)) (f {plus('base', i)}))")
    places = [f"(= i {plus('base', i + 1)})" for i in range(PLACES)]
    yield claim(f"(or {' '.join(places)})") + claim("(not (= (g i) (f (- i shift))))")
    yield from (claim(f"(<= {number(-1 - next(source) % 9)} (f (+ base {i})) 9)") for i in range(1, PLACES + 1))


def walk(seed, is_valid):
    """Walks up by what f says at the place, or down by half of it; bounds say how far each step can lead.

    Claims that the end is further up than the steps can lead, or as far.
    """
    source = numbers(200 + seed)
    yield function("f", "Real", "Real") + function("up", "Real", "Bool")
    yield from declare([f"x{i}" for i in range(PLACES + 1)])
    total = 0
    for i in range(PLACES):
        most = 1 + next(source) % 5
        total += most
        yield claim(f"(<= 0 (f x{i}) {most})")
        yield claim(f"(= x{i + 1} (ite (up x{i}) (+ x{i} (f x{i})) (- x{i} (/ (f x{i}) 2))))")
    yield claim(f"({'>' if is_valid else '>='} (- x{PLACES} x0) {total})")


def reads(seed, is_valid):
    """Says that f rises from each index to the next, and reads it where bounds of an index tell its place.

    Claims that a value that is read further up is below one further down, or not above it.
    """
    source = numbers(300 + seed)
    yield function("f", "Real", "Real") + "".join(declare(["low", *(f"i{k}" for k in range(PLACES))]))
    offsets, at = [], 0
    for k in range(PLACES):
        at += 1 + next(source) % 3
        offsets.append(at)
        yield claim(f"(<= (+ low {at}) i{k})") + claim(f"(<= (- i{k} {at}) low)") + claim(f"(<= 0 (f i{k}))")
    for before, after in zip(offsets, offsets[1:]):
        yield claim(f"(<= (f (+ low {before})) (f (+ low {after})))")
    first, last = next(source) % (PLACES // 2), PLACES - 1 - next(source) % (PLACES // 2)
    yield claim(f"({'<' if is_valid else '<='} (f i{last}) (f i{first}))")


def generated(n):
    """Says that n + 1 numbers rise and end where they begin; for odd n, but not for even, f differs at the ends."""
    yield function("f", "Real", "Real")
    yield from (f"(declare-const x{i} Real)\n" for i in range(n + 1))
    yield from (claim(f"(<= x{i} x{i + 1})") for i in range(n))
    yield claim(f"(<= x{n} x0)")
    equality = f"(= (f x0) (f x{n}))"
    yield claim(equality if n % 2 == 0 else f"(not {equality})")


class Generated(Formula):
    """A formula of the generator's form, whose option comes before its logic."""

    def write(self, path):
        """Writes the script to a file."""
        with open(path, "w", encoding="ascii") as out:
            out.writelines((QUIET, f"(set-logic {self.logic})\n", *self.lines(), "(check-sat)\n"))


def circle(n, is_sat):
    """Says that f takes each number to the next, which is not below it, and the last one is not above the first.

    Denies that f takes the last to the first, or the number that is one above the last.
    """
    yield function("f", "Real", "Real") + "".join(declare([f"x{i}" for i in range(n + 1)]))
    for i in range(n):
        yield claim(f"(= (f x{i}) x{i + 1})") + claim(f"(<= x{i} x{i + 1})")
    yield claim(f"(<= x{n} x0)")
    yield claim(f"(not (= (f {plus(f'x{n}', int(is_sat))}) x0))")


def ferry(n, is_sat):
    """Takes two numbers n times to f of them with a number added; at the start they are equal by bounds, or near.

    Denies that they are equal at the end. Each equality on the way has to go from one theory to the other.
    """
    yield function("f", "Real", "Real")
    yield from declare([f"{name}{i}" for i in range(n + 1) for name in "xy"])
    yield claim("(<= x0 y0)") + claim(f"(<= y0 {'(+ x0 1)' if is_sat else 'x0'})")
    for i in range(n):
        yield from (claim(f"(= {name}{i + 1} (+ (f {name}{i}) {i + 1}))") for name in "xy")
    yield claim(f"(not (= x{n} y{n}))")


def risers(n, is_sat):
    """Says that f takes each number to the next, which is above it, and that f falls at one of them.

    It can be true where that may be beyond the last number, too.
    """
    yield function("f", "Real", "Real") + "".join(declare([f"x{i}" for i in range(n + 1)] + ["u"]))
    yield from (claim(f"(and (= (f x{i}) x{i + 1}) (< x{i} x{i + 1}))") for i in range(n))
    places = [f"(= u {term})" for i in range(n) for term in (f"x{i}", f"(f (- (+ x{i} 1) 1))") if i + 1 < n]
    yield claim(f"(or {' '.join([*places, f'(= u (+ x{n} 1))'] if is_sat else places)})") + claim("(< (f u) u)")


def pigeons(holes, is_sat):
    """Says that f takes each number to itself, and to one of the holes, and that g differs at all numbers."""
    count = holes if is_sat else holes + 1
    yield function("f", "Real", "Real") + function("g", "Real", "Real")
    yield from declare([f"x{i}" for i in range(count)])
    yield from (claim(f"(= (f {place}) {place})") for place in range(holes))
    for i in range(count):
        yield claim(f"(or {' '.join(f'(= (f x{i}) {place})' for place in range(holes))})")
        yield claim(f"(= (f x{i}) x{i})")
    yield from (claim(f"(not (= (g x{i}) (g x{j})))") for i, j in combinations(range(count), 2))


def groups(n, is_sat):
    """Makes three numbers equal in each of n groups, by bounds round a circle; f has another value in each group.

    Says that numbers of different groups are equal, by bounds, or that two of one group are.
    """
    source = numbers(400 + n)
    yield function("f", "Real", "Real") + "".join(declare([f"{name}{i}" for i in range(n) for name in "xyz"]))
    for i in range(n):
        yield from (claim(f"(<= {a}{i} {b}{i})") for a, b in ("xy", "yz", "zx"))
        yield claim(f"(<= (f x{i}) {i})") + claim(f"(> (f y{i}) {number(i - 1)})")
    one, other = shuffled(range(n), source)[:2]
    last = f"(<= z{one} {'z' if is_sat else 'x'}{one if is_sat else other} y{one})"
    yield claim(f"(or (<= z{other} y{one} x{other}) {last})")


def row(n, is_sat):
    """Says that n numbers rise, and f of them too, and that the last is not above the first, or is: of f."""
    yield function("f", "Real", "Real") + "".join(declare([f"x{i}" for i in range(n)]))
    for i in range(n - 1):
        yield claim(f"(< x{i} x{i + 1})") + claim(f"(< (f x{i}) (f x{i + 1}))")
    yield claim(f"({'<' if is_sat else '>='} (f x0) (f x{n - 1}))")


def ring(n, is_sat):
    """Says of n numbers that each is at most the next, the last at most the first, and that f rises from one to the next.

    It can be true where the first may be one above the last.
    """
    yield function("f", "Real", "Real") + "".join(declare([f"x{i}" for i in range(n)]))
    yield from (claim(f"(<= x{i} x{i + 1})") for i in range(n - 1))
    yield claim(f"(<= x{n - 1} {plus('x0', int(is_sat))})")
    rises = [f"(< (f x{i}) (f x{i + 1}))" for i in range(n - 1)]
    yield claim(f"(or {' '.join(rises)})")


def both(name, lines, sizes):
    """Returns for each size a formula that has no model, and one that has one."""
    made = []
    for n in sizes:
        for word, is_sat in (("unsat", False), ("sat", True)):
            made.append(Formula(f"{name}-{n}-{word}", lambda n=n, s=is_sat: lines(n, s), word, None, LOGIC))
    return made


def programs(name, lines):
    """Returns for each seed the denial of a claim about a program that is valid, and of one that is not."""
    return both(name, lambda seed, is_sat: lines(seed, not is_sat), SEEDS)


def of_generator():
    """Returns the formulas of the generator."""
    answers = ("sat", "unsat")
    return [Generated(f"generated-{n}", lambda n=n: generated(n), answers[n % 2], None, LOGIC) for n in GENERATED]


FAMILIES = {
    "scan": lambda: programs("scan", scan),
    "copies": lambda: programs("copies", copies),
    "walk": lambda: programs("walk", walk),
    "reads": lambda: programs("reads", reads),
    "generated": of_generator,
    "circles": lambda: both("circles", circle, CIRCLES),
    "ferries": lambda: both("ferries", ferry, FERRIES),
    "risers": lambda: both("risers", risers, RISERS),
    "pigeons": lambda: both("pigeons", pigeons, HOLES),
    "groups": lambda: both("groups", groups, GROUPS),
    "rows": lambda: both("rows", row, ROWS),
    "rings": lambda: both("rings", ring, RINGS),
}
# The first formulas of each family, for a short race.
QUICK = {"scan": 2, "copies": 2, "walk": 2, "reads": 2, "generated": 8, "circles": 4, "ferries": 4, "risers": 4}
QUICK |= {"pigeons": 4, "groups": 4, "rows": 4, "rings": 4}
