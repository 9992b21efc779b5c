"""Measures simplex on families of systems that grow.

The program is `race`, as the gate leaves it in crates/race/out. Each family has n rows, at some sizes up to 2,000, or
those of them up to --most:

- chain: differences of a variable and the one before it, each at least 1, where the last variable less the first is at most n
- cycle: differences in a circle of n variables, each at least 1
- transport: ten sources and n - 10 sinks, which take all that the sources give
- square: n/2 sources and n/2 sinks
- dense: equations over n variables that are at least 0, each with all of them
- loose: the same sums, which are at least what they are there
- sparse: equations over n such variables, each with three of them

The coefficients of the last three are from -5 to 5, not 0, and look chosen at random. Values from 0 to 9 keep the bounds.

What is known of a line beforehand is compared. In `chain` and `cycle` that is all of it. Else it is the numbers of rows, of
variables and, but for `sparse`, of entries, and the answer: `fine`, in the last three also `overflow`. An operation that left
128 bits is made again here. For the last three it is then told at how many rows this first happens, of up to 60, or up
to 150 of `sparse`. A line that is another one is told.

Times are without the start of the process and the making of the rows, which a run of its own measures: the least of
three runs each. A run that takes more than five seconds is not repeated, and one of more than five minutes is stopped.
"""

import math
import re
from dataclasses import dataclass
from fractions import Fraction

from groups import Group, add_most
from runs import least
from tables import head, row

SIZES = {
    "chain": (100, 500, 1_000, 2_000),
    "cycle": (100, 200, 500, 1_000),
    "transport": (50, 100, 200, 500),
    "square": (50, 100, 150, 200),
    "dense": (10, 20, 30, 60),
    "loose": (10, 20, 30, 60),
    "sparse": (50, 90, 200, 500),
}
ENDS = {"dense": range(2, 61), "loose": range(2, 61), "sparse": range(10, 151, 10)}
RUNS = 3
LONGEST = 300
BOUND = 2**127
BUILT = re.compile(r"(\d+) rows, (\d+) variables, (\d+) entries")
CHECKED = re.compile(BUILT.pattern + r", (\d+) entries after (\d+) exchanges, (.+)")


@dataclass
class Line:
    """A line that is printed: the system, its entries after the exchanges, and the answer."""

    rows: int
    variables: int
    entries: int
    after: int
    exchanges: int
    answer: str


def grid(n, sources):
    """What is known of a line of `transport` or `square`."""
    cells = sources * (n - sources)
    return {"rows": n, "variables": cells + n, "entries": 2 * cells, "answer": "fine"}


KNOWN = {
    "chain": lambda n: Line(n, 2 * n + 1, 2 * n, n * (n + 3) // 2, n, "fine").__dict__,
    "cycle": lambda n: Line(n, 2 * n, 2 * n, n * (n + 3) // 2 - 2, n - 1, "conflict").__dict__,
    "transport": lambda n: grid(n, min(10, n // 2)),
    "square": lambda n: grid(n, n // 2),
    "dense": lambda n: {"rows": n, "variables": 2 * n, "entries": n * n},
    "loose": lambda n: {"rows": n, "variables": 2 * n, "entries": n * n},
    "sparse": lambda n: {"rows": n, "variables": 2 * n},
}


def is_wide(sign, a, b):
    """Tells whether a sum, difference, product or quotient of two fractions leaves 128 bits."""
    if sign in "+-":
        b = b if sign == "+" else -b
        shared = math.gcd(a.denominator, b.denominator)
        left, right = a.numerator * (b.denominator // shared), b.numerator * (a.denominator // shared)
        parts = [left, right, left + right, (a + b).numerator, (a + b).denominator]
    else:
        result = a * b if sign == "*" else a / b
        parts = [result.numerator, result.denominator]
    return any(abs(part) >= BOUND for part in parts)


def is_answer(name, answer):
    """Tells whether an answer can be one of the family."""
    if name not in ENDS:
        return True
    word, *operation = answer.split(" ")
    if word == "overflow" and len(operation) == 3:
        return is_wide(operation[0], Fraction(operation[1]), Fraction(operation[2]))
    return answer == "fine"


def checked(program, name, n, runs):
    """Checks a system; returns the line, if it is as it should be, and the run."""
    ran = least([program, name, str(n)], runs, LONGEST)
    found = CHECKED.fullmatch("\n".join(ran.lines))
    if ran.status != 0 or not found:
        return None, ran
    line = Line(*(int(number) for number in found.groups()[:5]), found.group(6))
    as_known = all(getattr(line, part) == value for part, value in KNOWN[name](n).items())
    return (line if as_known and is_answer(name, line.answer) else None), ran


def told(name, n, ran):
    """Says what is wrong with a run."""
    if ran.status is None:
        return f"{name} at {n:,}: stopped after {LONGEST} s"
    return f"{name} at {n:,}: status {ran.status}, got {ran.output[:300]!r}"


def run_family(program, name, sizes):
    """Prints a row for each size; returns what is wrong, as texts."""
    wrong = []
    for n in sizes:
        line, ran = checked(program, name, n, RUNS)
        if line is None:
            wrong.append(told(name, n, ran))
            continue
        built = least([program, name, str(n), "build"], RUNS, LONGEST)
        if built.status != 0 or not BUILT.fullmatch("\n".join(built.lines)):
            wrong.append(told(name, n, built))
            continue
        seconds = max(ran.seconds - built.seconds, 0)
        each = 1e6 * seconds / max(line.exchanges, 1)
        counts = [f"{count:,}" for count in (n, line.entries, line.after, line.exchanges)]
        row([name, *counts, f"{seconds:.3f}", f"{each:,.0f}", f"{ran.memory:,}", line.answer.split(" ")[0]])
    return wrong


def run_ends(program, name):
    """Prints at which sizes 128 bits end; returns what is wrong, as texts."""
    wrong, wide, fine = [], [], []
    for n in ENDS[name]:
        line, ran = checked(program, name, n, 1)
        if line is None:
            wrong.append(told(name, n, ran))
        else:
            (fine if line.answer == "fine" else wide).append((n, line))
    span = f"{name}, from {ENDS[name][0]} to {ENDS[name][-1]} rows: "
    if wrong or not wide:
        print(span + ("not known" if wrong else "no overflow"))
        return wrong
    n, line = wide[0]
    last = max((m for m, _ in fine), default="none")
    print(f"{span}the first overflow at {n} rows, after {line.exchanges:,} exchanges, the last `fine` at {last}")
    print(f"    {line.answer}")
    return wrong


def run_all(asked):
    """Runs the families that are asked for; returns what is wrong, as texts."""
    wrong = []
    numbers = ["rows", "entries", "after", "exchanges", "seconds", "microseconds each", "peak memory in KB"]
    head(["family", *numbers, "answer"])
    for name in asked.families:
        wrong += run_family(asked.program, name, [n for n in SIZES[name] if n <= asked.most])
    print()
    for name in asked.families:
        if name in ENDS:
            wrong += run_ends(asked.program, name)
    return wrong


GROUP = Group(__doc__, SIZES, lambda parser: add_most(parser, SIZES["chain"]), run_all)
