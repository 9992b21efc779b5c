"""Measures congruence closure on families of terms that grow.

The program is `race`, as the gate leaves it in crates/race/out. Each family is run at n = 1,000, 10,000 and 100,000, or
those of them up to --most:

- chains: a, f(a), f(f(a)) and so on; a is equal to the third and to the fifth application, so that all are congruent
- grid: g(x, y) for the square root of n arguments x and as many y; the x become equal one by one, then the y, with a mark
  before each and a check after each
- merges: n constants, of which n pairs become equal that look chosen at random, with a mark before every sixteenth and a
  check before that

Each then goes back over its marks one by one, with a check after each. The terms that were there before
the first mark were not looked at there, so the last check looks at them again.

The line that is written is foretold, for `merges` by classes of constants that are joined here. Where another one comes,
or where ten times n takes more than twenty times as long, that is told. Times are from the start of the process on: the
median of three runs. They include that the terms are made. Those below 0.01 s, of which the start takes a good part,
count as 0.01 s in the comparison. A run of more than two minutes is stopped.
"""

import math

from groups import Group, add_most
from runs import run
from tables import head, is_too_long, row, times_before

SIZES = (1_000, 10_000, 100_000)
RUNS = 3
MOST = 20
LONGEST = 120


def random_numbers():
    """Gives the numbers of `merges`, by a linear congruence modulo 2^64 (Knuth), of which the upper bits are taken."""
    number = 1
    while True:
        number = (number * 6364136223846793005 + 1442695040888963407) % 2**64
        yield number >> 33


def first_class(n):
    """Counts the constants that `merges` makes equal to the first one."""
    above, numbers = list(range(n)), random_numbers()

    def top(a):
        while above[a] != a:
            above[a] = above[above[a]]
            a = above[a]
        return a

    for _ in range(n):
        a, b = top(next(numbers) % n), top(next(numbers) % n)
        above[a] = b
    return sum(top(a) == top(0) for a in range(n))


def closed(terms, same):
    """The line of a family that is closed: after going back the first term is congruent to itself alone."""
    return f"{terms} terms, {same} congruent to the first, 1 after going back"


def chains(n):
    """The line of `chains`, from n 5 on."""
    return closed(n + 1, n + 1)


def grid(n):
    """The line of `grid`."""
    cells = math.isqrt(n) ** 2
    return closed(cells, cells)


def merges(n):
    """The line of `merges`."""
    return closed(n, first_class(n))


FAMILIES = {"chains": chains, "grid": grid, "merges": merges}


def median(words):
    """Runs the words a few times, and gives the run of the median time, or the first one that fails or differs."""
    ran = []
    for _ in range(RUNS):
        ran.append(run(words, LONGEST))
        if (ran[-1].output, ran[-1].status) != (ran[0].output, 0):
            return ran[-1]
    return sorted(ran, key=lambda one: one.seconds)[RUNS // 2]


def run_family(program, name, sizes):
    """Prints a row for each size; returns what is wrong, as texts."""
    wrong, before = [], None
    for n in sizes:
        ran, wanted = median([program, name, str(n)]), f"{FAMILIES[name](n)}\n".encode()
        if ran.status is None:
            return [*wrong, f"{name} at {n:,}: stopped after {LONGEST} s"]
        if (ran.output, ran.status) != (wanted, 0):
            return [*wrong, f"{name} at {n:,}: status {ran.status}, wanted {wanted!r}, got {ran.output[:200]!r}"]
        times = times_before(ran.seconds, before)
        if is_too_long(ran.seconds, before, MOST):
            times += " too long"
            wrong.append(f"{name} at {n:,}: ten times n cost more than {MOST} times the time")
        row([name, f"{n:,}", f"{ran.seconds:.3f}", times, f"{ran.memory:,}", f"{1024 * ran.memory / n:,.0f}"])
        before = ran.seconds
    return wrong


def run_all(asked):
    """Runs the families that are asked for; returns what is wrong, as texts."""
    head(["family", "n", "seconds", "times the row before", "peak memory in KB", "bytes for each of n"])
    sizes = [n for n in SIZES if n <= asked.most]
    return [what for name in asked.families for what in run_family(asked.program, name, sizes)]


GROUP = Group(__doc__, FAMILIES, lambda parser: add_most(parser, SIZES), run_all)
