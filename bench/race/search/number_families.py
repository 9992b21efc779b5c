"""Formulas of linear real arithmetic, family by family, for `bench/race.py numbers`.

The scripts are the same on each machine: what is random comes from the generator of clause_families.py. Those of
job shops are difference logic, `QF_RDL`, the others `QF_LRA`.
"""

from functools import partial
from itertools import combinations

from clause_families import numbers
from families import Formula

JOBS = (3, 4, 5, 6, 7, 8)
MACHINES = 3
# How many orders of the jobs are tried to find a short schedule.
TRIALS = 300
ROWS = (20, 40, 60, 80, 100)
SEEDS = range(4)
FACTORS = (-5, -3, -2, 2, 3, 5)
# How many clauses a system has for each of its rows.
DENSITY = 2.0
STEPS = (5, 10, 15, 20, 30)
CLOCK_STEPS = (9, 18, 36, 72)
SUM_STEPS = (4, 6, 7, 8)
PLAN_STEPS = (6, 8, 9, 12)
# How far each place is from the next, round a circle; a tank holds TANK, and is filled at the first place. So it takes two
# trips, of four steps each, and a step to fill it between them.
WAYS = (3, 4, 2, 5, 3)
TANK = 16
# The greatest value of a saturating counter, and how many ticks a clock has.
FULL = 4
TICKS = 8


def declare(names, sort="Real"):
    """Declares constants."""
    return [f"(declare-fun {name} () {sort})\n" for name in names]


def claim(formula):
    """Asserts a formula."""
    return f"(assert {formula})\n"


def number(value):
    """Writes a whole number."""
    return f"(- {-value})" if value < 0 else str(value)


class Shop:
    """A shop: of each job the machines in its order and how long it takes there, and a short schedule's end."""

    def __init__(self, jobs):
        source = numbers(jobs)
        self.orders = [shuffled(range(MACHINES), source) for _ in range(jobs)]
        self.times = [[1 + next(source) % 9 for _ in range(MACHINES)] for _ in range(jobs)]
        self.end = min(self.scheduled(source) for _ in range(TRIALS))

    def scheduled(self, source):
        """Returns the end of a schedule that puts the steps of jobs one after the other, in an order by chance."""
        free, done, steps = [0] * MACHINES, [0] * len(self.orders), [0] * len(self.orders)
        for job in shuffled(list(range(len(done))) * MACHINES, source):
            step, machine = steps[job], self.orders[job][steps[job]]
            done[job] = free[machine] = max(done[job], free[machine]) + self.times[job][step]
            steps[job] += 1
        return max(done)

    @property
    def load(self):
        """What no schedule can end before: the longest job, and the machine with most to do."""
        machines = [0] * MACHINES
        for order, times in zip(self.orders, self.times):
            for machine, time in zip(order, times):
                machines[machine] += time
        return max(*machines, *map(sum, self.times))

    def lines(self, end):
        """Asserts that all jobs are done by an end, on each machine one after the other."""
        names = [[f"s{job}_{step}" for step in range(MACHINES)] for job in range(len(self.orders))]
        yield from declare(["start", *(name for row in names for name in row)])
        for row, times in zip(names, self.times):
            yield claim(f"(<= start {row[0]})")
            yield from (claim(f"(>= (- {after} {before}) {time})") for before, after, time in zip(row, row[1:], times))
            yield claim(f"(<= (- {row[-1]} start) {number(end - times[-1])})")
        for machine in range(MACHINES):
            uses = [(row[order.index(machine)], times[order.index(machine)])
                    for row, order, times in zip(names, self.orders, self.times)]
            for (one, time), (other, later) in combinations(uses, 2):
                yield claim(f"(or (>= (- {other} {one}) {time}) (>= (- {one} {other}) {later}))")


def shuffled(items, source):
    """Returns the items in an order by chance."""
    order = list(items)
    for i in range(len(order) - 1, 0, -1):
        j = next(source) % (i + 1)
        order[i], order[j] = order[j], order[i]
    return order


def shops():
    """Returns the formulas of job shops: of each an end that is too early, the one before a kept one, and that one."""
    made = []
    for jobs in JOBS:
        shop = Shop(jobs)
        ends = (("load", shop.load - 1, "unsat"), ("less", shop.end - 1, None), ("fits", shop.end, "sat"))
        for word, end, answer in ends:
            made.append(Formula(f"shop-{jobs}-{word}", partial(shop.lines, end), answer, None, "QF_RDL"))
    return made


def system(rows, seed):
    """Asserts clauses of bounds on so many sums of three of as many constants, which are from -10 to 10."""
    source = numbers(1000 * rows + seed)
    names = [f"x{i}" for i in range(rows)]
    yield from declare(names)
    sums = []
    for _ in range(rows):
        chosen = shuffled(names, source)[:3]
        parts = [f"(* {number(FACTORS[next(source) % len(FACTORS)])} {name})" for name in chosen[:2]]
        sums.append(f"(+ {' '.join(parts)} {chosen[2]})")
    yield from (claim(f"(<= (- 10) {name} 10)") for name in names)
    for _ in range(round(DENSITY * rows)):
        literals = []
        for _ in range(2 + next(source) % 2):
            head = ("<=", ">=", "<", ">=")[next(source) % 4]
            bound = next(source) % 30 * (-1 if head.startswith("<") else 1)
            literals.append(f"({head} {sums[next(source) % rows]} {number(bound)})")
        yield claim(f"(or {' '.join(literals)})")


def saturating(steps, is_over):
    """Counts up to FULL where a choice says so and there is room; claims that it is full at the end, or over."""
    names = [f"x{i}" for i in range(steps + 1)]
    yield from declare(names)
    yield from declare([f"up{i}" for i in range(steps)], "Bool")
    yield claim("(= x0 0)")
    for i in range(steps):
        down = f"(ite up{i} x{i} (ite (>= x{i} 0.5) (- x{i} 0.5) x{i}))"
        yield claim(f"(= x{i + 1} (ite (and up{i} (<= x{i} {FULL - 1})) (+ x{i} 1) {down}))")
    yield claim(f"({'>' if is_over else '>='} x{steps} {FULL})")


def clocks(steps, rounds):
    """Turns a clock of TICKS from a start that is open, counting rounds; claims at least so many at the end."""
    yield from declare([f"{name}{i}" for i in range(steps + 1) for name in "tc"])
    yield claim("(= c0 0)")
    yield claim(f"(or {' '.join(f'(= t0 {tick})' for tick in range(TICKS + 1))})")
    for i in range(steps):
        on = f"(and (<= t{i} {TICKS - 1}) (= t{i + 1} (+ t{i} 1)) (= c{i + 1} c{i}))"
        over = f"(and (>= t{i} {TICKS}) (= t{i + 1} 0) (= c{i + 1} (+ c{i} 1)))"
        yield claim(f"(or {on} {over})")
    yield claim(f"(>= c{steps} {rounds})")


def sums(steps):
    """Gives one of two counters 1, or each a half; denies at the end that they have as much as there were steps."""
    yield from declare([f"{name}{i}" for i in range(steps + 1) for name in "xy"])
    yield claim("(and (= x0 0) (= y0 0))")
    for i in range(steps):
        ways = []
        for left, right in (("1", "0"), ("0", "1"), ("0.5", "0.5")):
            ways.append(f"(and (= x{i + 1} (+ x{i} {left})) (= y{i + 1} (+ y{i} {right})))")
        yield claim(f"(or {' '.join(ways)})")
    yield claim(f"(not (= (+ x{steps} y{steps}) {steps}))")


def of(name, lines, answer):
    """Returns a formula of QF_LRA."""
    return Formula(name, lines, answer, None, "QF_LRA")


def both(name, lines, sizes):
    """Returns for each size a formula that cannot be satisfied, and one that can."""
    made = []
    for n in sizes:
        made.append(of(f"{name}-{n}-over", lambda n=n: lines(n, True), "unsat"))
        made.append(of(f"{name}-{n}-full", lambda n=n: lines(n, False), "sat"))
    return made


def clock_rounds(steps, is_over):
    """Claims one round more than a clock can turn, or as many as it can."""
    return clocks(steps, (steps + TICKS) // (TICKS + 1) + is_over)


def systems():
    """Returns for each number of rows a system for each seed."""
    pairs = [(rows, seed) for rows in ROWS for seed in SEEDS]
    return [of(f"systems-{n}-{seed}", lambda n=n, seed=seed: system(n, seed), None) for n, seed in pairs]


def plan(n):
    """Asks for a plan of n steps: a lorry drives to each place of a circle and back, with fuel for the way, filled at home."""
    places = range(len(WAYS))
    at = [[f"at{step}_{place}" for place in places] for step in range(n + 1)]
    been = [[f"been{step}_{place}" for place in places] for step in range(n + 1)]
    fuel, fills = [f"fuel{step}" for step in range(n + 1)], [f"fills{step}" for step in range(n)]
    yield from declare((name for rows in (at, been) for row in rows for name in row), "Bool")
    yield from declare(fills, "Bool") + declare(fuel)
    for step in range(n + 1):
        yield claim(f"(or {' '.join(at[step])})")
        yield from (claim(f"(not (and {a} {b}))") for a, b in combinations(at[step], 2))
        yield claim(f"(>= {fuel[step]} 0)")
    yield claim(at[0][0]) + claim(f"(= {fuel[0]} {TANK})")
    for place in places:
        yield claim(f"(= {been[0][place]} {at[0][place]})")
        for step in range(n):
            yield claim(f"(= {been[step + 1][place]} (or {been[step][place]} {at[step + 1][place]}))")
            yield claim(moves(at, fuel, fills, step, place))
    yield from map(claim, [*been[n], at[n][0]])


def moves(at, fuel, fills, step, place):
    """What a step from a place does: it fills the tank at the first one, or drives to a neighbour."""
    before, after = (place - 1) % len(WAYS), (place + 1) % len(WAYS)
    ways = [(after, WAYS[place]), (before, WAYS[before])]
    later = fuel[step + 1]
    done = [f"(and {at[step + 1][end]} (not {fills[step]}) (= {later} (- {fuel[step]} {way})))" for end, way in ways]
    if place == 0:
        done.append(f"(and {at[step + 1][0]} {fills[step]} (= {later} {TANK}))")
    return f"(=> {at[step][place]} (or {' '.join(done)}))"


FAMILIES = {
    "plans": lambda: [of(f"plans-{n}", lambda n=n: plan(n), "unsat" if n < 9 else "sat") for n in PLAN_STEPS],
    "shops": shops,
    "systems": systems,
    "saturating": lambda: both("saturating", saturating, STEPS),
    "clocks": lambda: both("clocks", clock_rounds, CLOCK_STEPS),
    "sums": lambda: [of(f"sums-{n}", lambda n=n: sums(n), "unsat") for n in SUM_STEPS],
}
# The first formulas of each family, for a short race.
QUICK = {"plans": 2, "shops": 6, "systems": 4, "saturating": 4, "clocks": 2, "sums": 2}
