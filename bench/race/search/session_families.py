"""Sessions of many checks, family by family, for `bench/race.py sessions`.

The scripts are the same on each machine: what is random comes from the generator of clause_families.py. A session is lines of
a script, and what each of its checks is answered.
"""

from typing import Callable, NamedTuple

from clause_families import numbers

# How many steps `rounds` has, and of how many the first speaks of a function.
STEPS = 1_000
CALLS = 20
# Where the counters of `unrolling` end to grow.
FULL = 40
# How far each place of `planner` is from the next, round a circle, and what a tank holds.
WAYS = (3, 4, 2, 5, 3)
TANK = 9
# The switches of `assuming`, and how many of them a check assumes.
SWITCHES = 200
ASSUMED = 30


class Session(NamedTuple):
    """A script with many checks, and their answers in order."""

    text: str
    answers: list


class Family(NamedTuple):
    """A family: its sizes, and its session of a size."""

    sizes: tuple
    session: Callable


def joined(lines):
    """Returns the text of lines."""
    return "".join(f"{line}\n" for line in lines)


def rounds(n):
    """A program of 1,000 steps, of which some raise a number; n times a question about two places of it, which is taken back."""
    source = numbers(n)
    lines = ["(set-logic QF_UFLRA)", "(declare-fun f (Real) Real)"]
    lines += [f"(declare-const x{i} Real)" for i in range(STEPS + 1)]
    lines += [f"(declare-const b{i} Bool)" for i in range(8)]
    lines += [
        f"(assert (ite b{i % 8} (<= (+ x{i} 1) x{i + 1}) (= x{i + 1} x{i})))" if i % CALLS else f"(assert (<= (f x{i}) x{i + 1}))"
        for i in range(STEPS)
    ]
    answers = []
    for _ in range(n):
        first = CALLS * (next(source) % (STEPS // CALLS)) + 1 + next(source) % (CALLS - 3)
        falls = next(source) % 2
        question = f"(< x{first + 2} x{first})" if falls else f"(< (+ x{first} 1) x{first + 2})"
        lines += ["(push 1)", f"(assert {question})", "(check-sat)", "(pop 1)"]
        answers.append("unsat" if falls else "sat")
    return Session(joined(lines), answers)


def unrolling(n):
    """A machine of two counters that is unrolled n steps: after each step, whether both can be full."""
    lines = ["(set-logic QF_LRA)", "(declare-const x0 Real)", "(declare-const y0 Real)", "(assert (= x0 0))", "(assert (= y0 0))"]
    answers = []
    for step in range(1, n + 1):
        before = step - 1
        lines += [f"(declare-const {name}{step} {sort})" for name, sort in (("x", "Real"), ("y", "Real"), ("c", "Bool"))]
        lines += [
            f"(assert (ite c{step} (and (= x{step} (ite (< x{before} {FULL}) (+ x{before} 2) x{before})) (= y{step} y{before}))"
            f" (and (= y{step} (ite (< y{before} {FULL}) (+ y{before} 3) y{before})) (= x{step} x{before}))))",
            "(push 1)",
            f"(assert (and (<= {FULL // 4} x{step}) (<= {FULL // 4} y{step})))",
            "(check-sat)",
            "(pop 1)",
        ]
        # Five steps of 2 bring x to 10, four of 3 bring y to 12.
        answers.append("sat" if step >= 9 else "unsat")
    return Session(joined(lines), answers)


def planner(n):
    """A lorry that drives round a circle, with fuel for the way: for each of n days, whether it can have come so far by then."""
    places, answers = len(WAYS), []
    lines = ["(set-logic QF_LRA)", "(declare-const d0 Real)", "(declare-const t0 Real)", "(assert (= d0 0))", f"(assert (= t0 {TANK}))"]
    best = {0: {TANK: 0}}
    for day in range(1, n + 1):
        before, way = day - 1, WAYS[(day - 1) % places]
        lines += [f"(declare-const {name}{day} Real)" for name in "dt"]
        lines += [
            f"(assert (or (and (<= {way} t{before}) (= t{day} (- t{before} {way})) (= d{day} (+ d{before} {way})))"
            f" (and (= t{day} {TANK}) (= d{day} d{before}))))"
        ]
        states = {}
        for tank, far in best[before].items():
            if way <= tank:
                states[tank - way] = max(far + way, states.get(tank - way, 0))
            states[TANK] = max(far, states.get(TANK, 0))
        best[day] = states
        most = max(states.values())
        for goal, answer in ((most, "sat"), (most + 1, "unsat")):
            lines += ["(push 1)", f"(assert (<= {goal} d{day}))", "(check-sat)", "(pop 1)"]
            answers.append(answer)
    return Session(joined(lines), answers)


def assuming(n):
    """Differences of numbers, each behind one of 200 switches: n checks, each of which assumes 30 of these."""
    source, nodes = numbers(n), 40
    lines = ["(set-logic QF_LRA)", *(f"(declare-const x{i} Real)" for i in range(nodes)), *(f"(declare-const s{i} Bool)" for i in range(SWITCHES))]
    edges = []
    for i in range(SWITCHES):
        edge = (next(source) % nodes, next(source) % nodes, next(source) % 7 - 2)
        edges.append(edge)
        lines.append(f"(assert (=> s{i} (<= (- x{edge[0]} x{edge[1]}) {edge[2] if edge[2] >= 0 else f'(- {-edge[2]})'})))")
    answers = []
    for _ in range(n):
        chosen = sorted({next(source) % SWITCHES for _ in range(ASSUMED)})
        lines.append(f"(check-sat-assuming ({' '.join(f's{i}' for i in chosen)}))")
        answers.append("unsat" if has_negative_circle(nodes, [edges[i] for i in chosen]) else "sat")
    return Session(joined(lines), answers)


def has_negative_circle(nodes, edges):
    """Tells whether differences cannot all hold: x(i) - x(j) at most d for each edge (i, j, d). Source: Bellman and Ford."""
    far = [0] * nodes
    for _ in range(nodes + 1):
        changed = False
        for i, j, most in edges:
            if far[j] + most < far[i]:
                far[i], changed = far[j] + most, True
        if not changed:
            return False
    return True


FAMILIES = {
    "rounds": Family((100, 1_000, 10_000), rounds),
    "unrolling": Family((12, 25, 50), unrolling),
    "planner": Family((6, 12, 25), planner),
    "assuming": Family((10, 100, 1_000), assuming),
}
