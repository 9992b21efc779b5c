"""Races on formulas of linear real arithmetic, and on those of functions and numbers."""

import os

import combination_families
import number_families
from formulas import LIMIT, OTHERS, Race, add_options, family_cells, race_all, tell_families, writer
from groups import Group
from reasons import USUAL
from sessions import judge_certify
from tables import mean, ratio

START = """Formulas of linear real arithmetic: `solve` and `certify`, with z3 and cvc5 beside them.

Each run gets the same number of seconds of a processor, --limit, in the program and in the system for it; other work on
the machine counts little. --quick takes few formulas of each, and 5 seconds for a run where --limit is left out. The
formulas are in bench/race/search/number_families.py:

plans       a plan of 6 to 12 steps: a lorry drives to each place of a circle and back, with fuel for the way
shops       job shops of difference logic, 3 to 8 jobs on three machines: that all is done before the machine with most
            to do or the longest job can be (load), at the end of a short schedule (fits), and one before that (less)
systems     clauses of bounds on 20 to 100 sums over as many constants, by four seeds: about half are `sat`
saturating  a counter that steps up, by a choice and by `ite`, where there is room: whether it is full after 5 to 30
            steps, or over
clocks      a clock of nine ticks, by `or`, from a start that is open: whether it turns as often as it can in 9 to 72
            steps, or once more
sums        two counters, of which a step gives one of them 1 or each a half: whether their sum is the number of steps

"""

COMBINED = """Formulas of functions and numbers: `solve` and `certify`, with z3 and cvc5 beside them.

Each run gets the same number of seconds of a processor, --limit, in the program and in the system for it; other work on
the machine counts little. --quick takes few formulas of each, and 5 seconds for a run where --limit is left out. The
formulas are in bench/race/search/combination_families.py; their logic is QF_UFLRA. Those of programs deny what holds of
a program of 100 places, or something that need not hold, by four seeds. Each has about 200 applications of functions,
and 200 facts of arithmetic:

scan        sums up values of an array, with a guard for each index: whether the sum can be over its bound
copies      a loop copies an array, an index further on: whether some index was not copied
walk        steps up or down by what a function says at the place: whether the end can be further up than the steps lead
reads       an array that rises, and indices that are known by bounds: whether it can fall between two of them

generated   the generator's G(n): numbers that are equal by a circle of bounds, n to 400, and a function at two of them

Those of 10 to 160 shared terms are each once without a model, and once with one:

circles     f takes each number to the next, which is not below it, and the last one is not above the first
ferries     two numbers go to f of them with a number added, 2 to 12 times: equalities go to and fro between theories
risers      f takes each number to the next, which is above it: whether it falls at one of them
pigeons     one number more than there are holes, of which f takes each to a hole: whether they are different
groups      groups of three equal numbers, and f differs between groups: whether two groups can be equal
rows        numbers that rise, 10 to 80, of which f rises too: whether f of the last is not above f of the first
rings       numbers that are equal by bounds round a circle, 10 to 60: whether f rises from one to the next

"""

JUDGED = """A row has the answer, the seconds of each program, how many times as long `solve` took as z3 and as cvc5, how many times
as long `check` took as `solve`, and the peak memory of `solve` in KB. Instead of seconds `limit` says that the limit
stopped it, `unknown` or a reason that it gave this answer, and `none` that it gave no answer. A table by family
follows: how many each answered; of those that `solve` and all other programs answered the seconds together, and the
geometric means of the ratios; of those with a proof that was checked the mean of `check` over `solve`; and the greatest
memory. Times below 0.001 s count as 0.001 s in ratios. z3 and cvc5 take about 0.02 s to start.

With --check each proof that `check` can read has to be `valid`, and what `certify` wrote is judged by the independent
reading of bench/compare: each model makes the assertions true, the reason of each `unknown` is right, and so is each
proof of at most 200,000 bytes.

WRONG comes where two answers differ, where an answer is not the known one, where `solve` or `certify` ends with a
status that it may not have, or where a model, a proof or a reason is not right.
"""

QUICK_LIMIT = 5
# The longest proof that is judged by the independent reading, in bytes.
LONGEST_JUDGED = 200_000
RATIOS = [*(f"solve / {name}" for name in OTHERS), "check / solve"]


class NumberRace(Race):
    """The runs of all programs on one formula of linear real arithmetic."""

    def __init__(self, asked, formula, folder):
        super().__init__(asked, formula, folder)
        if asked.check and self.runs["certify"].status == 0:
            self.judge_evidence(os.path.join(folder, "formula.smt2"))

    def judge_evidence(self, script):
        """Notes what the independent reading finds wrong with the output of `certify`, but for a long proof."""
        certified = self.runs["certify"]
        if self.answer_of("certify") == "unsat" and len(certified.output) > LONGEST_JUDGED:
            return
        with open(script, "rb") as text:
            wrong, _ = judge_certify(text.read(), certified.output, 0, USUAL, is_foretold=False)
        self.wrong += [f"certify: {wrong}"] if wrong else []

    @property
    def check_ratio(self):
        """How many times as long `check` took as `solve`, or nothing where no proof was checked, or not all of it."""
        checked = self.runs.get("check")
        if checked is None or checked.status is None or not self.answer_of("solve"):
            return None
        return ratio(checked.seconds, self.runs["solve"].seconds)

    def cells(self):
        """Returns the row as it is printed."""
        *cells, memory = super().cells()
        return [*cells, "" if self.check_ratio is None else f"{self.check_ratio:.2f}", memory]


def cells_of(name, races):
    """Returns the cells of a family's row but for the memory."""
    return [*family_cells(name, races), mean([race.check_ratio for race in races if race.check_ratio is not None])]


def add_own_options(parser):
    """Adds the options of these races."""
    add_options(parser)
    parser.add_argument("--quick", action="store_true", help="few formulas of each family, and short runs")


def runner(families, quick):
    """Returns what runs those of the families that are asked for; of a quick race the first formulas of each."""

    def formulas_of(family, asked):
        formulas = families[family]()[: asked.first]
        return formulas[: quick[family]] if asked.quick else formulas

    def run_all(asked):
        asked.limit = asked.limit or (QUICK_LIMIT if asked.quick else LIMIT)
        races, wrong = race_all(asked, formulas_of, NumberRace, RATIOS)
        tell_families(races, RATIOS, cells_of)
        return wrong

    return run_all


def group(about, module):
    """Returns the group of the families of a module."""
    run = runner(module.FAMILIES, module.QUICK)
    return Group(about + JUDGED, module.FAMILIES, add_own_options, run, writer(module.FAMILIES))


NUMBERS = group(START, number_families)
COMBINATION = group(COMBINED, combination_families)
