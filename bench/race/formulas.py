"""Formulas over Bool, and over one declared sort: `solve` and `certify`, with z3 and cvc5 beside them.

Each run gets the same number of seconds of a processor, --limit, in the program and in the system for it; other work on
the machine counts little. The formulas are in bench/race/search/families.py:

pigeons            N + 1 pigeons do not fit into N holes, for 5 to 9 holes
random-N           4.26 clauses of three for each of N constants, 100, 150 and 200, by ten seeds: about half are `sat`
chain              N implications in their order, with p0 and (not pN): N is 1,000, 10,000 and 100,000
chain-exchanged    the same with each two neighbours exchanged, and chain-backwards in the opposite order
parity-exchanged   N constants have one parity in two chains of `xor`, of which one has each two neighbours exchanged
parity-backwards   the same, with one of the chains backwards
parity-shuffled    the same, with one of the chains in an order by chance
adder              a + b by a chain of full adders is b + a in blocks with selected carries, for 6, 8 and 10 bits
multiplier         a * b is b * a row by row, all bits of the product, for 4, 5 and 6 bits
diamonds           N diamonds of equalities in a row whose ends are denied to be equal, for N to 100
diamonds-open      the same where a way of the one in the middle leads back, so there is a model
colourings         three colours of graphs by chance, of 20 to 50 vertices, near the threshold
equalities         a path of N equalities whose ends are denied to be equal: N is 1,000, 10,000 and 100,000
applications       f N times of a and of b, where a is b, are denied to be equal
cycles             f N times of a is a, and f N + 1 times, and f of a is denied to be a
quasigroup         tables of quasigroups of order 4, 5 and 6 in which g(g(g(b, a), b), b) is a
commuting          tables of commuting quasigroups of order 4, 5 and 6 in which g(a, a) is a
facts              1,000 clauses of equalities of 200 terms by chance, by ten seeds

A row has the answer, the seconds of each program, how many times as long `solve` took as z3 and as cvc5, and the peak
memory of `solve` in KB. Instead of seconds `limit` says that the limit stopped it, `unknown` or a reason that it gave
this answer, and `none` that it gave no answer. A table by family follows: how many each answered, and of those that
`solve` and all other programs answered the seconds together and the geometric mean of the ratios; and the greatest
memory. Times below 0.001 s count as 0.001 s in ratios. For chains a third table has how many times as long ten times N
took, which may be fifteen times; there times below 0.01 s count as 0.01 s.

WRONG comes where two answers differ, where an answer is not the known one, where a model does not make all clauses
true, where `solve` or `certify` ends with a status that it may not have, or, with --check, where `check` does not find
a proof `valid` that `certify` wrote.
"""

import os
import shutil
import tempfile

from clause_families import is_model
from families import FAMILIES, LINEAR
from groups import Group, named
from real_scripts import verdicts
from runs import run
from tables import SHORTEST_GROWN, head, mean, ratio, row

OTHERS = [name for name in ("z3", "cvc5") if shutil.which(name)]
PROGRAMS = ("solve", "certify", *OTHERS)
LIMIT = 20
# How many times as long ten times N may take.
MOST = 15
# That all is well, or that memory ran out; nothing of these formulas is refused.
ALLOWED = (0, 3, None)
# The longest text that `check` reads.
LONGEST_PROOF = 2**30


def evidence(ran):
    """Returns the lines of the answer to the one check, and of what follows it."""
    return ran.lines[ran.lines.index(verdicts(ran)[0]) :]


def missing(ran):
    """Says why a run gave no answer: the limit, the reason of `unknown` or that word, or something else."""
    words = [line.split()[0].lstrip("(") for line in ran.lines if line]
    if ran.status is None or "unknown" not in words:
        return "limit" if ran.status is None else "none"
    return " ".join(words[words.index("unknown") :][1:2]) or "unknown"


class Race:
    """The runs of all programs on one formula."""

    def __init__(self, asked, formula, folder):
        script = os.path.join(folder, "formula.smt2")
        formula.write(script)
        self.name, self.asked, self.wrong = formula.name, asked, []
        self.runs = {}
        for name in PROGRAMS:
            words = [shutil.which(name), script] if name in OTHERS else [asked.program, name, script]
            self.runs[name] = self.ran(words)
        self.judge_answers(formula.answer)
        if self.answer_of("certify") == "sat":
            self.judge_model(formula, script)
        if asked.check and self.answer_of("certify") == "unsat":
            self.judge_proof(script, os.path.join(folder, "proof.alethe"))

    def ran(self, words):
        """Runs the words within the limit of a processor, and within a generous one of the clock."""
        return run(words, seconds=10 + 10 * self.asked.limit, processor=self.asked.limit)

    def answer_of(self, name):
        """Returns the answer that a program gave within the limit, or nothing."""
        ran = self.runs[name]
        given = verdicts(ran)[:1]
        is_known = given in (["sat"], ["unsat"]) and ran.status == 0 and ran.seconds <= self.asked.limit
        return given[0] if is_known else None

    def judge_answers(self, known):
        """Notes answers that differ, and statuses that the program may not have."""
        answers = {name: self.answer_of(name) for name in PROGRAMS}
        different = {answer for answer in (known, *answers.values()) if answer}
        if len(different) > 1:
            self.wrong.append(f"answers {answers}, known {known}")
        self.answer = different.pop() if different else ""
        for name in ("solve", "certify"):
            if self.runs[name].status not in ALLOWED:
                self.wrong.append(f"{name}: status {self.runs[name].status}, {self.runs[name].output[:80]!r}")

    def judge_model(self, formula, _script):
        """Notes a model that does not make all clauses true, where the formula has them."""
        if formula.clauses and not is_model(evidence(self.runs["certify"])[1:], *formula.clauses):
            self.wrong.append("a model that does not make all clauses true")

    def judge_proof(self, script, path):
        """Notes a proof that `check` does not find valid; one that is too long for it is passed over."""
        with open(path, "w", encoding="utf-8") as out:
            out.writelines(f"{line}\n" for line in evidence(self.runs["certify"]))
        if os.path.getsize(path) > LONGEST_PROOF:
            return
        self.runs["check"] = checked = self.ran([self.asked.program, "check", script, path])
        if checked.status is not None and (checked.output, checked.status) != (b"valid\n", 0):
            self.wrong.append(f"check: status {checked.status}, {checked.output[:80]!r}")

    def ratio(self, other):
        """Returns how many times as long `solve` took as another program."""
        return ratio(self.runs["solve"].seconds, self.runs[other].seconds)

    @property
    def is_by_all(self):
        """Whether `solve` and all other programs answered, and nothing is wrong."""
        return not self.wrong and all(self.answer_of(name) for name in ("solve", *OTHERS))

    def cells(self):
        """Returns the row as it is printed."""
        cells = [self.name, f"`{self.answer}`" if self.answer else ""]
        for name in PROGRAMS:
            cells.append(f"{self.runs[name].seconds:.3f}" if self.answer_of(name) else missing(self.runs[name]))
        if self.asked.check:
            checked = self.runs.get("check")
            cells.append("" if checked is None else "limit" if checked.status is None else f"{checked.seconds:.3f}")
        cells += [f"{self.ratio(name):.2f}" if self.is_by_all else "" for name in OTHERS]
        return [*cells, f"{self.runs['solve'].memory:,}"]


def family_cells(name, races):
    """Returns the cells of a family's row up to the ratios to other programs."""
    common = [race for race in races if race.is_by_all]
    cells = [name, str(len(races)), *(str(sum(bool(race.answer_of(one)) for race in races)) for one in PROGRAMS)]
    cells.append(str(len(common)))
    cells += [f"{sum(race.runs[one].seconds for race in common):.2f}" for one in PROGRAMS]
    return cells + [mean([race.ratio(one) for race in common]) for one in OTHERS]


def memory_of(races):
    """Returns the greatest memory of `solve`, as a cell."""
    return f"{max(race.runs['solve'].memory for race in races):,}"


def tell_families(races, ratios, cells_of):
    """Prints the table by family, of which these are the ratios, and a row is what cells_of gives for a name and its races."""
    print()
    answered = [f"{name} answers" for name in PROGRAMS]
    head(["family", "formulas", *answered, "all answer", *(f"{name} s" for name in PROGRAMS), *ratios, "KB"])
    for family, of_family in races.items():
        row([*cells_of(family, of_family), memory_of(of_family)])
    every = [race for of_family in races.values() for race in of_family]
    row([*cells_of("all", every), memory_of(every)])


def race_all(asked, formulas_of, race_of, ratios):
    """Runs the families, and prints a row for each formula; returns the races by family, and what is wrong, as texts."""
    races, wrong = {}, []
    if not asked.table:
        head(["formula", "answer", *PROGRAMS, *["check"] * asked.check, *ratios, "KB"])
    with tempfile.TemporaryDirectory() as folder:
        for family in asked.families:
            races[family] = []
            for formula in formulas_of(family, asked):
                race = race_of(asked, formula, folder)
                races[family].append(race)
                wrong += [f"WRONG {race.name}: {what}" for what in race.wrong]
                if not asked.table:
                    row(race.cells())
    return races, wrong


def tell_growth(races):
    """Prints how times grow along a family whose formulas grow tenfold; returns what takes too long, as texts."""
    long = []
    for before, after in zip(races, races[1:]):
        cells = [after.name]
        for name in PROGRAMS:
            times = [max(race.runs[name].seconds, SHORTEST_GROWN) for race in (before, after)]
            is_stopped = not after.answer_of(name)
            # A run that the limit stopped would have taken longer.
            cells.append(f"{'over ' * is_stopped}{times[1] / times[0]:.1f}" if before.answer_of(name) else "")
            if name not in OTHERS and before.answer_of(name) and times[1] > MOST * times[0]:
                long.append(f"{after.name}: {name} took more than {MOST} times as long as with a tenth")
        row(cells)
    return long


def run_all(asked):
    """Runs the families, and prints the tables; returns what is wrong, as texts."""
    asked.limit = asked.limit or LIMIT
    ratios = [f"solve / {name}" for name in OTHERS]
    races, wrong = race_all(asked, lambda family, asked: FAMILIES[family]()[: asked.first], Race, ratios)
    tell_families(races, ratios, family_cells)
    grown = [family for family in LINEAR if len(races.get(family, ())) > 1]
    if grown:
        print()
        head(["ten times N", *PROGRAMS])
        for family in grown:
            wrong += tell_growth(races[family])
    return wrong


def add_options(parser):
    """Adds the options that all races of formulas have."""
    parser.add_argument("--limit", type=float, metavar="SECONDS", help=f"the seconds of a run, {LIMIT} if none are given")
    parser.add_argument("--first", type=int, metavar="N", help="the first N formulas of each family alone")
    parser.add_argument("--table", action="store_true", help="leave the rows of the formulas out")
    parser.add_argument("--check", action="store_true", help="judge what `certify` writes, too")


def writer(families):
    """Returns what writes the script of one formula of the families."""

    def write(name, path):
        named(name, {formula.name: formula for make in families.values() for formula in make()}).write(path)

    return write


GROUP = Group(__doc__, FAMILIES, add_options, run_all, writer(FAMILIES))
