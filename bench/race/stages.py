"""How long `smt_cli` searches, prints a proof, and judges it, on the same formula.

pigeons          H + 1 pigeons do not fit into H holes: each is in some hole, and no two are in one. H is from 3 to 7.
random           Clauses of three different constants out of 70, each negated or not, 4.26 clauses for each constant,
                 where about half of such formulas are satisfiable. The seed K is from 1 to 10.
chain            p0, n implications (=> pi p(i+1)) in their order, and (not pn), which one pass over the clauses refutes:
                 n is 100, doubled up to 12,800.
chain-exchanged  The same with each two neighbours exchanged, so that a pass goes on by two implications from either end,
                 and about n / 4 passes are needed: n is 100, doubled up to 3,200.

The first two have a table with the seconds of the search, which are those of `solve`, of the printing, which are those
that `certify` takes more, and of `check`. Chains have a table with the seconds of the three commands, and how many times
as long they took as in the row before. --first takes the first N formulas of each family.

Of each `unsat` the proof that `certify` writes has to be `valid` for `check`. Of each `sat` the model that `certify`
writes has to give every constant a value and make every clause true, which is computed here. From one row of a chain to
the next n is doubled, and so is the text of the proof; `check` may then take at most 2.5 times as long, where times
below 0.01 s count as 0.01 s. A search that takes longer than five minutes is stopped, and its row says so.
"""

import os
import tempfile

from clause_families import chain_lines, clause_lines, exchanged, is_model, pigeons, random_clauses
from groups import Group, named
from runs import least
from tables import head, is_too_long, row, times_before

RUNS = 3
CHAIN_RUNS = 5
HOLES = (3, 4, 5, 6, 7)
SEEDS = range(1, 11)
CONSTANTS = 70
LENGTHS = (100, 200, 400, 800, 1_600, 3_200, 6_400, 12_800)
LONGEST = 300
MOST = 2.5

CLAUSES = {
    "pigeons": {f"pigeons-{holes}": pigeons(holes) for holes in HOLES},
    "random": {f"random-{seed}": random_clauses(seed, CONSTANTS) for seed in SEEDS},
}
CHAINS = {
    "chain": {f"chain-{n}": (n, range(n)) for n in LENGTHS},
    "chain-exchanged": {f"chain-exchanged-{n}": (n, exchanged(n)) for n in LENGTHS[:-2]},
}
FAMILIES = {**CLAUSES, **CHAINS}


def write_script(lines, path):
    """Writes a script of declarations and assertions, with a check."""
    with open(path, "w", encoding="ascii") as out:
        out.write("(set-option :print-success false)\n")
        out.writelines(lines)
        out.write("(check-sat)\n")


class Stages:
    """A formula with the runs of `solve`, `certify` and, where there is a proof, `check`, and with what is wrong.

    `clauses` is the number of constants with the clauses, of which a model is judged by them, or else nothing. Where the
    search was stopped the other two are missing.
    """

    def __init__(self, program, name, lines, folder, runs, clauses=None):
        self.script, self.proof = os.path.join(folder, "formula.smt2"), os.path.join(folder, "formula.alethe")
        write_script(lines, self.script)
        self.name, self.wrong = name, []
        self.certify = self.check = None
        self.solve = least([program, "solve", self.script], runs, LONGEST)
        self.answer = self.solve.output.decode("ascii", "replace").strip()
        if self.solve.status is None:
            return
        self.certify = least([program, "certify", self.script], runs)
        self.judge_answers(("sat", "unsat") if clauses else ("unsat",))
        if self.wrong:
            return
        if self.answer == "sat":
            if not is_model(self.certify.lines[1:], *clauses):
                self.wrong.append(f"{name}: the model that certify gave does not satisfy every clause")
            return
        with open(self.proof, "wb") as out:
            out.write(self.certify.output)
        self.check = least([program, "check", self.script, self.proof], runs)
        if (self.check.output, self.check.status) != (b"valid\n", 0):
            self.wrong.append(f"{name}: check gave {self.check.output[:100]!r} and status {self.check.status}, and valid is wanted")

    def judge_answers(self, allowed):
        """Notes an answer that is not one of these, or another one of `certify`, and a status that is not 0."""
        certified = "".join(self.certify.lines[:1])
        if (self.solve.status, self.certify.status, certified) != (0, 0, self.answer) or self.answer not in allowed:
            given = f"solve gave {self.answer[:100]!r} and status {self.solve.status}"
            self.wrong.append(f"{self.name}: {given}, certify {certified!r} and {self.certify.status}")


def clause_cells(stages, constants, clauses):
    """Returns the row of a formula of clauses."""
    cells = [stages.name, str(constants), str(len(clauses))]
    if stages.certify is None:
        return [*cells, f"stopped after {LONGEST} s", *[""] * 6]
    search = stages.solve.seconds
    printing = round(stages.certify.seconds - search, 3) + 0.0
    cells += [f"`{stages.answer}`", f"{search:.3f}", f"{printing:.3f}", f"{printing / search:.2f}"]
    if stages.check is None:
        return [*cells, "", "", ""]
    return [*cells, f"{len(stages.certify.output):,}", f"{stages.check.seconds:.3f}", f"{stages.check.seconds / search:.2f}"]


def run_clauses(asked, families, folder):
    """Prints the rows of the formulas of clauses; returns what is wrong, as texts."""
    wrong = []
    head([*"formula constants clauses answer search print".split(), "times the search", "proof bytes", "check", "times the search"])
    for family in families:
        for name, formula in list(CLAUSES[family].items())[: asked.first]:
            stages = Stages(asked.program, name, clause_lines(*formula), folder, RUNS, formula)
            wrong += stages.wrong
            if not stages.wrong:
                row(clause_cells(stages, *formula))
    return wrong


def run_chain(asked, family, folder):
    """Prints a row for each length; returns what is wrong, as texts."""
    wrong, before = [], (None, None, None)
    for name, (n, order) in list(CHAINS[family].items())[: asked.first]:
        stages = Stages(asked.program, name, chain_lines(order), folder, CHAIN_RUNS)
        if stages.wrong or stages.check is None:
            return [*wrong, *(stages.wrong or [f"{name}: stopped after {LONGEST} s"])]
        times = [ran.seconds for ran in (stages.solve, stages.certify, stages.check)]
        cells = [family, f"{n:,}", f"{os.path.getsize(stages.script):,}", f"{os.path.getsize(stages.proof):,}"]
        for seconds, earlier in zip(times, before):
            cells += [f"{seconds:.3f}", times_before(seconds, earlier)]
        row(cells)
        if is_too_long(times[2], before[2], MOST):
            wrong.append(f"{name}: twice the proof's text cost check more than {MOST} times the time")
        before = times
    return wrong


def run_all(asked):
    """Runs the families that are asked for; returns what is wrong, as texts."""
    wrong = []
    clauses, chains = ([name for name in asked.families if name in those] for those in (CLAUSES, CHAINS))
    with tempfile.TemporaryDirectory() as folder:
        if clauses:
            wrong += run_clauses(asked, clauses, folder)
        if clauses and chains:
            print()
        if chains:
            head(["order", "n", "script bytes", "proof bytes", "`solve`", "times", "`certify`", "times", "`check`", "times"])
        for family in chains:
            wrong += run_chain(asked, family, folder)
    return wrong


def write(name, path):
    """Writes the script of one formula."""
    of_clauses = {name: clause_lines(*formula) for those in CLAUSES.values() for name, formula in those.items()}
    of_chains = {name: chain_lines(order) for those in CHAINS.values() for name, (_, order) in those.items()}
    write_script(named(name, of_clauses | of_chains), path)


def add_options(parser):
    """Adds the option of this race."""
    parser.add_argument("--first", type=int, metavar="N", help="the first N formulas of each family alone")


GROUP = Group(__doc__, FAMILIES, add_options, run_all, write)
