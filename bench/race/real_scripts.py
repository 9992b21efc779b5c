"""Scripts that others wrote: `solve`, and z3 beside it, where that is on the path.

Each `.smt2` of the folder is run, as often as --runs says, for at most --limit seconds of the clock each time. A row
has the answers to its checks, how many commands were refused and for what, the seconds of a processor, the least of the
runs, those of z3, and how many times as long the program took.

Where the folder has a table LIST.tsv, its columns `script` and `answers` tell what several solvers agree on. Else what
z3 answers is taken for that. A script counts as answered where no command was refused and each check has that answer,
and as wrong where no command was refused and a check has another answer that is not `unknown`. With --check the proof
that `certify` writes for each `unsat` has to be `valid` to `check` too, and what it writes is judged by the independent
reading of bench/compare: each model makes all current assertions true, each proof is right, and so is the reason of
each `unknown`. Scripts with a command that was refused are left out of that.

It prints the rows, and how many scripts were answered. The status is 1 where one is wrong, or ended by a signal or with
a status that no script may have, else 0.
"""

import csv
import glob
import os
import re
import shutil
import tempfile
from collections import Counter

from groups import Group
from reasons import USUAL
from runs import least
from sessions import judge_certify
from tables import SHORTEST, head, row

# What is not wrong.
FINE = ("answered", "refused", "stopped", "unknown")
VERDICTS = ("sat", "unsat", "unknown")
REFUSAL = re.compile(r'\(error "\d+:\d+: (\w+)"\)')


def verdicts(ran):
    """Returns the answers to the checks of a run."""
    return [line for line in ran.lines if line in VERDICTS]


def known_answers(folder):
    """Returns the answers that are known, by the name of the script."""
    path = os.path.join(folder, "LIST.tsv")
    if not os.path.exists(path):
        return {}
    with open(path, encoding="utf-8", newline="") as table:
        rows = csv.DictReader(table, delimiter="\t")
        return {row["script"]: row["answers"].split(",") for row in rows if row["answers"] != "-"}


def shown(answers):
    """Returns answers as a cell, a long row of them by its counts."""
    if len(answers) <= 4:
        return " ".join(answers)
    return ", ".join(f"{count} {answer}" for answer, count in Counter(answers).items())


def proofs_of(lines):
    """Returns each check's number with its proof, out of the lines that `certify` wrote."""
    number, proofs = 0, []
    for at, line in enumerate(lines):
        number += line in VERDICTS
        if line == "unsat":
            end = lines.index(")", at)
            proofs.append((number, "\n".join(lines[at : end + 1]) + "\n"))
    return proofs


def judged(program, script, seconds):
    """Returns what is wrong with the models, proofs and reasons that `certify` writes, or nothing."""
    certified = least([program, "certify", script], 1, seconds)
    if certified.status is None:
        return ["certify stopped"]
    if any(map(REFUSAL.fullmatch, certified.lines)):
        return []
    with open(script, "rb") as text:
        said, _ = judge_certify(text.read(), certified.output, certified.status, USUAL, is_foretold=False)
    wrong = [said] if said else []
    with tempfile.TemporaryDirectory() as folder:
        path = os.path.join(folder, "proof.alethe")
        for number, proof in proofs_of(certified.lines):
            with open(path, "w", encoding="utf-8") as out:
                out.write(proof)
            ran = least([program, "check", "--at", str(number), script, path], 1, seconds)
            if ran.status is None:
                wrong.append(f"check {number} stopped")
            elif ran.output != b"valid\n":
                wrong.append(f"proof {number}: {ran.lines[:1]}")
    return wrong


class Row:
    """A script with its runs by the program and by z3, and the answers that are wanted."""

    def __init__(self, asked, script, wanted):
        self.script = script
        self.ours = least([asked.program, "solve", script], asked.runs, asked.limit)
        z3 = shutil.which("z3")
        self.other = least([z3, script], asked.runs, asked.limit) if z3 else None
        self.wanted = wanted or (verdicts(self.other) if self.other else [])
        self.refusals = Counter(name for line in self.ours.lines for name in REFUSAL.findall(line))
        self.wrong_proofs = judged(asked.program, script, asked.limit) if asked.check else []

    @property
    def verdict(self):
        """Tells how the script was answered."""
        if self.ours.status is None:
            return "stopped"
        if self.ours.status not in (0, 1):
            return f"status {self.ours.status}"
        if self.refusals:
            return "refused"
        pairs = list(zip(verdicts(self.ours), self.wanted))
        if any(ours not in (wanted, "unknown") and wanted != "unknown" for ours, wanted in pairs) or self.wrong_proofs:
            return "wrong"
        return "answered" if verdicts(self.ours) == self.wanted else "unknown"

    def cells(self):
        """Returns the row as it is printed."""
        refused = ", ".join(f"{count} {name}" for name, count in self.refusals.items())
        z3, times = "", ""
        if self.other:
            z3 = "stopped" if self.other.status is None else f"{self.other.seconds:.3f}"
            if self.other.status is not None and self.ours.status is not None:
                times = f"{self.ours.seconds / max(self.other.seconds, SHORTEST):.2f}"
        name, size = os.path.basename(self.script), os.path.getsize(self.script)
        wrong = ", ".join(filter(None, [refused, *self.wrong_proofs]))
        answers = [shown(verdicts(self.ours)), shown(self.wanted), wrong]
        return [name, f"{size:,}", self.verdict, *answers, f"{self.ours.seconds:.3f}", z3, times]


def run_folder(asked, folder):
    """Runs the scripts of a folder; returns which of them are wrong, as texts."""
    known, counts, wrong = known_answers(folder), Counter(), []
    head(["script", "bytes", "verdict", "answers", "wanted", "refused or wrong", "seconds", "z3", "times z3"])
    for script in sorted(glob.glob(os.path.join(folder, "*.smt2"))):
        one = Row(asked, script, known.get(os.path.basename(script)))
        verdict = one.verdict
        counts[verdict] += 1
        wrong += [] if verdict in FINE else [f"{os.path.basename(script)}: {verdict}"]
        row(one.cells())
    print("\n" + ", ".join(f"{count} {verdict}" for verdict, count in sorted(counts.items())))
    return wrong


def run_all(asked):
    """Runs the scripts of the folders; returns which of them are wrong, as texts."""
    if not asked.folders:
        return ["no folder of scripts is named"]
    return [what for folder in asked.folders for what in run_folder(asked, folder)]


def add_options(parser):
    """Adds the options of this race."""
    parser.add_argument("--limit", type=float, default=60, metavar="SECONDS", help="of the clock, 60 if none are given")
    parser.add_argument("--runs", type=int, default=1, metavar="N", help="the times that each script is run, once if left out")
    parser.add_argument("--check", action="store_true", help="judge what `certify` writes, too")


GROUP = Group(__doc__, None, add_options, run_all)
