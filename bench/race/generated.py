"""The scripts that `gen` makes: `gen N`, with z3 and cvc5 on the same text beside it.

even   N is 400, 2,000, 4,000 and 10,000: the cycle of orders has a model
odd    N is 401, 2,001 and 4,001: it has none, since two of its constants are to differ

The text of a size is written here once more, from docs/FORMATS.md. Each run gets the same number of seconds of a
processor, --limit. A row has the answer, the numbers of the line, the seconds of each program, how many times as long
`gen` took as z3 and as cvc5, and the peak memory of each in KB. Times below 0.001 s count as 0.001 s in ratios.

WRONG comes where an answer is not the known one or differs from another, where the line is of another form or not the
same at a second run, and where its bytes are not those that `certify` writes after the answer of the same text. Ten times
N may take at most fifteen times as long, where times below 0.01 s count as 0.01 s.
"""

import os
import re
import shutil
import tempfile

from groups import Group, named
from runs import run
from tables import head, is_too_long, ratio, row

OTHERS = [name for name in ("z3", "cvc5") if shutil.which(name)]
LIMIT = 100
MOST = 15
FAMILIES = {"even": (400, 2_000, 4_000, 10_000), "odd": (401, 2_001, 4_001)}
LINE = re.compile(rb"(\d+) (sat|unsat) conflicts (\d+) pivots (\d+) bytes (\d+)\n")


def lines_of(n):
    """Returns the lines of the script of a size."""
    ending = f"(= (f x0) (f x{n}))"
    return [
        "(set-option :print-success false)",
        "(set-logic QF_UFLRA)",
        "(declare-fun f (Real) Real)",
        *(f"(declare-const x{i} Real)" for i in range(n + 1)),
        *(f"(assert (<= x{i} x{i + 1}))" for i in range(n)),
        f"(assert (<= x{n} x0))",
        f"(assert {ending})" if n % 2 == 0 else f"(assert (not {ending}))",
        "(check-sat)",
    ]


def write(n, path):
    """Writes the script of a size."""
    with open(path, "w", encoding="ascii") as out:
        out.writelines(f"{line}\n" for line in lines_of(n))


class Generated:
    """The runs of all programs on the script of one size, with what is wrong."""

    def __init__(self, asked, n, folder):
        self.n, self.limit, self.wrong = n, asked.limit, []
        script = os.path.join(folder, "script.smt2")
        write(n, script)
        self.gen = self.ran([asked.program, "gen", str(n)])
        self.others = {name: self.ran([shutil.which(name), script]) for name in OTHERS}
        self.line = LINE.fullmatch(self.gen.output)
        if self.gen.status is not None:
            self.judge_line(asked.program, script)

    def ran(self, words):
        """Runs the words within the limit of a processor, and within a generous one of the clock."""
        return run(words, seconds=10 + 10 * self.limit, processor=self.limit)

    def judge_line(self, program, script):
        """Notes what is wrong with the line, by a second run, by `certify`, and by the other programs."""
        known = b"unsat" if self.n % 2 else b"sat"
        if self.line is None or self.gen.status != 0 or self.line[2] != known or int(self.line[1]) != self.n:
            self.wrong.append(f"gen {self.n}: status {self.gen.status}, {self.gen.output[:80]!r}")
            return
        again = self.ran([program, "gen", str(self.n)])
        if again.status is not None and again.output != self.gen.output:
            self.wrong.append(f"gen {self.n}: another line at a second run, {again.output[:80]!r}")
        certified = self.ran([program, "certify", script])
        if certified.status is not None and len(certified.output) - len(known) - 1 != int(self.line[5]):
            self.wrong.append(f"gen {self.n}: certify wrote {len(certified.output)} bytes with the answer")
        for name, other in self.others.items():
            if other.status is not None and other.output.split()[:1] not in ([known], []):
                self.wrong.append(f"gen {self.n}: {name} gave {other.output[:20]!r}")

    def cells(self):
        """Returns the row as it is printed."""
        cells = [f"{self.n:,}"]
        cells += [f"`{self.line[2].decode()}`", *(f"{int(self.line[k]):,}" for k in (3, 4, 5))] if self.line else [""] * 4
        every = [self.gen, *self.others.values()]
        cells += ["limit" if ran.status is None else f"{ran.seconds:.2f}" for ran in every]
        for other in self.others.values():
            cells.append("" if None in (self.gen.status, other.status) else f"{ratio(self.gen.seconds, other.seconds):.2f}")
        return cells + [f"{ran.memory:,}" for ran in every]


def run_all(asked):
    """Runs the families that are asked for; returns what is wrong, as texts."""
    wrong, every = [], ["`gen`", *OTHERS]
    head(["N", "answer", "conflicts", "pivots", "bytes", *every, *(f"/ {name}" for name in OTHERS), *(f"{name} KB" for name in every)])
    with tempfile.TemporaryDirectory() as folder:
        for family in asked.families:
            times = {}
            for n in [n for n in FAMILIES[family] if n <= asked.most]:
                one = Generated(asked, n, folder)
                row(one.cells())
                wrong += [f"WRONG {what}" for what in one.wrong]
                times[n // 10 * 10] = one.gen.seconds
            if 4_000 in times and is_too_long(times[4_000], times[400], MOST):
                wrong.append(f"too long: {family}, {times[4_000] / max(times[400], 0.01):.0f} times as long for ten times N")
    return wrong


def write_one(name, path):
    """Writes the script of the size that a name is."""
    write(int(named(name, {str(n): n for sizes in FAMILIES.values() for n in sizes})), path)


def add_options(parser):
    """Adds the options of the group."""
    parser.add_argument("--most", type=int, default=10_000, metavar="N", help="the sizes up to N alone")
    parser.add_argument("--limit", type=float, default=LIMIT, metavar="SECONDS", help="seconds of a processor for a run")


GROUP = Group(__doc__, FAMILIES, add_options, run_all, write_one)
