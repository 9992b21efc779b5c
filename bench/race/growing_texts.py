"""Texts that grow, and texts that have to be refused at once.

Each family is a script, or a script and a proof, by a number n: 1,000, 10,000 and 100,000, or those of them up to
--most. `solve` runs scripts, with the answer `success` to each command that is taken; `check` judges proofs. What is
written is foretold for each line, with the place of each refusal, and compared in the run itself. The families, whose
functions say in bench/race/growing/ what each is, are in script_families.py, in proof_families.py (`proof: ..`) and, of
resolution, in resolution_families.py (`resolution-..`). The longest texts have some megabytes. An instance to write is
named by its family and n, as `resolution-chain-1000`; its files are a script and, of proofs, a proof.

Ten times n may take at most fifteen times as long, else the row says `too long`. Times are those of a processor in the
program, without the system for it: the least of three runs. Those below 0.01 s, of which the start of the process takes
a good part, count as 0.01 s in this. A run of more than two minutes is stopped.

Where all families are run, a second table has texts whose end does not wait for their size: definitions that each name
the one before twice, until there is no room (`Full`), and `distinct` with repeated arguments, for whose pairs there is
no memory. Each may take as many seconds as the table says, and 6 GB of memory.
"""

import os
import sys
import tempfile

import proof_families
import resolution_families
import script_families
from groups import Group, add_most
from runs import least, run
from tables import head, is_too_long, row, times_before

SIZES = (1_000, 10_000, 100_000)
RUNS = 3
MOST = 15
LONGEST = 120
MEMORY = 6 * 2**30
PROOFS = {**proof_families.FAMILIES, **resolution_families.FAMILIES}
FAMILIES = {**script_families.FAMILIES, **PROOFS}


def written(pairs):
    """Returns the text of pairs of a line and its answer, and what is written for it.

    An answer is a line, or the column and the name of a refusal, or nothing.
    """
    lines, answers = [], []
    for number, (line, answer) in enumerate(pairs, 1):
        lines.append(line)
        if isinstance(answer, tuple):
            answers.append(f'(error "{number}:{answer[0]}: {answer[1]}")')
        elif answer:
            answers.append(answer)
    return "".join(f"{line}\n" for line in lines), "".join(f"{answer}\n" for answer in answers)


class Instance:
    """The texts of a family at one size, in files of a folder, with the words to run and what is to be written."""

    def __init__(self, program, name, n, folder):
        self.script, self.proof = os.path.join(folder, "script.smt2"), os.path.join(folder, "proof.alethe")
        script, wanted = written(FAMILIES[name].script(n))
        self.texts = {self.script: script}
        self.words = [program, "solve", self.script]
        if name in PROOFS:
            self.texts[self.proof], _ = written(FAMILIES[name].proof(n))
            self.words = [program, "check", self.script, self.proof]
            wanted = "valid\n"
        self.wanted = wanted.encode()

    def write(self):
        """Writes the texts; returns their bytes."""
        for path, text in self.texts.items():
            with open(path, "w", encoding="ascii") as out:
                out.write(text)
        return sum(map(len, self.texts.values()))

    @property
    def status(self):
        """The status that the run has to end with."""
        return 1 if b"(error " in self.wanted else 0


def first_difference(wanted, got):
    """Returns the first line that is not the one wanted, as a text."""
    for number, (left, right) in enumerate(zip(wanted.split(b"\n"), got.split(b"\n")), 1):
        if left != right:
            return f"line {number}: wanted {left[:80]!r}, got {right[:80]!r}"
    return f"wanted {wanted.count(10)} lines, got {got.count(10)}"


def run_family(program, name, sizes, folder):
    """Prints a row for each size; returns what is wrong, as texts."""
    wrong, before = [], None
    for n in sizes:
        instance = Instance(program, name, n, folder)
        size = instance.write()
        ran = least(instance.words, RUNS, LONGEST)
        cells = [name, f"{n:,}", f"{size:,}"]
        if ran.status is None:
            row([*cells, f"stopped after {LONGEST} s", "", "", ""])
            return [*wrong, f"{name} at {n:,}: stopped"]
        if (ran.output, ran.status) != (instance.wanted, instance.status):
            difference = first_difference(instance.wanted, ran.output)
            return [*wrong, f"{name} at {n:,}: status {ran.status}, {difference}"]
        times = times_before(ran.user, before)
        if is_too_long(ran.user, before, MOST):
            times += " too long"
            wrong.append(f"{name} at {n:,}: ten times n cost more than {MOST} times the time")
        row([*cells, f"{ran.user:.3f}", times, f"{ran.memory:,}", f"{ran.memory * 1024 / size:.1f}"])
        before = ran.user
    return wrong


def run_ends(program, folder):
    """Prints a row for each text that has to end soon; returns what is wrong, as texts."""
    wrong = []
    print()
    head(["script", "bytes", "status", "seconds", "may take", "peak memory in KB"])
    script = os.path.join(folder, "script.smt2")
    for end in script_families.ENDS:
        text, wanted = written(end.script())
        with open(script, "w", encoding="ascii") as out:
            out.write(text)
        ran = run([program, "solve", script], LONGEST, MEMORY)
        row([end.name, f"{len(text):,}", str(ran.status), f"{ran.seconds:.2f}", str(end.most), f"{ran.memory:,}"])
        if (ran.output, ran.status) != (wanted.encode(), end.status):
            wrong.append(f"{end.name}: status {ran.status}, {first_difference(wanted.encode(), ran.output)}")
        if ran.seconds > end.most:
            wrong.append(f"{end.name}: more than {end.most} s")
    return wrong


def run_all(asked):
    """Runs the families that are asked for; returns what is wrong, as texts."""
    wrong = []
    head(["family", "n", "bytes", "seconds", "times the row before", "peak memory in KB", "times the texts"])
    with tempfile.TemporaryDirectory() as folder:
        for name in asked.families:
            wrong += run_family(asked.program, name, [n for n in SIZES if n <= asked.most], folder)
        if len(asked.families) == len(FAMILIES):
            wrong += run_ends(asked.program, folder)
    return wrong


def write(name, *paths):
    """Writes the texts of one instance to files."""
    family, _, n = name.rpartition("-")
    if family not in FAMILIES or not n.isdigit():
        sys.exit("the names are FAMILY-N, where the families are " + ", ".join(FAMILIES))
    with tempfile.TemporaryDirectory() as folder:
        texts = Instance("", family, int(n), folder).texts
    for path, text in zip(paths, texts.values()):
        with open(path, "w", encoding="ascii") as out:
            out.write(text)


GROUP = Group(__doc__, FAMILIES, lambda parser: add_most(parser, SIZES), run_all, write)
