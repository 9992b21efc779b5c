"""How long the program takes for a long text that comes in pieces of several sizes, and how much memory.

A byte through a pipe by itself costs calls of the system on either side, and a switch between both. So single bytes are
also given by a library (short_reads.c) that is preloaded, which has no such costs. What a read costs the program besides
is taken from a text of blanks, with which nothing else is to be done. As times vary with what else runs, that is
compared in instructions, which valgrind counts.
"""

import os
import re
import resource
import shutil
import subprocess
import tempfile
import time

from client import Client
from tables import head, row

SOURCE = os.path.join(os.path.dirname(os.path.abspath(__file__)), "short_reads.c")
QUIET = b"(set-option :print-success false)\n"
MEGABYTE = 1_000_000
COUNTED_BYTES = 400_000
LONGEST = 1_000
RUNS = 3
# Shorter times count as so long where a text is compared with one of ten times the size.
SHORT = 0.05
# How many times as long ten times the text may take, noise included; and how many times as many instructions single bytes, but for reads.
MOST_GROWN = 20
MOST_MORE = 1.3
COUNTED = ("valgrind", "--tool=cachegrind", "--cache-sim=no", "--cachegrind-out-file=/dev/null")
COUNT = re.compile(rb"I +refs: +([\d,]+)")
PEAK = re.compile(rb"VmHWM:\s*(\d+) kB")


def blanks(size):
    """Makes a text of blanks, with so many bytes or some more."""
    return QUIET + b" " * size + b'(echo "end")\n'


def infos(size):
    """Makes commands that do nothing, with so many bytes or some more."""
    line = b"(set-info :notes (a |b c| 1.5 :d \"e\"))\n"
    return QUIET + line * (size // len(line) + 1) + b'(echo "end")\n'


def assertions(size):
    """Makes assertions, with so many bytes or some more."""
    names = b"".join(b"(declare-const p%d Bool)\n" % n for n in range(100))
    lines, n, count = [], 0, 0
    while count < size:
        line = b"(assert (=> p%d (or (not p%d) p%d)))\n" % (n % 100, n // 7 % 100, n // 11 % 100)
        lines.append(line)
        n, count = n + 1, count + len(line)
    return QUIET + names + b"".join(lines) + b'(echo "end")\n'


def one_command(size):
    """Makes one command with so many bytes or some more."""
    part = b"(a |b c| 1.5 :d \"e\") words and words\n"
    return QUIET + b"(set-info :notes (" + part * (size // len(part) + 1) + b"))\n" + b'(echo "end")\n'


def written_in(size):
    """Returns what writes a text in pieces of a size."""

    def write(client, text):
        left = memoryview(text)
        for at in range(0, len(text), size):
            client.write(left[at : at + size])

    return write


def written_in_bytes(client, text):
    """Writes a text byte by byte, with as little work as can be."""
    write, to, left = os.write, client.to, memoryview(text)
    for at in range(len(text)):
        write(to, left[at : at + 1])


def written_whole(client, text):
    """Writes a text at once, as far as the pipe takes it."""
    client.write(text)


class Measured:
    """One run: seconds of a processor, in the program and in the system for it, seconds of the clock, and peak memory."""

    def __init__(self, words, text, write, wanted, **variables):
        before = resource.getrusage(resource.RUSAGE_CHILDREN)
        began = time.perf_counter()
        with Client(words, **variables) as client:
            write(client, text)
            is_waiting = client.waits(LONGEST)
            with open(f"/proc/{client.child.pid}/status", "rb") as report:
                peak = PEAK.search(report.read())
            status, errors = client.close(LONGEST)
            self.clock = time.perf_counter() - began
            self.is_right = is_waiting and (bytes(client.written), status, errors) == (wanted, 0, b"")
        after = resource.getrusage(resource.RUSAGE_CHILDREN)
        self.user, self.system = after.ru_utime - before.ru_utime, after.ru_stime - before.ru_stime
        self.peak = int(peak[1]) if peak else 0


# How a text comes: what writes it, whether the library is preloaded, and whether it is run but once.
WAYS = {
    "at once": (written_whole, False, False),
    "64 KB a write": (written_in(65536), False, False),
    "1 byte a read": (written_whole, True, False),
    "1 byte a write": (written_in_bytes, False, True),
}
# Each text with its size, and the ways in which it comes.
TEXTS = (
    ("blanks", blanks, 10 * MEGABYTE, list(WAYS)[:3]),
    ("commands that do nothing", infos, 10 * MEGABYTE, list(WAYS)),
    ("assertions", assertions, 10 * MEGABYTE, list(WAYS)),
    ("one command", one_command, 60 * MEGABYTE, list(WAYS)[:3]),
)


class Race:
    """The runs of a program, and what was wrong."""

    def __init__(self, program, library):
        self.words = (program, "solve")
        self.library = library
        self.wrong = []

    def measured(self, name, how, text):
        """Runs a text in a way."""
        write, is_preloaded, _ = WAYS[how]
        run = Measured(self.words, text, write, b'"end"\n', **({"LD_PRELOAD": self.library} if is_preloaded else {}))
        if not run.is_right:
            self.wrong.append(f"{name}, {how}: another output")
        return run

    def least(self, name, text, ways):
        """Runs a text in its ways in turn, a few times; returns of each way the run that took least in the program."""
        runs = {how: [] for how in ways}
        for number in range(RUNS):
            for how in ways:
                if number == 0 or not WAYS[how][2]:
                    runs[how].append(self.measured(name, how, text))
        return {how: min(those, key=lambda run: run.user) for how, those in runs.items()}

    def run(self, name, make, size, ways):
        """Runs a text in its ways, and prints a row for each."""
        text = make(size)
        small, large = self.least(name, make(size // 10), ways), self.least(name, text, ways)
        for how, ran in large.items():
            if ran.user > MOST_GROWN * max(small[how].user, SHORT) and not WAYS[how][2]:
                self.wrong.append(f"{name}, {how}: ten times the text took {ran.user:.2f} s, a tenth {small[how].user:.2f} s")
            cells = [f"{ran.user:.2f}", f"{ran.system:.2f}", f"{ran.clock:.2f}", f"{ran.user / large[ways[0]].user:.2f}"]
            row([name, f"{len(text):,}", how, *cells, f"{ran.peak:,}", f"{1024 * ran.peak / len(text):.1f}"])

    def instructions(self, text, is_preloaded):
        """Returns how many instructions a byte of a text costs."""
        known = dict(os.environ, LD_PRELOAD=self.library) if is_preloaded else None
        done = subprocess.run([*COUNTED, *self.words], input=text, capture_output=True, env=known, check=True)
        return int(COUNT.search(done.stderr)[1].replace(b",", b"")) / len(text)

    def count(self, texts):
        """Counts the instructions of short texts, at once and in single bytes, and prints a row for each."""
        of_a_read = None
        for name, make, _, _ in texts:
            text = make(COUNTED_BYTES)
            whole, single = self.instructions(text, False), self.instructions(text, True)
            of_a_read = of_a_read or single - whole
            more = (single - of_a_read) / whole
            row([name, f"{len(text):,}", f"{whole:.1f}", f"{single:.1f}", f"{single - whole:.1f}", f"{more:.2f}"])
            if more > MOST_MORE:
                self.wrong.append(f"{name}: {more:.2f} times as many instructions in single bytes, but for reads")


def run_all(asked):
    """Runs all texts, prints a table, and returns what is wrong."""
    head(["text", "bytes", "how it comes", "user s", "system s", "clock s", "/ at once", "peak KB", "times the text"])
    with tempfile.TemporaryDirectory() as folder:
        library = os.path.join(folder, "short_reads.so")
        subprocess.run(["cc", "-O2", "-Wall", "-shared", "-fPIC", "-o", library, SOURCE, "-ldl"], check=True)
        race = Race(asked.program, library)
        for text in TEXTS:
            race.run(*text)
        text = infos(10 * MEGABYTE)
        alone = Measured(("sh", "-c", "exec cat > /dev/null"), text, written_in_bytes, b"")
        print(f"\nThe same {len(text):,} bytes, 1 byte a write, to `cat > /dev/null`: {alone.clock:.2f} s of the clock.")
        if shutil.which("valgrind"):
            print("\nInstructions a byte:\n")
            head(["text", "bytes", "at once", "1 byte a read", "more a read", "/ at once, but for reads"])
            race.count(TEXTS)
    return race.wrong
