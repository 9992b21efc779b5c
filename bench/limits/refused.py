"""Runs of a program in which one of its allocations is refused, by refuse_alloc.c, which is preloaded."""

import os
import re
import subprocess
import tempfile
from collections import Counter

SOURCE = os.path.join(os.path.dirname(os.path.abspath(__file__)), "refuse_alloc.c")
# How many allocations of a test are refused at most.
MOST = 1_500
LONGEST = 60
OUT_OF_MEMORY = re.compile(rb"^(error|memory): .*(Memory|AllocError|AllocFailed)|left: .*Memory", re.MULTILINE)
ANOTHER_ANSWER = re.compile(rb"assertion.* failed|^test stopped at ", re.MULTILINE)


class Refusal:
    """The library that refuses allocations, and the folder that it is built in."""

    def __init__(self, folder):
        self.folder, self.library = folder, os.path.join(folder, "refuse_alloc.so")
        subprocess.run(["cc", "-O1", "-Wall", "-shared", "-fPIC", "-o", self.library, SOURCE, "-ldl"], check=True)

    def count(self, words, folder=None):
        """Returns how many allocations a run makes."""
        done = self.ran(words, folder, COUNT="1")
        return int(done.stderr.split()[-1])

    def ran(self, words, folder=None, errors=subprocess.PIPE, seconds=None, **variables):
        """Runs the words with the library, in a folder; returns what came of it, or nothing after a limit of time."""
        known = dict(os.environ, LD_PRELOAD=self.library, **variables)
        try:
            return subprocess.run(
                words,
                env=known,
                cwd=folder,
                stdin=subprocess.DEVNULL,
                stdout=subprocess.PIPE,
                stderr=errors,
                timeout=seconds or (LONGEST if folder else None),
                check=False,
            )
        except subprocess.TimeoutExpired:
            return None


def outcome(done, whole, command):
    """Names what a run with a refused allocation came to, beside the run with none refused."""
    is_front = not done.stdout if command == "check" else whole.stdout.startswith(done.stdout)
    if done.returncode == 3 and is_front:
        return "after some output" if done.stdout else "out of memory"
    return "unchanged" if (done.returncode, done.stdout) == (whole.returncode, whole.stdout) else "wrong"


def run_all(program, *words):
    """Refuses each allocation of a run once, and tells what came; returns what is wrong, as texts."""
    counts, wrong, command = Counter(), [], [program, *words]
    with tempfile.TemporaryDirectory() as folder:
        refusal = Refusal(folder)
        whole = subprocess.run(command, stdin=subprocess.DEVNULL, stdout=subprocess.PIPE, check=False)
        total = refusal.count(command)
        for number in range(1, total + 1):
            done = refusal.ran(command, REFUSE=str(number), errors=None)
            what = outcome(done, whole, words[0])
            counts[what] += 1
            if what == "wrong":
                text = done.stdout.decode("utf-8", "replace")
                wrong.append(f"allocation {number} refused: status {done.returncode}, output:\n{text}")
    ended = f"{counts['out of memory'] + counts['after some output']} runs out of memory"
    ended += f", {counts['after some output']} of them after some output"
    print(f"{' '.join(words)}: {total} allocations, {ended}, {counts['unchanged']} unchanged, {counts['wrong']} wrong")
    return wrong


def run_going_on(program, *words):
    """Refuses each allocation of a run once, which has to end as with none refused; returns what is wrong, as texts."""
    wrong, command = [], [program, *words]
    with tempfile.TemporaryDirectory() as folder:
        refusal = Refusal(folder)
        whole = refusal.ran(command, folder, COUNT="1")
        total = int(whole.stderr.split()[-1])
        for number in range(1, total + 1):
            done = refusal.ran(command, folder, subprocess.DEVNULL, REFUSE=str(number))
            if done is None or (done.returncode, done.stdout) != (whole.returncode, whole.stdout):
                wrong.append(f"allocation {number} refused: {done}")
    came = f"{total - len(wrong)} runs as with none refused: status {whole.returncode}, {len(whole.stdout)} bytes"
    print(f"{' '.join(words)}: {total} allocations, {came}")
    return wrong


def test_outcome(done):
    """Names what a run of a test with a refused allocation came to."""
    if done is None:
        return "wrong"
    if done.returncode == 0:
        return "unchanged"
    if OUT_OF_MEMORY.search(done.stdout):
        return "out of memory"
    return "another answer" if ANOTHER_ANSWER.search(done.stdout) else "wrong"


def run_test(refusal, tests, name):
    """Refuses allocations of one test, and tells what came; returns what is wrong, as texts."""
    counts, wrong = Counter(), []
    total = refusal.count([tests, name], refusal.folder)
    step = total // MOST + 1
    for number in range(1, total + 1, step):
        done = refusal.ran([tests, name], refusal.folder, subprocess.STDOUT, REFUSE=str(number))
        what = test_outcome(done)
        counts[what] += 1
        if what == "wrong":
            said = f"stopped after {LONGEST} s" if done is None else f"status {done.returncode}, output {done.stdout!r}"
            wrong.append(f"{name}, allocation {number} refused: {said}")
    came = ", ".join(f"{counts[what]} {what}" for what in ("out of memory", "another answer", "unchanged", "wrong"))
    print(f"{name}: {total} allocations, one in {step} refused: {came}", flush=True)
    return wrong


def run_tests(tests, left_out=None):
    """Does so for each test of a crate; returns what is wrong, as texts."""
    listed = subprocess.run([tests, "--list"], stdout=subprocess.PIPE, text=True, check=True).stdout.splitlines()
    names = [line.removesuffix(": test") for line in listed if line.endswith(": test")]
    with tempfile.TemporaryDirectory() as folder:
        refusal = Refusal(folder)
        kept = [name for name in names if not left_out or left_out not in name]
        return [what for name in kept for what in run_test(refusal, tests, name)]
