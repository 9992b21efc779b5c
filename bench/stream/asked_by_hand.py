"""Sessions in which each answer is waited for, through a pipe and at a terminal."""

import os
import pty
import select
import subprocess
import time

from reading import Fault, read_one
from sessions import evidence_end, judge
from tables import head, row

# The longest that an answer may take, in seconds.
LONGEST = 5
SESSION = b"""(set-option :print-success true)
(set-logic QF_UFLRA)
(set-option :produce-models true)
(set-option :produce-proofs true)
(set-option :produce-assertions true)
(set-option :random-seed 1)
(declare-sort U 0)
(declare-fun f (U) U)
(declare-const a U)
(declare-const x Real)
(assert (and (< 0 x 1) (= (f (f a)) a)))
(check-sat)
(get-value (x (f a) (+ x 1)))
(get-model)
(assert (< y 0))
(push 1)
(assert (distinct (f (f (f a))) (f a)))
(check-sat)
(get-proof)
(get-assertions)
(pop 1)
(echo "a ""b""  ")
(get-info :name)
(assert (> (* 100000000000000000000 (* 100000000000000000000 x)) 1))
(check-sat)
(get-info :reason-unknown)
(exit)
""".splitlines(True)
# Lines as people type them: with an error, two commands in one, one in two, and no command.
TYPED = b"""(declare-const p Bool)
(set-option :produce-models true) (declare-const q Bool)
(assert
  (or p q)) ; one of them
(assert (or p r))
; what comes is not declared either
s
(check-sat)
(get-value (p q))
(assert (not p)) (assert (not q))
(check-sat)
(echo "it goes on")
""".splitlines(True)
# The byte that ends the input of a terminal, at the beginning of a line.
END = b"\x04"


class Late(Exception):
    """An answer did not come in time."""


def expressions_in(output, at, count):
    """Tells whether so many s-expressions stand in the output from `at` on, with the end of the last line."""
    try:
        for _ in range(count):
            found = read_one(output, at)
            if found is None:
                return False
            at = found[1]
    except Fault:
        return False
    return output.startswith(b"\n", at)


def answers_in(line, command):
    """Returns how many s-expressions answer what a line completes: each command one, and a check by `certify` one more."""
    text, at, count = b"".join(line), 0, 0
    while (found := read_one(text, at)) is not None:
        item, at = found
        is_check = item[0] == "list" and item[1][0][1].startswith(b"check-sat")
        count += 2 if is_check and command == "certify" else 1
    return count


class Terminal:
    """A program at a pseudo-terminal, which shows what is typed as it does for people."""

    def __init__(self, words):
        self.end, inner = pty.openpty()
        self.child = subprocess.Popen(words, stdin=inner, stdout=inner, stderr=inner, start_new_session=True)
        os.close(inner)

    def type(self, line):
        """Types a line."""
        os.write(self.end, line)

    def shown(self, line):
        """Returns what the terminal shows of a line that is typed."""
        return b"" if line == END else line.replace(b"\n", b"\r\n")

    def read(self, seconds):
        """Returns what is shown next, nothing at the end."""
        if not select.select([self.end], [], [], max(seconds, 0))[0]:
            raise Late
        try:
            return os.read(self.end, 65536).replace(b"\r\n", b"\n")
        except OSError:
            return b""

    def finish(self):
        """Ends the input; returns the status."""
        self.type(END)
        return self.child.wait(LONGEST)


class Pipe:
    """A program with pipes to it and from it."""

    def __init__(self, words):
        self.child = subprocess.Popen(words, stdin=subprocess.PIPE, stdout=subprocess.PIPE, stderr=subprocess.STDOUT)
        self.end = self.child.stdout.fileno()

    def type(self, line):
        """Writes a line."""
        os.write(self.child.stdin.fileno(), line)

    def shown(self, _line):
        """Returns what a pipe shows of a line that is written: nothing."""
        return b""

    def read(self, seconds):
        """Returns what is written next, nothing at the end."""
        if not select.select([self.end], [], [], max(seconds, 0))[0]:
            raise Late
        return os.read(self.end, 65536)

    def finish(self):
        """Ends the input; returns the status."""
        self.child.stdin.close()
        return self.child.wait(LONGEST)


def lines_together(lines):
    """Returns the lines, each command that goes over several as one list of them."""
    together, before = [], []
    for line in lines:
        before.append(line)
        try:
            read_one(b"".join(before), 0)
        except Fault:
            continue
        together.append(before)
        before = []
    return together


def asked(place, command, line):
    """Writes the lines of a command and waits for its answers; returns what was written, and the seconds that it took."""
    wanted, output = answers_in(line, command), b""
    began = time.perf_counter()
    for part in line:
        place.type(part)
    shown = b"".join(map(place.shown, line)).replace(b"\r\n", b"\n")
    while not (output.startswith(shown) and expressions_in(output, len(shown), wanted)) if wanted else output != shown:
        piece = place.read(began + LONGEST - time.perf_counter())
        if not piece:
            raise Late
        output += piece
    return output[len(shown) :], time.perf_counter() - began


def run_session(kind, program, command, lines):
    """Asks line by line; returns what is wrong, the number of answers and the longest wait."""
    place, output, longest, count = kind([program, command]), b"", 0.0, 0
    try:
        for line in lines_together(lines):
            try:
                answer, seconds = asked(place, command, line)
            except Late:
                return f"{command}: no answer to {b''.join(line)!r} in {LONGEST} s", count, longest
            output, longest, count = output + answer, max(longest, seconds), count + answers_in(line, command)
        status = place.finish()
        shows = evidence_end if command == "certify" else None
        wrong, _ = judge(b"".join(lines), output, status, shows=shows)
        return wrong and f"{command}: {wrong}", count, longest
    except subprocess.TimeoutExpired:
        return f"{command}: it did not end in {LONGEST} s", count, longest
    finally:
        place.child.kill()
        place.child.wait()


def run_both(kind, program, lines):
    """Runs a session by both commands, prints a table, and returns what is wrong."""
    head(["command", "lines", "answers", "longest wait in ms", "right"])
    faults = []
    for command in ("solve", "certify"):
        wrong, count, longest = run_session(kind, program, command, lines)
        faults += [wrong] if wrong else []
        row([command, str(len(lines)), str(count), f"{1000 * longest:.1f}", "no" if wrong else "yes"])
    return faults


def run_pipe(asked_for):
    """Runs the session through a pipe that stays open."""
    return run_both(Pipe, asked_for.program, SESSION)


def run_terminal(asked_for):
    """Runs the session of typed lines at a terminal, and the other one."""
    return run_both(Terminal, asked_for.program, TYPED) + run_both(Terminal, asked_for.program, SESSION)
