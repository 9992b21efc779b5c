"""Texts that come in pieces: where the program waits for bytes, it has written the answers that are due, and no more.

What is due is foretold by the independent reading (bench/compare/taking.py): the answers to the commands that the bytes up
to there have next, whichever bytes come after them. The answers are those to the whole text, which are judged.
"""

import random
import subprocess
from functools import lru_cache

from client import LONGEST, Client, TooLong
from piece_texts import a_session, a_soup, cut, scripts_in
from reasons import NONE
from sessions import judge, shown_end
from tables import head, row
from taking import TEXT_LIMIT, Taken
from worked_rows import ROWS

MOST_WRONG = 10
SHOWN = 60
MOST_FEEDS = 60
TOO_LONG = b'(error "1:%d: TooLong")\n' % (TEXT_LIMIT + 1)
WORD = b'(error "1:%d: BadShape")\n' % (TEXT_LIMIT - 1)
# What stands before blanks and behind them in a text as long as is read; what is due by then, once one byte more came, and
# where none comes, which is foretold by hand.
AT_LIMIT = (
    (b"(check-sat)", b"", b"sat\n", b" ", b"sat\n" + TOO_LONG, b"sat\n"),
    (b"", b"ab", b"", b"c", WORD + TOO_LONG, WORD),
    (b"", b'""', b"", b'"', WORD + TOO_LONG, WORD),
    (b"", b"(a", b"", b")", TOO_LONG, b'(error "1:%d: UnclosedList")\n' % (TEXT_LIMIT + 1)),
    (b"", b" |", b"", b"|", TOO_LONG, b'(error "1:%d: UnclosedQuote")\n' % TEXT_LIMIT),
    (b"", b"()", WORD, b"a", WORD + TOO_LONG, WORD),
    (b"(exit)", b"", None, b"", b"success\n", b"success\n"),
)


class Left(Exception):
    """The program takes too long for the whole text."""


@lru_cache(maxsize=8)
def whole(words, text):
    """Runs the program on a whole text; returns what is wrong, the output, the status, and where each answer begins."""
    try:
        done = subprocess.run(words, input=text, capture_output=True, timeout=LONGEST, check=False)
    except subprocess.TimeoutExpired:
        raise Left from None
    shows, starts = shown_end if words[-1] == "certify" else None, []
    wrong, _ = judge(text, done.stdout, done.returncode, NONE, shows, is_foretold=False, starts=starts)
    if wrong is None and done.stderr:
        wrong = f"errors: {done.stderr[:SHOWN]!r}"
    return wrong, done.stdout, done.returncode, starts


class Wrong(Exception):
    """The program did something else than what is foretold."""


class Fed:
    """A run of the program on a text in pieces, and what is due by the bytes that came."""

    def __init__(self, words, text):
        wrong, self.output, self.status, self.starts = whole(words, text)
        if wrong:
            raise Wrong(f"the whole text: {wrong}")
        self.taken = Taken()
        self.client = Client(words)

    def due(self):
        """Returns what has to be written by now."""
        count = self.taken.answers
        return self.output[: self.starts[count]] if count < len(self.starts) else self.output

    def require_due(self, when):
        """Raises that something else is written than what is due."""
        due, written = self.due(), bytes(self.client.written)
        if written == due:
            return
        what = "too little" if due.startswith(written) else "too much" if written.startswith(due) else "another output"
        at = next((k for k, (a, b) in enumerate(zip(due, written)) if a != b), min(len(due), len(written)))
        raise Wrong(f"{what} {when}: from {at} on {written[at : at + SHOWN]!r}, and due {due[at : at + SHOWN]!r}")

    def require_wait(self, when):
        """Waits until the program waits for bytes; raises that it does where the text is over, or does not where it is not."""
        if self.client.waits() == self.taken.is_over:
            raise Wrong(f"it {'waits for more' if self.taken.is_over else 'has ended'} {when}")
        if not self.taken.is_over:
            self.require_due(when)

    def feed(self, pieces):
        """Feeds the pieces while the text is not over; returns how many."""
        self.require_wait("before the first byte")
        count = 0
        for piece in pieces:
            self.taken.feed(piece)
            self.client.write(piece)
            count += 1
            self.require_wait(f"after {len(self.taken.data)} bytes")
            if self.taken.is_over:
                break
        status, errors = self.client.close()
        if not self.taken.is_over:
            self.taken.close()
        self.require_due("at the end")
        if status != self.status or errors:
            raise Wrong(f"status {status} in place of {self.status}, and errors {errors[:SHOWN]!r}")
        return count


def fed(words, text, pieces):
    """Runs the program on a text in pieces; returns what is wrong, if something is, and how many pieces it was fed."""
    try:
        run = Fed(words, text)
        with run.client:
            return None, run.feed(pieces)
    except Wrong as wrong:
        return str(wrong), 0
    except TooLong:
        return f"it did not go on in {LONGEST} s", 0


class Kind:
    """The runs of a kind of texts: how many texts and pieces there were, how many were left, and what was wrong."""

    def __init__(self, name, program):
        self.name, self.program = name, program
        self.texts = self.pieces = self.left = 0
        self.wrong = []

    def run(self, command, text, pieces):
        """Runs one text in pieces, and keeps what is wrong."""
        try:
            wrong, count = fed((self.program, command), text, pieces)
        except Left:
            self.left += 1
            return
        self.texts += 1
        self.pieces += count
        if wrong:
            sizes = [len(piece) for piece in pieces[:20]]
            self.wrong.append(f"{self.name}: {command} of {text[:400]!r} in pieces of {sizes}: {wrong}")

    def is_given_up(self):
        """Tells whether so much is wrong that no more is run."""
        return len(self.wrong) >= MOST_WRONG


def run_rows(kind, each):
    """Runs the worked rows, each cut as `each` says."""
    for command, text, output in ROWS:
        got = whole((kind.program, command), text)[1]
        if output is not None and got != output:
            kind.wrong.append(f"{kind.name}: {command} of {text!r} writes {got!r}")
        for pieces in each(text):
            if kind.is_given_up():
                return
            kind.run(command, text, pieces)


def single_bytes(text):
    """Returns the text in single bytes."""
    return [[text[at : at + 1] for at in range(len(text))]]


def splits(text):
    """Returns the text in two pieces, in each way."""
    return [[text[:at], text[at:]] for at in range(1, len(text))]


def fed_at_limit(words, text, due, more, wanted):
    """Runs the program on a text as long as is read, and what comes then; returns what is wrong."""
    with Client(words) as client:
        client.write(text)
        if client.waits() == (due is None) or (due is not None and client.written != due):
            return f"{bytes(client.written)!r} at the limit"
        client.write(more)
        if more and client.waits():
            return "it waits for more behind the limit"
        status, errors = client.close()
        is_status = status == int(b"error" in wanted)
        return None if is_status and (client.written, errors) == (wanted, b"") else f"{status} and {bytes(client.written)!r}"


def run_limit(kind):
    """Runs texts as long as are read, each with one byte more and without one."""
    for front, behind, due, more, longer, whole_output in AT_LIMIT:
        text = front + b" " * (TEXT_LIMIT - len(front) - len(behind)) + behind
        for added, wanted in ((more, longer), (b"", whole_output)):
            try:
                wrong = fed_at_limit((kind.program, "solve"), text, due, added, wanted)
            except TooLong:
                wrong = f"it did not go on in {LONGEST} s"
            kind.texts += 1
            kind.pieces += 1 + len(added)
            if wrong:
                kind.wrong.append(f"{kind.name}: {front!r}, blanks, {behind!r} and {added!r}: {wrong}")


def run_chance(kind, make, count, seed):
    """Runs texts by chance until so many pieces were fed."""
    number = 0
    while kind.pieces < count and not kind.is_given_up():
        number += 1
        random.seed(f"{seed} {kind.name} {number}")
        text = make()
        kind.run(random.choice(["solve", "certify"]), text, cut(text))


def run_scripts(kind, folder, seed):
    """Runs each script of a folder by both commands, in pieces by chance, few enough that trying what may come is no long work."""
    for number, text in enumerate(scripts_in(folder)):
        for command in ("solve", "certify"):
            random.seed(f"{seed} {kind.name} {number} {command}")
            pieces = cut(text)
            while len(pieces) > MOST_FEEDS:
                pieces = [b"".join(pieces[at : at + 2]) for at in range(0, len(pieces), 2)]
            if kind.is_given_up():
                return
            kind.run(command, text, pieces)


def run_all(asked):
    """Runs all kinds, prints a table, and returns what is wrong."""
    kinds = []
    head(["texts", "how they are cut", "runs", "pieces", "left", "wrong"])

    def run(name, how, what, *given):
        kind = Kind(name, asked.program)
        what(kind, *given)
        kinds.append(kind)
        row([name, how, f"{kind.texts:,}", f"{kind.pieces:,}", str(kind.left), str(len(kind.wrong))])

    run("worked rows", "in single bytes", run_rows, single_bytes)
    run("worked rows", "in two, in each way", run_rows, splits)
    run("soups", "by chance", run_chance, a_soup, asked.pieces, asked.seed)
    run("sessions", "by chance", run_chance, a_session, asked.pieces // 5, asked.seed)
    run("texts as long as are read", "behind the last byte", run_limit)
    if asked.scripts:
        run("scripts of others", "by chance", run_scripts, asked.scripts, asked.seed)
    return [wrong for kind in kinds for wrong in kind.wrong]
