"""Pairs of texts of 2^30 bytes for `check`, the most that are taken, of one byte more, and long ones of many parts.

Each row is a pair whose answer is known beforehand; there is none where the run ends out of memory, with status 3.
"""

import os
import tempfile

from runs import run
from tables import head, row

LIMIT = 2**30
# As long as what needs many bytes for each one of the text can be in 6 GB.
MANY = 2**26
SCRIPT = "(declare-const p Bool)(assert p)(assert (not p))(check-sat)"
PROOF = "(assume h1 p)(assume h2 (not p))(step t1 (cl) :rule resolution :premises (h1 h2))"


def padded(text, size):
    """The text with spaces after it, so many bytes in all."""
    return text + " " * (size - len(text))


def one_clause(size):
    """A proof with one clause of as many literals of one byte as fit."""
    before = "(assume h1 p)(assume h2 (not p))(step t1 (cl "
    behind = ") :rule resolution :premises (h1))(step t2 (cl) :rule resolution :premises (h1 h2))"
    return before + "p " * ((size - len(before) - len(behind)) // 2) + behind


def many_mentions(size):
    """A proof with one clause of many literals, which one step names as a premise as often as fits."""
    before = "(assume h1 p)(assume h2 (not p))(step c (cl "
    between = ") :rule resolution :premises (h1))(step e (cl) :rule resolution :premises (h2"
    behind = "))"
    count = (size - len(before) - len(between) - len(behind)) // 4
    return before + "p " * count + between + " c" * count + behind


def many_assertions(size):
    """A script that asserts one constant as often as fits."""
    before = "(declare-const p Bool)(assert (not p))"
    behind = "(check-sat)"
    return before + "(assert p)" * ((size - len(before) - len(behind)) // 10) + behind


def many_pairs(count):
    """A script with an assertion of so many constants that are to be distinct, beside two that can be refuted.

    There is room for the terms of the pairs of 4,000. Of 4,200 and of 20,000 there is none, and the assertion is refused
    before any pair is made.
    """
    names = [f"c{i}" for i in range(count)]
    declared = "".join(f"(declare-const {name} Bool)" for name in names)
    return f"{declared}(assert (distinct {' '.join(names)}))" + SCRIPT


def refused(column, name):
    return f'(error "1:{column}: {name}")'


ROWS = [
    ("script and spaces, 2^30 bytes", lambda: padded(SCRIPT, LIMIT), lambda: PROOF, "valid"),
    ("one byte more, after the check", lambda: padded(SCRIPT, LIMIT + 1), lambda: PROOF, "valid"),
    ("proof and spaces, 2^30 bytes", lambda: SCRIPT, lambda: padded(PROOF, LIMIT), "valid"),
    ("one byte more", lambda: SCRIPT, lambda: padded(PROOF, LIMIT + 1), refused(LIMIT + 1, "TooLong")),
    ("script of many assertions", lambda: many_assertions(MANY), lambda: PROOF, "valid"),
    ("proof of one clause, literals of one byte", lambda: SCRIPT, lambda: one_clause(MANY), "valid"),
    ("proof of one clause, named as often as it is long", lambda: SCRIPT, lambda: many_mentions(MANY), "valid"),
    ("proof of opening parentheses", lambda: SCRIPT, lambda: "(" * MANY, refused(MANY + 1, "UnclosedList")),
    ("proof of empty lists", lambda: SCRIPT, lambda: "()" * (LIMIT // 2), refused(3, "BadShape")),
    ("proof of zero bytes", lambda: SCRIPT, lambda: "\0" * LIMIT, refused(1, "BadChar")),
    ("script of 4,000 constants that are distinct", lambda: many_pairs(4_000), lambda: PROOF, "valid"),
    ("script of 4,200 constants that are distinct, refused", lambda: many_pairs(4_200), lambda: PROOF, "valid"),
    ("script of 20,000, refused", lambda: many_pairs(20_000), lambda: PROOF, "valid"),
]


def status_of(answer):
    """The status of a run with this answer."""
    return {"valid": 0, "": 3}.get(answer, 1)


def run_all(program):
    """Prints a row for each pair of texts; returns what is wrong, as texts."""
    wrong = []
    head(["texts", "answer", "seconds", "peak memory in KB", "times the texts"])
    with tempfile.TemporaryDirectory() as folder:
        script, proof = os.path.join(folder, "script.smt2"), os.path.join(folder, "proof.alethe")
        for name, script_text, proof_text, wanted in ROWS:
            for path, text in ((script, script_text()), (proof, proof_text())):
                with open(path, "w", encoding="ascii") as out:
                    out.write(text)
            size = os.path.getsize(script) + os.path.getsize(proof)
            ran = run([program, "check", script, proof])
            output = ran.output.decode("ascii", "replace").strip()
            if (output, ran.status) != (wanted, status_of(wanted)):
                wrong.append(f"another answer than the one wanted, {wanted!r}: {name}")
            answer = f"`{output}`" if output else f"status {ran.status}"
            row([name, answer, f"{ran.seconds:.2f}", f"{ran.memory:,}", f"{ran.memory * 1024 / size:.1f}"])
    return wrong
