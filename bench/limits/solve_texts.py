"""Scripts of 2^30 bytes for `solve` and `certify`, the most that are taken, of one byte more, and of many parts.

Each row is a script whose output and status are known beforehand. Each run gets 6 GiB of address space; what does not
fit ends with status 3.
"""

import os
import tempfile

from runs import run
from tables import head, row

LIMIT = 2**30
# As long as what needs many bytes for each one of the text can be in that memory.
MANY = 2**26
MEMORY = 6 * 2**30
START = "(set-option :print-success false)(declare-const p Bool)"
SCRIPT = START + "(assert p)(assert (not p))(check-sat)"
TOO_LONG = f'(error "1:{LIMIT + 1}: TooLong")\n'


def repeated(before, item, behind):
    """The item between two texts, as often as fits into 2^26 bytes."""
    return before + item * ((MANY - len(before) - len(behind)) // len(item)) + behind


def declarations():
    """The names of as many constants as have room in 2^26 bytes, each declared once."""
    names, size = [], len(START) + len("(check-sat)")
    while True:
        name = f"x{len(names)}"
        size += len(f"(declare-const {name} Bool)")
        if size > MANY:
            return names
        names.append(name)


def many_constants():
    """A script of declarations and a check."""
    return START + "".join(f"(declare-const {name} Bool)" for name in declarations()) + "(check-sat)"


def false_model():
    """The answer of that check, with a model in which no constant is true."""
    lines = "".join(f"  (define-fun {name} () Bool false)\n" for name in ["p", *declarations()])
    return f"sat\n(\n{lines})\n"


def disjunction(count):
    """A script that asserts a disjunction of so many different constants, and has a check."""
    names = [f"x{i}" for i in range(count)]
    declared = "".join(f"(declare-const {name} Bool)" for name in names)
    return f"{START}{declared}(assert (or {' '.join(names)}))(check-sat)"


def shapes():
    """The answers of 1,000,000 empty lists, of which none is a command."""
    return "".join(f'(error "1:{2 * i + 1}: BadShape")\n' for i in range(1_000_000))


def exclusion(count):
    """A script that asserts that an odd number of so many mentions of one constant is true, and has a check."""
    return f"{START}(assert (xor{' p' * count}))(check-sat)"


def negations(count):
    """A script that asserts one constant, and an odd number of `not` around it, and has a check."""
    return f"{START}(assert p)(assert{' (not' * count} p{')' * count})(check-sat)"


REFUSED = f'(error "1:{len(START) + 1}: Full")\nsat\n'

ROWS = [
    ("commands and spaces, 2^30 bytes", "solve", lambda: SCRIPT.ljust(LIMIT), "unsat\n", 0),
    ("one byte more", "solve", lambda: SCRIPT.ljust(LIMIT + 1), "unsat\n" + TOO_LONG, 1),
    ("commands and one comment, 2^30 bytes", "solve", lambda: (SCRIPT + ";").ljust(LIMIT, "-"), "unsat\n", 0),
    ("one byte more", "solve", lambda: (SCRIPT + ";").ljust(LIMIT + 1, "-"), "unsat\n" + TOO_LONG, 1),
    ("an open string, one byte more", "solve", lambda: (SCRIPT + '"').ljust(LIMIT + 1, "-"), "unsat\n" + TOO_LONG, 1),
    ("opening parentheses, 2^26", "solve", lambda: "(" * MANY, f'(error "1:{MANY + 1}: UnclosedList")\n', 1),
    ("2^30, for which there is no memory", "solve", lambda: "(" * LIMIT, "", 3),
    ("`not` 100,001 deep, and a check", "solve", lambda: negations(100_001), "unsat\n", 0),
    ("1,000,001 deep", "solve", lambda: negations(1_000_001), "unsat\n", 0),
    ("empty lists, 1,000,000", "solve", lambda: "()" * 1_000_000, shapes, 1),
    ("assertions of one constant, and a check", "solve", lambda: repeated(START, "(assert p)", "(check-sat)"), "sat\n", 0),
    ("declarations, and a check with its model", "certify", many_constants, false_model, 0),
    ("checks of nothing, 1,000,000", "solve", lambda: START + "(check-sat)" * 1_000_000, "sat\n" * 1_000_000, 0),
    ("one disjunction of a constant repeated, no check", "solve", lambda: repeated(START + "(assert (or", " p", "))"), "", 0),
    ("a disjunction of 2,000 constants, and a check", "solve", lambda: disjunction(2_000), "sat\n", 0),
    ("a disjunction of 4,000", "solve", lambda: disjunction(4_000), "sat\n", 0),
    ("a disjunction of 8,000", "solve", lambda: disjunction(8_000), "sat\n", 0),
    ("an exclusive disjunction that is `Full`", "solve", lambda: repeated(START + "(assert (xor", " p", "))(check-sat)"), REFUSED, 1),
    ("one of 250,000 arguments, and a check", "solve", lambda: exclusion(250_000), "unsat\n", 0),
    ("one of 500,000", "solve", lambda: exclusion(500_000), "unsat\n", 0),
    ("one of 1,000,000", "solve", lambda: exclusion(1_000_000), "unsat\n", 0),
    ("one of 10,000,000, for which there is no memory", "solve", lambda: exclusion(10_000_000), "", 3),
]


def shown(output):
    """What is written, as a cell of the table: the first two lines of it."""
    lines = output.splitlines()
    cell = ", ".join(f"`{line}`" for line in lines[:2]) or "nothing"
    return f"{cell}, and {len(lines) - 2:,} lines more" if len(lines) > 2 else cell


def run_all(program):
    """Prints a row for each script; returns what is wrong, as texts."""
    wrong = []
    head(["script", "bytes", "command", "output", "status", "seconds", "peak memory in KB", "times the script"])
    with tempfile.TemporaryDirectory() as folder:
        script = os.path.join(folder, "script.smt2")
        for name, command, text, wanted, status in ROWS:
            with open(script, "w", encoding="ascii") as out:
                out.write(text())
            size = os.path.getsize(script)
            ran = run([program, command, script], memory=MEMORY)
            output = ran.output.decode("ascii", "replace")
            expected = wanted() if callable(wanted) else wanted
            if (output, ran.status) != (expected, status):
                wrong.append(f"another output or status than the one wanted: {name}")
            cells = [name, f"{size:,}", f"`{command}`", shown(output), str(ran.status), f"{ran.seconds:.2f}"]
            row([*cells, f"{ran.memory:,}", f"{ran.memory * 1024 / size:.1f}"])
    return wrong
