"""Reads rows that are written by hand: texts with what is to be written for them.

Rows stand apart by blank lines. Lines of a row begin with a sign and a blank: `#` what it shows, `~` a limit on terms
and names (2^24 where there is none), `|` the script, `%` a proof, `@` the number of the check that is meant (1 where
there is none), `=` what is written, by `check` where there is a proof and else by `solve`. Each script has the line
`(set-option :print-success false)` before it, which is the first.
"""

from antt import lines_written
from check_answers import predict_check
from commands import read_script
from proof_rows import LEXICAL, statement
from script_rows import faults_in
from sessions import is_open, judge_solve, predict_solve, run_script

FIRST_LINE = b"(set-option :print-success false)\n"


class Row:
    """A row: what it shows, its limit, its texts by sign, and whether it has a proof."""

    def __init__(self, lines):
        self.texts = {sign: b"" for sign in b"#~|%@="}
        for line in lines:
            self.texts[line[0]] += line[2:] + b"\n"
        self.shows = self.texts[ord("#")].decode().strip()
        self.limit = int(self.texts[ord("~")] or 2**24)
        self.script = FIRST_LINE + self.texts[ord("|")]
        self.proof = self.texts[ord("%")]
        self.number = int(self.texts[ord("@")] or 1)
        self.wanted = self.texts[ord("=")]

    def foretold(self):
        """Returns what the independent reading says is written, by `check` where there is a proof, else by `solve`.

        Where it leaves a check or a question open, it returns what the row says, if it can be written.
        """
        if self.proof:
            return predict_check(self.script, self.number, self.proof, self.limit)[0]
        if not any(map(is_open, run_script(self.script, self.limit)[0])):
            return predict_solve(self.script, self.limit)[0]
        wrong = judge_solve(self.script, self.wanted, run_script(self.script)[1])
        return self.wanted if wrong is None else wrong.encode()


def read_rows(path):
    """Returns the rows of a file."""
    with open(path, "rb") as file:
        blocks = file.read().split(b"\n\n")
    return [Row(block.strip(b"\n").split(b"\n")) for block in blocks if block.strip()]


def script_row(number, row):
    """Returns the statement of a script's faults, with counts; nothing where it cannot be cut into commands."""
    faults = faults_in(read_script(row.script, row.limit)[0])
    if any(name in LEXICAL for _, _, name in faults):
        return None
    wanted = "".join("(%s, %s, %s) ∷ " % tuple(part.decode() for part in fault) for fault in faults)
    text = f"""
-- {row.shows}
pub r{number} : faults_of {row.limit} ({lines_written(row.script)}) ≡ {wanted}[]
unfolding commands_on_literals faults_after
r{number} = refl
"""
    return text, {"rows": 1, "faults": len(faults)}


def rows_in(path):
    """Returns the statements of a file's scripts, and those of its proofs; the independent reading has to agree."""
    scripts, proofs = [], []
    for number, row in enumerate(read_rows(path), 1):
        foretold = row.foretold()
        if foretold != row.wanted:
            raise SystemExit(f"row {number}, {row.shows}: the independent reading has\n{foretold.decode()}")
        if row.proof:
            proofs.append(statement(f"r{number}", row.script, row.limit, row.number, row.proof))
        else:
            scripts.append(script_row(number, row))
    return [row for row in scripts if row], [row for row in proofs if row]
