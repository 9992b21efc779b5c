"""Runs `smt_cli` on rows that are written by hand, and compares what it writes.

The file is bench/compare/fault_rows.txt where none is given; bench/compare/fault_rows.py has its format. A row without
a proof is run by `solve`, one with a proof by `check`. Rows with a limit on terms are passed over, since no option sets
it. The status has to be 1 where a line of an error is written, else 0. It prints each row that differs, and ends with
status 1 where there is one.
"""

import argparse
import os
import subprocess
import tempfile

from fault_rows import read_rows

ROWS = os.path.join(os.path.dirname(os.path.abspath(__file__)), "fault_rows.txt")


def outcome(executable, row, folder):
    """Returns what the program writes for a row, and its status."""
    with open(os.path.join(folder, "script"), "wb") as out:
        out.write(row.script)
    words = ["check", "--at", str(row.number), "script", ""] if row.proof else ["solve", "script"]
    done = subprocess.run([executable, *words], input=row.proof, capture_output=True, cwd=folder, check=False)
    return done.stdout, done.returncode


def main(words):
    """Runs the rows of a file; returns the status."""
    parser = argparse.ArgumentParser(
        prog="bench/compare.py rows", description=__doc__, formatter_class=argparse.RawDescriptionHelpFormatter
    )
    parser.add_argument("program", metavar="PROGRAM")
    parser.add_argument("file", metavar="FILE", nargs="?", default=ROWS)
    asked = parser.parse_args(words)
    executable = os.path.abspath(asked.program)
    rows = [row for row in read_rows(asked.file) if row.limit == 2**24]
    differences = 0
    with tempfile.TemporaryDirectory() as folder:
        for row in rows:
            wanted = row.wanted, int(any(line.startswith(b"(error ") for line in row.wanted.split(b"\n")))
            got = outcome(executable, row, folder)
            if got != wanted:
                differences += 1
                print(f"{row.shows}:\n    wanted {wanted}\n    got    {got}")
    print(f"{len(rows)} rows, {differences} differences")
    return 1 if differences else 0
