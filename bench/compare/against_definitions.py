"""Compares the definitions with the independent reading, on texts that are made by chance.

The repository whose crates are compared is that of --top, this one where none is given.

--scripts N   `bench/compare/commands.py` foretells the first fault of each command of N scripts, with line and column,
              under a limit on terms and names, the term that each assertion is read as, and the terms that each check
              asks about, what it assumes among them. `bench/compare/values.py` foretells the values of the assertions'
              terms under tables by chance, or the first operation that leaves 128 bits. The definitions are
              `faults_after`, `stack_after` and `asked_at` of `spec_commands`, and `bounded_value` of `spec_sorts`.
--proofs N    `bench/compare/judging.py` foretells what the commands of N proofs are read as, and the verdict on
              each. The definitions are `command_of` and `IsVerdict` of `spec_checking`.
--models N    `bench/compare/model_rows.py` foretells the texts of N models by their tables, and values of the bodies.
              The definitions are `model_text` and `model_value` of `spec_models`.
--printed N   `bench/compare/print_rows.py` foretells the text of the proofs of N derivations. The definition is
              `proof_text` of `spec_proof_texts`.
--sessions N  `bench/compare/sessions.py` foretells what is written for N scripts, where some model or text was
              found at each check. The definition is `answers_text` of `spec_sessions`.
--rows FILE   the same of the scripts and proofs in a file of rows that are written by hand, with what is written for
              them, as bench/compare/fault_rows.txt.

The definitions have to come to the same by computing alone. Where they are relations, `bench/compare/Deciding.antt.txt`
has a function that computes, with a proof that what it gives is what they say. The rows are written into a crate of a
folder, beside copies of the crates that it needs, and `rt check` is run there, for one batch of rows after the other.
The folder is a new one, or that of --folder, where what was built before is used again. The seeds are K, K + 1 and so
on (1 if K is left out). Without other words it compares 300 scripts.

It ends with status 1 where a row is refused, and then prints what the prover says of its batch.
"""

import argparse
import os
import shutil
import subprocess
import tempfile
from collections import Counter

import fault_rows
import model_rows
import print_rows
import proof_rows
import script_rows
import session_rows

TOP = os.path.dirname(os.path.dirname(os.path.dirname(os.path.abspath(__file__))))
CODE = """//! Rows alone.
#![tactic(auto)]

/// Does nothing.
pub fn nothing() {}
"""


def rows_from(row_of, seed, count):
    """Returns the statements of so many texts, each with its counts; seeds that give none are passed over."""
    rows = []
    while len(rows) < count:
        row = row_of(seed)
        seed += 1
        if row:
            rows.append(row)
    return rows


def write(path, text):
    """Writes a file, and the folder round it."""
    os.makedirs(os.path.dirname(path), exist_ok=True)
    with open(path, "w", encoding="utf-8") as out:
        out.write(text)


def crates_below(top, names):
    """Returns crates of a repository, and all of it that these use, in the order of its crates.txt."""
    with open(os.path.join(top, "crates.txt"), encoding="utf-8") as lines:
        parts = [line.partition("#")[0].partition(":") for line in lines]
    uses = {name.strip(): used.split() for name, colon, used in parts if colon}
    found, new = set(), set(names)
    while new:
        found |= new
        new = {used for name in new for used in uses[name] if used in uses} - found
    return [name for name in uses if name in found]


def make_repository(folder, top, crates, modules):
    """Makes a repository of the crates that are needed and of the one with the rows, or brings it up to date."""
    for crate in crates:
        for part in ("specs", "proofs", "src"):
            there = os.path.join(folder, "crates", crate, part)
            shutil.rmtree(there, ignore_errors=True)
            shutil.copytree(os.path.join(top, "crates", crate, part), there)
    with open(os.path.join(top, "crates.txt"), encoding="utf-8") as lines:
        kept = [line for line in lines if line.split(":")[0] in crates]
    write(os.path.join(folder, "crates.txt"), "".join(kept) + "compared: " + " ".join(crates) + "\n")
    write(os.path.join(folder, "crates", "compared", "src", "lib.rt"), CODE)
    specs = os.path.join(folder, "crates", "compared", "specs")
    shutil.rmtree(specs, ignore_errors=True)
    for name, text in modules.items():
        write(os.path.join(specs, f"{name}.antt"), text)
    lines = "".join(f"pub mod {name}\n" for name in [*modules, "Rows"])
    write(os.path.join(specs, "Lib.antt"), "-- Rows, and what they need.\n" + lines)
    if not os.path.exists(os.path.join(folder, ".git")):
        subprocess.run(["git", "init", "-q", folder], check=True)


def check(folder, text):
    """Has rows checked; returns what the prover says where it refuses one, else nothing."""
    crate = os.path.join(folder, "crates", "compared")
    write(os.path.join(crate, "specs", "Rows.antt"), text)
    done = subprocess.run(["rt", "check"], cwd=crate, capture_output=True, text=True, check=False)
    return done.stdout + done.stderr if done.returncode != 0 else ""


def compare(folder, top, kind, rows, batch):
    """Has rows of a kind checked, one batch after the other; returns whether all are right."""
    names, modules, maker = kind
    make_repository(folder, top, crates_below(top, names), modules)
    counts = Counter()
    for first in range(0, len(rows), batch):
        here = rows[first : first + batch]
        refused = check(folder, maker.HEAD + "".join(text for text, _ in here))
        if refused:
            print(refused)
            return False
        for _, count in here:
            counts.update(count)
        said = ", ".join(f"{number} {word}" for word, number in counts.items())
        print(f"{said}: the definitions and the independent reading agree", flush=True)
    return True


# Of each kind of rows by its word: the crates that its rows speak of, the modules that it needs, and what makes its rows.
KINDS = {
    "scripts": (["spec_commands"], {}, script_rows),
    "proofs": (["spec_checking"], proof_rows.modules(), proof_rows),
    "models": (["spec_models"], {}, model_rows),
    "printed": (["spec_proof_texts"], {}, print_rows),
    "sessions": (["spec_sessions"], {}, session_rows),
}


def main(words):
    """Writes the rows and has them checked; returns the status."""
    parser = argparse.ArgumentParser(
        prog="bench/compare.py definitions", description=__doc__, formatter_class=argparse.RawDescriptionHelpFormatter
    )
    for word in KINDS:
        parser.add_argument(f"--{word}", type=int, default=0)
    parser.add_argument("--rows")
    parser.add_argument("--seed", type=int, default=1)
    parser.add_argument("--batch", type=int, default=50)
    parser.add_argument("--folder")
    parser.add_argument("--top", default=TOP)
    asked = parser.parse_args(words)
    counts = {word: getattr(asked, word) for word in KINDS}
    if not (any(counts.values()) or asked.rows):
        counts["scripts"] = 300
    rows = {word: rows_from(KINDS[word][2].row_of, asked.seed, count) for word, count in counts.items()}
    by_hand = fault_rows.rows_in(asked.rows) if asked.rows else ([], [])
    rows["scripts"] += by_hand[0]
    rows["proofs"] += by_hand[1]
    with tempfile.TemporaryDirectory() as new:
        folder = os.path.abspath(asked.folder or new)
        done = [compare(folder, asked.top, KINDS[word], rows[word], asked.batch) for word in KINDS if rows[word]]
    return 0 if all(done) else 1
