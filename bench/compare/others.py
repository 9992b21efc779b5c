"""Asks other solvers that are on the path, z3 and cvc5, for the answers of a script."""

import shutil
import subprocess

SECONDS = 10
COMMANDS = {"z3": ["-in", f"-T:{SECONDS}"], "cvc5": ["--lang=smt2", "--incremental", f"--tlimit={SECONDS}000"]}
ANSWERS = (b"sat", b"unsat", b"unknown")


def solvers():
    """Returns the words that run each of the solvers that are there, by its name."""
    found = {name: shutil.which(name) for name in COMMANDS}
    return {name: [path, *COMMANDS[name]] for name, path in found.items() if path}


def may_be_asked(name, script):
    """Tells whether a script means to a solver what it means here: z3 keeps declarations after `reset-assertions`."""
    return name != "z3" or b"reset-assertions" not in script


def answers_in(output):
    """Returns the lines of an output that answer checks."""
    return [line for line in output.split(b"\n") if line in ANSWERS]


def answers_of(words, script):
    """Returns a solver's answers to the checks of a script, or None where it refuses a command or takes too long."""
    try:
        done = subprocess.run(words, input=script, capture_output=True, timeout=2 * SECONDS, check=False)
    except subprocess.TimeoutExpired:
        return None
    is_left = b"(error" in done.stdout or b"timeout\n" in done.stdout or done.returncode
    return None if is_left else answers_in(done.stdout)


def are_at_odds(some, others):
    """Tells whether two lists of answers differ in their number, or in one that both know."""
    if len(some) != len(others):
        return True
    return any(b"unknown" not in pair and pair[0] != pair[1] for pair in zip(some, others))
