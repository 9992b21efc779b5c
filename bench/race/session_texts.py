"""Sessions of many checks: `solve`, with z3 and cvc5 beside it, each in one process.

The sessions are in bench/race/search/session_families.py, by how many rounds, steps, days or checks they have, each at three
sizes, or those of them up to --most:

rounds      questions over 1,000 assertions of a program that stay, each asked in a level of its own
unrolling   a machine of two counters, with one step more asserted for each check
planner     a plan of one day more for each two checks: how far a lorry can be, and a bit further
assuming    checks that assume 30 of 200 literals, each of which stands before a bound of a difference

A row has the checks that were asked, the seconds of each program, how many times as long `solve` took as z3 and as cvc5, and
the peak memory of `solve` in KB. Each run gets the same number of seconds of a processor, --limit; `limit` says that it was
stopped. WRONG comes where an answer is not the known one. cvc5 is run with `--incremental`.
"""

import os
import shutil
import tempfile

from groups import Group, add_most, named
from runs import run
from session_families import FAMILIES
from tables import head, ratio, row

LIMIT = 100
OTHERS = {name: words for name, words in {"z3": [], "cvc5": ["--incremental", "--lang=smt2"]}.items() if shutil.which(name)}


def words_of(name, program, script):
    """Returns the words that run a program on a script."""
    return [program, "solve", script] if name == "solve" else [shutil.which(name), *OTHERS[name], script]


def answers_in(output):
    """Returns the answers among the lines of an output; other lines are responses to commands."""
    return [line for line in output.decode("ascii", "replace").splitlines() if line in ("sat", "unsat", "unknown")]


def instances():
    """Returns the sizes and makers of the sessions, by name."""
    return {f"{name}-{n}": (family, n) for name, family in FAMILIES.items() for n in family.sizes}


def race(asked, name, n, folder):
    """Runs all programs on one session, and prints its row; returns what is wrong."""
    session = FAMILIES[name].session(n)
    script = os.path.join(folder, "script.smt2")
    with open(script, "w", encoding="ascii") as file:
        file.write(session.text)
    runs, wrong = {}, []
    for one in ("solve", *OTHERS):
        runs[one] = run(words_of(one, asked.program, script), processor=asked.limit)
        found = answers_in(runs[one].output)
        if found != session.answers[: len(found)] or (runs[one].status is not None and len(found) < len(session.answers)):
            wrong.append(f"WRONG: {one} on {name}-{n}: {len(found)} answers of {len(session.answers)}")
    ended = {one: one_run.status is not None for one, one_run in runs.items()}
    cells = [f"{name}-{n}", f"{len(session.answers):,}"]
    cells += [f"{runs[one].seconds:.3f}" if ended[one] else "limit" for one in runs]
    cells += [f"{ratio(runs['solve'].seconds, runs[one].seconds):.2f}" if ended["solve"] and ended[one] else "" for one in OTHERS]
    row([*cells, f"{runs['solve'].memory:,}"])
    return wrong


def run_all(asked):
    """Runs the families that are asked for; returns what is wrong."""
    head(["session", "checks", "solve", *OTHERS, *(f"solve / {name}" for name in OTHERS), "peak KB"])
    wrong = []
    with tempfile.TemporaryDirectory() as folder:
        for name in asked.families:
            for n in FAMILIES[name].sizes:
                if n <= asked.most:
                    wrong += race(asked, name, n, folder)
    return wrong


def write(name, path):
    """Writes the script of one session."""
    family, n = named(name, instances())
    with open(path, "w", encoding="ascii") as file:
        file.write(family.session(n).text)


def add_options(parser):
    """Adds the options of the group."""
    add_most(parser, max((family.sizes for family in FAMILIES.values()), key=lambda sizes: sizes[-1]))
    parser.add_argument("--limit", type=float, default=LIMIT, metavar="SECONDS", help=f"the seconds of a run, {LIMIT} if none are given")


GROUP = Group(__doc__, FAMILIES, add_options, run_all, write)
