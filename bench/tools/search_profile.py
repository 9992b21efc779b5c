#!/usr/bin/env python3
"""Tells where the instructions of a search go, by valgrind's tool callgrind.

    bench/tools/search_profile.py EXECUTABLE SCRIPT [--command WORD] [--within FUNCTION] [--rows N] [--times WORD ..]

It runs the program's command, `solve` if none is given, on a script, about fifty times as slowly as by itself. A first
table has each crate's own instructions, by the names of functions in the executable. What the compiler put inline counts
for the crate of the function that it was put in; C's functions for memory are the crate `C`. A second table has how
often functions were called, and their share with all that they call: those whose names have one of the words of --times
in them, else those of learning, logging, the rule of resolution and memory. A third has the N functions with the most
instructions of their own, 20 if N is not given.

With --within only what is done inside a function counts, as `proof_log::log::ProofLog::add`, and each number is also
given for one call of it. A function that the compiler put inline everywhere has no name in the executable, and nothing
is counted then.

It needs Python 3, its standard library, and valgrind. `bench/race.py search --write NAME SCRIPT` writes scripts.
"""

import argparse
import os
import re
import subprocess
import sys
import tempfile
from collections import Counter

sys.dont_write_bytecode = True  # so that the import below leaves no files there
BENCH = os.path.dirname(os.path.dirname(os.path.abspath(__file__)))
sys.path.insert(0, os.path.join(BENCH, "race"))

from tables import head, row

# A name is given once after its number, and by the number alone from then on.
NAMED = re.compile(r"(c?fn|c?ob)=\((\d+)\)(?: (.*))?")
CRATE = re.compile(r"^([a-z_0-9]+)::")
TIMES = (
    "propagate",
    "conflict_learn::",
    "ProofLog::add",
    "rule_bool::by_rule::judge",
    "resolvent::resolution",
    "clause_literals::",
    "IndexSet::insert_full",
    "IndexMap::find",
    "TermTable::literal",
    "TermTable::put",
    "ClauseStore::add",
    "rattle_alloc",
    "rattle_realloc",
    "rattle_dealloc",
)


class Profile:
    """What callgrind counted: of each function its own instructions, those with all that it calls, and its calls.

    Of a function that calls itself the second number counts some instructions more than once.
    """

    def __init__(self, lines):
        self.own, self.whole, self.calls = Counter(), Counter(), Counter()
        self.names = {}
        function = callee = ""
        is_call = False
        for line in lines:
            named = NAMED.match(line)
            if named:
                name = self.name_of(named)
                function = name if named[1] == "fn" else function
                callee = name if named[1] == "cfn" else callee
            elif line.startswith("calls="):
                self.calls[callee] += int(line[len("calls=") :].split()[0])
                is_call = True
            elif line[:1].isdigit() or line[:1] in "+-*":
                cost = int(line.split()[1])
                self.whole[function] += cost
                self.own[function] += 0 if is_call else cost
                is_call = False

    def name_of(self, named):
        """Returns the name that a line gives or refers to."""
        key = named[1][-2:], named[2]
        if named[3]:
            self.names[key] = named[3]
        return self.names[key]

    @property
    def sum(self):
        """All instructions that were counted."""
        return self.own.total()


def crate_of(name):
    """Returns the crate of a function by its name."""
    found = CRATE.match(name)
    return found[1] if found else "C"


def measure(asked):
    """Runs the program under callgrind; returns its profile."""
    with tempfile.TemporaryDirectory() as folder:
        out = os.path.join(folder, "profile")
        within = [f"--toggle-collect={asked.within}"] if asked.within else []
        words = ["valgrind", "--tool=callgrind", f"--callgrind-out-file={out}", *within]
        done = subprocess.run(
            [*words, asked.executable, asked.command, asked.script], capture_output=True, text=True, check=False
        )
        if not os.path.exists(out):
            sys.exit(done.stderr)
        with open(out, encoding="utf-8", errors="replace") as lines:
            return Profile(lines)


def tell(title, rows, total, calls):
    """Prints a table of names, each with a number of instructions and of calls, but for those with none."""
    print()
    each = ["for one call of it"] if calls else []
    head([title, "share in %", "instructions", *each, "calls"])
    for name, cost, count in filter(lambda it: it[1], rows):
        each = [f"{cost / calls:,.0f}"] if calls else []
        row([name, f"{100 * cost / total:.1f}", f"{cost:,}", *each, f"{count:,}" if count else ""])


def main():
    """Prints the tables of one run."""
    parser = argparse.ArgumentParser(description=__doc__, formatter_class=argparse.RawDescriptionHelpFormatter)
    parser.add_argument("executable")
    parser.add_argument("script")
    parser.add_argument("--command", default="solve")
    parser.add_argument("--within", default="")
    parser.add_argument("--rows", type=int, default=20)
    parser.add_argument("--times", nargs="+", metavar="WORD", default=TIMES)
    asked = parser.parse_args()
    asked.executable = os.path.abspath(asked.executable)
    profile = measure(asked)
    if not profile.sum:
        print(f"nothing was counted: no function {asked.within} has a name in the executable", file=sys.stderr)
        return 1
    calls = profile.calls[asked.within] if asked.within else 0
    print(f"{profile.sum:,} instructions" + (f" in {calls:,} calls of {asked.within}" if asked.within else ""))
    crates = Counter()
    for name, cost in profile.own.items():
        crates[crate_of(name)] += cost
    tell("crate", [(name, cost, 0) for name, cost in crates.most_common(asked.rows)], profile.sum, calls)
    named = [name for name in profile.whole if any(word in name for word in asked.times)]
    named.sort(key=profile.whole.get, reverse=True)
    tell("with what it calls", [(it, profile.whole[it], profile.calls[it]) for it in named], profile.sum, calls)
    most = profile.own.most_common(asked.rows)
    tell("own", [(name, cost, profile.calls[name]) for name, cost in most], profile.sum, calls)
    return 0


if __name__ == "__main__":
    sys.exit(main())
