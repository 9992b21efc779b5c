#!/usr/bin/env python3
"""Runs a program on families of texts, with z3 and cvc5 beside it where they are on the path; prints tables as Markdown.

    bench/race.py GROUP PROGRAM [FAMILY ..] [OPTION ..]
    bench/race.py GROUP --write NAME FILE ..       writes the texts of one instance, and runs nothing
    bench/race.py GROUP --help                     tells the group's families and options, its rows, and what is judged

PROGRAM is `smt_cli`; for `closure` and `simplex` it is `race`, as the gate leaves it in crates/race/out. A FAMILY is the
name of a family, or the start of several names; all are run where none is given. The groups:

search        formulas over Bool and one declared sort
numbers       formulas of linear real arithmetic
combination   formulas in which functions and numbers share terms
scripts       scripts that others wrote; a folder of them stands in the place of the families
sessions      sessions of many checks, with levels or assumptions
stages        how long `solve`, the printing of a proof and `check` take, on the same formula
growing       scripts and proofs that grow tenfold, and texts that have to be refused at once
closure       congruence closure alone
simplex       simplex alone
gen           scripts that `gen` makes

Times are those of a processor, in the program and in the system for it, so that other work on the machine counts
little. Memory is the most that was resident. The status is 1 where something is wrong or too long, which is then
written to standard error, else 0. It needs Python 3 and its standard library; Debian's packages of the others are z3
and cvc5.
"""

import os
import sys

sys.dont_write_bytecode = True  # so that the imports below leave no files here
FOLDER = os.path.dirname(os.path.abspath(__file__))
sys.path[:0] = [os.path.join(FOLDER, *parts) for parts in (("race",), ("race", "search"), ("race", "growing"), ("compare",))]

import closure
import formulas
import generated
import growing_texts
import number_formulas
import real_scripts
import session_texts
import simplex
import stages
from groups import asked_of, status_of

GROUPS = {
    "search": formulas.GROUP,
    "numbers": number_formulas.NUMBERS,
    "combination": number_formulas.COMBINATION,
    "scripts": real_scripts.GROUP,
    "sessions": session_texts.GROUP,
    "stages": stages.GROUP,
    "growing": growing_texts.GROUP,
    "closure": closure.GROUP,
    "simplex": simplex.GROUP,
    "gen": generated.GROUP,
}


def main():
    """Runs the group that is asked for, or writes one of its instances."""
    if sys.argv[1:2] in (["-h"], ["--help"]):
        print(__doc__)
        return 0
    if sys.argv[1:2] == [] or sys.argv[1] not in GROUPS:
        print(__doc__, file=sys.stderr)
        return 2
    sys.setrecursionlimit(20_000)
    group = GROUPS[sys.argv[1]]
    asked = asked_of(sys.argv[1], group, sys.argv[2:])
    if asked.program is None:
        group.write(*asked.write)
        return 0
    return status_of(group.run(asked))


if __name__ == "__main__":
    sys.exit(main())
