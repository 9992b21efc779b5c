#!/usr/bin/env python3
"""Compares the program, or the definitions, with an independent reading of the formats.

    bench/compare.py program PROGRAM [OPTION ..]   `smt_cli`, on texts that are made by chance
    bench/compare.py definitions [OPTION ..]       the definitions of specs/, on such texts
    bench/compare.py rows PROGRAM [FILE]           `smt_cli`, on rows that are written by hand

Each tells more with --help. The modules in bench/compare/ say in Python what docs/FORMATS.md, docs/ALETHE.md and
SMT-LIB 2.6 say, and share nothing with the program: a reader of sorts, functions, numbers and terms, truth tables,
values, the rules of proofs, and a judge. The status is 1 where there is a difference, else 0. It needs Python 3 and its
standard library.
"""

import os
import sys

sys.dont_write_bytecode = True  # so that the imports below leave no files here
sys.path.insert(0, os.path.join(os.path.dirname(os.path.abspath(__file__)), "compare"))
sys.setrecursionlimit(20_000)

import against_definitions
import against_program
import against_rows

COMPARED = {"program": against_program.main, "definitions": against_definitions.main, "rows": against_rows.main}


def main(words):
    """Compares what the first word says."""
    if words[:1] in (["-h"], ["--help"]):
        print(__doc__)
        return 0
    if not words or words[0] not in COMPARED:
        print(__doc__, file=sys.stderr)
        return 2
    return COMPARED[words[0]](words[1:])


if __name__ == "__main__":
    sys.exit(main(sys.argv[1:]))
