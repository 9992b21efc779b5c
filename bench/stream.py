#!/usr/bin/env python3
"""Asks `smt_cli` command by command, as programs and people do that wait for each answer.

    bench/stream.py PROGRAM [GROUP ..] [--pieces N] [--scripts FOLDER] [--seed N]

PROGRAM is `smt_cli`. All groups are run where none is given:

pipe        27 commands with all kinds of answers through a pipe that stays open, each answer waited for, 5 s at most
terminal    the same at a pseudo-terminal, with an error in the middle
pieces      texts in pieces: wherever the program waits for bytes, what it wrote is exactly the answers to the commands
            that the bytes up to there have; N soups of tokens and bytes (100,000), a fifth as many sessions, and small
            scripts cut in each way; with --scripts also those of a folder, but for those that take more than a minute
            whole, which are left. What is due is foretold by bench/compare/taking.py
refused     a session of five commands, once for each allocation, with that one refused: what was written is the answers
            to the commands before
speed       texts of 10 MB and a command of 60 MB, in pieces of several sizes: seconds of a processor and peak memory.
            Ten times the text may take 20 times as long. Where valgrind is on the path, it counts instructions: single
            bytes may take 1.3 times as many, but for what a read costs
trips       20,000 commands, each waited for; z3 and cvc5 beside it where they are on the path, which have to be slower

What is not so is printed, and the status is 1 then, else 0. It needs Python 3, its standard library and Linux, which
tells in which call a process sleeps; `refused` and `speed` need a C compiler and the GNU C library.
"""

import argparse
import os
import sys

sys.dont_write_bytecode = True  # so that the imports below leave no files here
FOLDER = os.path.dirname(os.path.abspath(__file__))
sys.path[:0] = [os.path.join(FOLDER, part) for part in ("stream", "limits", "race", "compare")]
sys.setrecursionlimit(20_000)

import asked_by_hand
import cuts_of_memory
import pieces
import speed
import trips
from groups import status_of

# How many of the things that are wrong are shown of each group.
MOST_SHOWN = 20
GROUPS = {
    "pipe": asked_by_hand.run_pipe,
    "terminal": asked_by_hand.run_terminal,
    "pieces": pieces.run_all,
    "refused": cuts_of_memory.run_all,
    "speed": speed.run_all,
    "trips": trips.run_all,
}


def main():
    """Runs the groups that are asked for."""
    parser = argparse.ArgumentParser(
        prog="bench/stream.py", description=__doc__, formatter_class=argparse.RawDescriptionHelpFormatter
    )
    parser.add_argument("program", metavar="PROGRAM")
    parser.add_argument("groups", metavar="GROUP", nargs="*")
    parser.add_argument("--pieces", type=int, default=100_000, metavar="N")
    parser.add_argument("--scripts", metavar="FOLDER")
    parser.add_argument("--seed", type=int, default=1, metavar="N")
    asked = parser.parse_args()
    if not set(asked.groups) <= set(GROUPS):
        parser.error("the groups are " + ", ".join(GROUPS))
    asked.program = os.path.abspath(asked.program)
    wrong = []
    for name in asked.groups or GROUPS:
        print(f"\n{name}\n", flush=True)
        found = GROUPS[name](asked)
        wrong += found[:MOST_SHOWN]
        if len(found) > MOST_SHOWN:
            wrong.append(f"{name}: {len(found)} in all, of which {MOST_SHOWN} are shown")
    return status_of(wrong)


if __name__ == "__main__":
    sys.exit(main())
