#!/usr/bin/env python3
"""Runs `smt_cli` at the ends of what it takes: of texts, and of memory.

    bench/limits.py check PROGRAM                   pairs of texts up to 2^30 bytes and one byte more, by `check`
    bench/limits.py solve PROGRAM                   scripts up to that, and long terms, by `solve` and `certify`
    bench/limits.py refuse PROGRAM WORD ..          one run for each allocation of the program, with that one refused
    bench/limits.py refuse-tests TESTS [LEFT_OUT]   the same of each test of a crate
    bench/limits.py goes-on PROGRAM [WORD ..]       the same of a run that makes each call once more
    bench/limits.py refuse-mutated PROGRAM COUNT SEED [FOLDER ..]
                                                    so many scripts and proofs that are changed by chance, with one refused

check, solve   What is written, and the status, are known beforehand of each row; what does not fit ends out of memory,
               with status 3. The rows are in bench/limits/. A table has the seconds of a processor and the peak memory,
               also as a multiple of the texts. Each run of `solve` gets 6 GiB of address space. They take some minutes,
               and 6 GB of memory.
refuse         The words are those of `solve`, `certify` or `check`, and name files: standard input is empty. Each run
               has to end out of memory, with status 3 and a prefix of what is written where no allocation is refused
               (of `check` with nothing), or with the same status and output as that run.
goes-on        Each run has to end as that where no allocation is refused, with its status and output. A session that goes
               on is crates/run_tests/out/run_tests_tests, which `rt test` leaves, with the word
               goes_on_tests::a_session_goes_on or goes_on_tests::questions_go_on_too.
refuse-tests   TESTS is a crate's out/NAME_tests, which `rt test` leaves there. A test whose name has LEFT_OUT in it is
               not run. Where a test makes more than 1,500 allocations, one in k is refused, with k as printed. A run has
               to end in a word of memory, with an answer other than the wanted one, or as with none refused, in 60 s.

What is not so is printed, and the status is 1 then, else 0. It needs Python 3 and its standard library; the last four
need a C compiler and the GNU C library.
"""

import os
import sys

sys.dont_write_bytecode = True  # so that the imports below leave no files here
FOLDER = os.path.dirname(os.path.abspath(__file__))
sys.path[:0] = [os.path.join(FOLDER, "limits"), os.path.join(FOLDER, "race")]

import check_texts
import mutated
import refused
import solve_texts
from groups import status_of

# Of each word what it runs, and how few and how many words follow.
LIMITS = {
    "check": (check_texts.run_all, 1, 1),
    "solve": (solve_texts.run_all, 1, 1),
    "refuse": (refused.run_all, 2, None),
    "refuse-tests": (refused.run_tests, 1, 2),
    "goes-on": (refused.run_going_on, 1, None),
    "refuse-mutated": (mutated.run_all, 3, None),
}


def main(words):
    """Runs what the first word says."""
    if words[:1] in (["-h"], ["--help"]):
        print(__doc__)
        return 0
    run, least, most = LIMITS.get(words[0] if words else "", (None, 0, None))
    if run is None or not least <= len(words) - 1 <= (most or len(words)):
        print(__doc__, file=sys.stderr)
        return 2
    return status_of(run(os.path.abspath(words[1]), *words[2:]))


if __name__ == "__main__":
    sys.exit(main(sys.argv[1:]))
