"""Round trips: commands that are asked one by one, each answer waited for; z3 and cvc5 beside the program."""

import os
import shutil
import subprocess
import threading
import time

from tables import head, row

COMMANDS = 20_000
RUNS = 3
LONGEST = 120
# What a client of the others sets first; the words that run them.
FIRST = b"(set-option :print-success true)\n"
OTHERS = {"z3": ("-in",), "cvc5": ("--lang=smt2", "--incremental")}


def infos(count):
    """Makes commands that do nothing."""
    return [(b"(set-info :status sat)\n", b"success\n")] * count


def statements(count):
    """Makes declarations and assertions in turn."""
    asked = []
    for n in range(count // 2):
        asked.append((b"(declare-const p%d Bool)\n" % n, b"success\n"))
        asked.append((b"(assert (or p%d (not p%d)))\n" % (n, n // 2), b"success\n"))
    return asked


def checks(count):
    """Makes rounds of five: a level is opened, something declared and asserted there and checked, and it is closed."""
    asked = []
    for n in range(count // 5):
        term, answer = (b"(and x (not x))", b"unsat\n") if n % 2 else (b"(or x (not x))", b"sat\n")
        asked += [(b"(push 1)\n", b"success\n"), (b"(declare-const x Bool)\n", b"success\n")]
        asked += [(b"(assert " + term + b")\n", b"success\n"), (b"(check-sat)\n", answer), (b"(pop 1)\n", b"success\n")]
    return asked


KINDS = {"commands that do nothing": infos, "declarations and assertions": statements, "levels with a check each": checks}


def whole_answer(out, answer):
    """Returns an answer to the end of its line; there is none where the program has ended."""
    while answer and not answer.endswith(b"\n"):
        more = os.read(out, 4096)
        if not more:
            break
        answer += more
    return answer


def seconds_of(words, first, asked):
    """Asks the commands one by one; returns the seconds of the clock, and the first other answer, if there is one."""
    with subprocess.Popen(words, stdin=subprocess.PIPE, stdout=subprocess.PIPE, stderr=subprocess.DEVNULL, bufsize=0) as child:
        read, write, out, to = os.read, os.write, child.stdout.fileno(), child.stdin.fileno()
        stop = threading.Timer(LONGEST, child.kill)
        stop.start()
        other = None
        try:
            if first:
                write(to, first)
                whole_answer(out, read(out, 4096))
            began = time.perf_counter()
            for line, wanted in asked:
                write(to, line)
                answer = read(out, 4096)
                if answer != wanted and (answer := whole_answer(out, answer)) != wanted:
                    other = line, answer
                    break
            taken = time.perf_counter() - began
        finally:
            stop.cancel()
            child.kill()
    return taken, other


def run_all(asked_for):
    """Asks each program, in turn and three times, takes the best, and prints a table; returns what is wrong."""
    programs = {"solve": (asked_for.program, "solve")}
    programs |= {name: (shutil.which(name), *words) for name, words in OTHERS.items() if shutil.which(name)}
    wrong, others = [], list(programs)[1:]
    head(["commands", "of each", "`solve`", *others, "`cat`", *(f"/ {name}" for name in others)])
    for kind, make in KINDS.items():
        asked = make(COMMANDS)
        best = dict.fromkeys([*programs, "cat"], 0.0)
        for _ in range(RUNS):
            for name, words in programs.items():
                taken, other = seconds_of(words, FIRST, asked)
                if other:
                    wrong.append(f"{kind}: {name} answers {other[1]!r} to {other[0]!r}")
                else:
                    best[name] = max(best[name], len(asked) / taken)
            taken, _ = seconds_of(("cat",), None, [(line, line) for line, _ in asked])
            best["cat"] = max(best["cat"], len(asked) / taken)
        cells = [f"{trips:,.0f}" for trips in best.values()]
        row([kind, f"{len(asked):,}", *cells, *(f"{best['solve'] / max(best[name], 1):.2f}" for name in others)])
        wrong += [f"{kind}: fewer trips than {name}" for name in others if best["solve"] <= best[name]]
    return wrong
