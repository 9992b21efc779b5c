"""Clauses of constants of sort Bool, as lines of a script: pigeons in holes, random clauses, chains of implications.

What is random comes from the generator here, which gives the same numbers on every machine. The other families take
theirs from it, too.
"""

import re

# How many clauses random formulas have for each constant: about half of such formulas are satisfiable.
DENSITY = 4.26


def pigeons(holes):
    """The number of constants, and the clauses: lists of numbers from 1, negative where the constant is negated."""
    clauses = [[pigeon * holes + hole + 1 for hole in range(holes)] for pigeon in range(holes + 1)]
    for hole in range(holes):
        for second in range(holes + 1):
            for first in range(second):
                clauses.append([-(first * holes + hole + 1), -(second * holes + hole + 1)])
    return holes * (holes + 1), clauses


def numbers(seed):
    """Numbers from 0 to 2^31 - 1, by a linear congruence modulo 2^64 (Knuth), of which the upper bits are taken."""
    state = seed
    while True:
        state = (6364136223846793005 * state + 1442695040888963407) % 2**64
        yield state >> 33


def random_clauses(seed, constants):
    """The number of constants, and the clauses, as in `pigeons`."""
    source, clauses = numbers(seed), []
    for _ in range(round(DENSITY * constants)):
        chosen = []
        while len(chosen) < 3:
            constant = next(source) % constants + 1
            if constant not in chosen:
                chosen.append(constant)
        clauses.append([-constant if next(source) % 2 else constant for constant in chosen])
    return constants, clauses


def clause_lines(constants, clauses):
    """The declarations, and an assertion for each clause, as lines."""
    for constant in range(1, constants + 1):
        yield f"(declare-const x{constant} Bool)\n"
    for clause in clauses:
        literals = [f"(not x{-number})" if number < 0 else f"x{number}" for number in clause]
        yield f"(assert (or {' '.join(literals)}))\n"


def is_model(lines, constants, clauses):
    """Tells whether the lines of a model give each constant a value, and make each clause true."""
    values = {}
    for line in lines[1:-1]:
        found = re.fullmatch(r"  \(define-fun x([0-9]+) \(\) Bool (true|false)\)", line)
        if found is None:
            return False
        values[int(found[1])] = found[2] == "true"
    if [lines[:1], lines[-1:]] != [["("], [")"]] or list(values) != list(range(1, constants + 1)):
        return False
    return all(any(values[abs(number)] == (number > 0) for number in clause) for clause in clauses)


def exchanged(n):
    """Gives the numbers below n in their order, but for each two neighbours, which are exchanged."""
    order = list(range(n))
    for i in range(0, n - 1, 2):
        order[i], order[i + 1] = order[i + 1], order[i]
    return order


def chain_lines(order):
    """The declarations and assertions of a chain, as lines; its implications come in this order of their numbers."""
    n = len(order)
    for i in range(n + 1):
        yield f"(declare-const p{i} Bool)\n"
    yield "(assert p0)\n"
    for i in order:
        yield f"(assert (=> p{i} p{i + 1}))\n"
    yield f"(assert (not p{n}))\n"
