"""Formulas family by family, for `bench/race.py search`: here of constants of sort Bool.

Those of one declared sort are in function_families.py, the clauses in clause_families.py.

The scripts are the same on each machine: what is random comes from the generator of clause_families.py. Each
script begins with `(set-logic QF_UF)`, asserts clauses or the outputs of gates, and has one check. A gate is a
definition without parameters, so that its term is shared.
"""

from typing import Callable, NamedTuple

import function_families
from clause_families import chain_lines, clause_lines, exchanged, numbers, pigeons, random_clauses

QUIET = "(set-option :print-success false)\n"
CHECK = "(check-sat)\n"
HOLES = (5, 6, 7, 8, 9)
SEEDS = range(10)
CHAINS = (1_000, 10_000, 100_000)
PARITIES = (10, 20, 30, 40)
SHUFFLED = (10, 15, 20, 25, 30)
ADDERS = (6, 8, 10)
MULTIPLIERS = (4, 5, 6)
# Bits of a block whose sums are chosen by the carry into it.
BLOCK = 3
DIAMONDS = (5, 10, 20, 40, 60, 80, 100)
ORDERS = (4, 5, 6)
VERTICES = (20, 30, 40, 50)


class Formula(NamedTuple):
    """A formula: its name, its commands between the first two and the check, what is known of it, its logic.

    `answer` is that of its check, or nothing where it is not known. Of a formula of clauses `clauses` are these, after
    the number of its constants.
    """

    name: str
    lines: Callable[[], object]
    answer: str | None = "unsat"
    clauses: tuple | None = None
    logic: str = "QF_UF"

    def write(self, path):
        """Writes the script to a file."""
        with open(path, "w", encoding="ascii") as out:
            out.writelines((f"(set-logic {self.logic})\n", QUIET))
            out.writelines(self.lines())
            out.write(CHECK)


class Circuit:
    """Constants, and gates over them and over earlier gates, as the lines of a script."""

    def __init__(self):
        self.lines = []
        self.gates = 0

    def inputs(self, name, n):
        """Declares n constants; returns their names."""
        names = [f"{name}{i}" for i in range(n)]
        self.lines += [f"(declare-const {one} Bool)\n" for one in names]
        return names

    def gate(self, head, *arguments):
        """Defines a gate; returns its name."""
        name = f"g{self.gates}"
        self.gates += 1
        self.lines.append(f"(define-fun {name} () Bool ({head} {' '.join(arguments)}))\n")
        return name

    def add(self, left, right, carry):
        """Adds numbers of as many bits, the lowest first, by a chain of full adders; returns the sums and the carry."""
        sums = []
        for a, b in zip(left, right):
            half = self.gate("xor", a, b)
            sums.append(self.gate("xor", half, carry))
            carry = self.gate("or", self.gate("and", a, b), self.gate("and", half, carry))
        return sums, carry

    def add_by_selection(self, left, right, carry):
        """Adds them in blocks, of which each is added for either carry; returns the sums and the carry."""
        sums = []
        for at in range(0, len(left), BLOCK):
            block = left[at : at + BLOCK], right[at : at + BLOCK]
            (zeros, low), (ones, high) = self.add(*block, "false"), self.add(*block, "true")
            sums += [self.gate("ite", carry, one, zero) for one, zero in zip(ones, zeros)]
            carry = self.gate("ite", carry, high, low)
        return sums, carry

    def multiply(self, left, right):
        """Multiplies numbers of as many bits, row by row; returns the bits of the product."""
        rows = [[self.gate("and", a, b) for a in left] for b in right]
        product, rest = [rows[0][0]], [*rows[0][1:], "false"]
        for row in rows[1:]:
            sums, carry = self.add(rest, row, "false")
            product.append(sums[0])
            rest = [*sums[1:], carry]
        return product + rest

    def parity(self, names):
        """Returns whether an odd number of names is true, by a chain of gates in their order."""
        odd = names[0]
        for name in names[1:]:
            odd = self.gate("xor", odd, name)
        return odd

    def differ(self, left, right):
        """Asserts that two lists of bits differ; returns all lines."""
        differences = [self.gate("xor", a, b) for a, b in zip(left, right)]
        return [*self.lines, f"(assert (or {' '.join(differences)}))\n"]


def adder(n):
    """Asserts that a + b by a chain of full adders is not b + a in blocks."""
    circuit = Circuit()
    a, b = circuit.inputs("a", n), circuit.inputs("b", n)
    (left, low), (right, high) = circuit.add(a, b, "false"), circuit.add_by_selection(b, a, "false")
    return circuit.differ([*left, low], [*right, high])


def multiplier(n):
    """Asserts that a * b is not b * a."""
    circuit = Circuit()
    a, b = circuit.inputs("a", n), circuit.inputs("b", n)
    return circuit.differ(circuit.multiply(a, b), circuit.multiply(b, a))


def parity(order):
    """Asserts that an odd number of constants is true in their order, and an even number in another order."""
    circuit = Circuit()
    names = circuit.inputs("x", len(order))
    odd, other = circuit.parity(names), circuit.parity([names[i] for i in order])
    return [*circuit.lines, f"(assert {odd})\n", f"(assert (not {other}))\n"]


def backwards(n):
    """Returns n - 1 to 0."""
    return range(n - 1, -1, -1)


def shuffled(n):
    """Returns 0 to n - 1 in an order by chance, which n seeds."""
    order, source = list(range(n)), numbers(n)
    for i in range(n - 1, 0, -1):
        j = next(source) % (i + 1)
        order[i], order[j] = order[j], order[i]
    return order


def of_clauses(name, formula, answer):
    """Returns the formula of some clauses."""
    return Formula(name, lambda: clause_lines(*formula), answer, formula)


def of_sizes(name, lines, sizes, answer="unsat"):
    """Returns a formula for each size, with its answer."""
    return [Formula(f"{name}-{n}", lambda n=n: lines(n), answer) for n in sizes]


def of_unknown(name, lines, sizes):
    """Returns a formula for each size, whose answer is not known here."""
    return [Formula(f"{name}-{n}", lambda n=n: lines(n), None) for n in sizes]


def of_random_clauses(n):
    """Returns a formula for each seed, of so many constants, at the threshold."""
    return [of_clauses(f"random-{n}-{seed}", random_clauses(seed, n), None) for seed in SEEDS]


FAMILIES = {
    "pigeons": lambda: [of_clauses(f"pigeons-{n}", pigeons(n), "unsat") for n in HOLES],
    "random-100": lambda: of_random_clauses(100),
    "random-150": lambda: of_random_clauses(150),
    "random-200": lambda: of_random_clauses(200),
    "chain": lambda: of_sizes("chain", lambda n: chain_lines(range(n)), CHAINS),
    "chain-exchanged": lambda: of_sizes("chain-exchanged", lambda n: chain_lines(exchanged(n)), CHAINS),
    "chain-backwards": lambda: of_sizes("chain-backwards", lambda n: chain_lines(backwards(n)), CHAINS),
    "parity-exchanged": lambda: of_sizes("parity-exchanged", lambda n: parity(exchanged(n)), PARITIES),
    "parity-backwards": lambda: of_sizes("parity-backwards", lambda n: parity(backwards(n)), PARITIES),
    "parity-shuffled": lambda: of_sizes("parity-shuffled", lambda n: parity(shuffled(n)), SHUFFLED),
    "adder": lambda: of_sizes("adder", adder, ADDERS),
    "multiplier": lambda: of_sizes("multiplier", multiplier, MULTIPLIERS),
    "diamonds": lambda: of_sizes("diamonds", function_families.diamonds, DIAMONDS),
    "diamonds-open": lambda: of_sizes("diamonds-open", function_families.open_diamonds, DIAMONDS, "sat"),
    "colourings": lambda: of_unknown("colourings", function_families.colouring, VERTICES),
    "equalities": lambda: of_sizes("equalities", function_families.equalities, CHAINS),
    "applications": lambda: of_sizes("applications", function_families.applications, CHAINS),
    "cycles": lambda: of_sizes("cycles", function_families.cycles, CHAINS),
    "quasigroup": lambda: of_unknown("quasigroup", function_families.quasigroup, ORDERS),
    "commuting": lambda: of_unknown("commuting", function_families.commuting_quasigroup, ORDERS),
    "facts": lambda: of_unknown("facts", function_families.facts, SEEDS),
}
# The families whose n grows tenfold, and may not cost much more than that.
LINEAR = ("chain", "chain-exchanged", "chain-backwards", "equalities", "applications", "cycles")
