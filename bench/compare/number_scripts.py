"""Makes scripts by chance over linear real arithmetic, mixed with Bool, a declared sort, and functions over these.

Scripts come in families: nested formulas, literals, bounds, clauses, circles of differences, rows whose weighted sum is
a contradiction or nearly one, choices between numbers, constants with few values, and numbers beside functions. The
numbers that are written are small, long, or near 128 bits. Few scripts have a declared function that takes or gives
numbers: mixed_scripts.py makes more of these.
"""

import random
from fractions import Fraction

from function_scripts import declarations, listed, negated_by_chance, text_of

GREATEST = 2**127 - 1
NUMBERS = [b"x", b"y", b"z", b"|u v|", b"w"]
SMALL = [b"0", b"1", b"1", b"2", b"3", b"10", b"0.5", b"0.25", b"1.5", b"0.1", b"2.0"]
LONG = [b"0.333333333333", b"1234567890123.5", b"1000000007", b"0.0000000001", b"99999999999999999999"]
WIDE = [b"%d" % (GREATEST - k) for k in (0, 0, 1, 2, 1000)] + [b"%d" % 2**k for k in (126, 125, 100, 64, 63)]
WIDE += [b"0." + b"0" * 37 + b"1", b"0." + b"3" * 37, b"1" + b"0" * 37, b"17014118346046923173168730371588410572.7"]
ORDERS = [b"<", b"<=", b">", b">="]
CONNECTIVES = [(b"not", 1), (b"and", 2), (b"and", 3), (b"or", 2), (b"or", 3)]
CONNECTIVES += [(b"=>", 2), (b"xor", 2), (b"=", 2), (b"ite", 3)]
DECLARED = {
    b"p": ((), b"Bool"),
    b"q": ((), b"Bool"),
    b"a": ((), b"U"),
    b"b": ((), b"U"),
    b"f": ((b"U",), b"U"),
    b"g": ((b"U", b"Bool"), b"U"),
    b"r": ((b"U",), b"Bool"),
}


class NumberMaker:
    """Makes terms by sort, over constants and definitions; the numbers written come from a pool."""

    def __init__(self, pool):
        self.pool = pool
        self.symbols = dict(DECLARED)
        self.numbers = random.sample(NUMBERS, random.randint(1, len(NUMBERS)))
        self.symbols.update({name: ((), b"Real") for name in self.numbers})
        self.bound = {}
        self.count = 0

    def literal(self):
        """Writes a number that is not below 0."""
        return random.choice(self.pool)

    def factor(self):
        """Writes a constant term other than 0."""
        number = random.choice([n for n in self.pool if n.strip(b"0.")])
        other = random.choice([b"2", b"3", b"7"])
        return random.choice([number, number, b"(- " + number + b")", b"(/ " + number + b" " + other + b")"])

    def leaf(self, sort):
        """Makes a constant, a bound name, a number or a truth value."""
        names = [name for name, (sorts, result) in self.symbols.items() if result == sort and not sorts]
        names += [name for name, of in self.bound.items() if of == sort]
        odd = {b"Real": self.literal(), b"Bool": random.choice([b"true", b"false"])}.get(sort)
        return odd if odd and random.random() < 0.25 else random.choice(names)

    def of_sort(self, sort, depth):
        """Makes a term of a sort."""
        choice = random.random()
        if depth <= 0 or choice < 0.12:
            return self.leaf(sort)
        if choice < 0.24:
            return listed(b"ite", [self.of_sort(s, depth - 1) for s in (b"Bool", sort, sort)])
        if choice < 0.3:
            return self.let(sort, depth)
        heads = [(name, sorts) for name, (sorts, result) in self.symbols.items() if result == sort and sorts]
        if heads and (choice < 0.4 or sort == b"U"):
            name, sorts = random.choice(heads)
            return listed(name, [self.of_sort(s, depth - 1) for s in sorts])
        return self.number(depth) if sort == b"Real" else self.formula(depth) if sort == b"Bool" else self.leaf(sort)

    def let(self, sort, depth):
        """Makes a `let`, whose name may hide a constant."""
        of = random.choice([b"Real", b"Real", b"Bool", sort])
        self.count += 1
        name = b"v%d" % self.count if random.random() < 0.8 or of != b"Real" else b"x"
        value, before = self.of_sort(of, depth - 1), dict(self.bound)
        self.bound[name] = of
        body = self.of_sort(sort, depth - 1)
        self.bound = before
        return b"(let ((" + name + b" " + value + b")) " + body + b")"

    def number(self, depth):
        """Makes an operation on numbers."""
        inner = self.of_sort(b"Real", depth - 1)
        choice = random.random()
        if choice < 0.2:
            parts = [self.factor(), inner]
            random.shuffle(parts)
            return listed(b"*", parts)
        if choice < 0.3:
            return listed(b"/", [inner, random.choice([b"2", b"4", b"3", b"(- 2)", b"(/ 1 3)", b"0.5"])])
        if choice < 0.4:
            return listed(b"-", [inner])
        others = [self.of_sort(b"Real", depth - 1) for _ in range(random.choice([1, 1, 2]))]
        return listed(random.choice([b"+", b"+", b"-"]), [inner, *others])

    def relation(self, depth):
        """Makes an order of numbers, an equality or `distinct`; chains among them."""
        head = random.choice([*ORDERS, *ORDERS, b"=", b"=", b"distinct"])
        return listed(head, [self.of_sort(b"Real", depth) for _ in range(random.choice([2, 2, 2, 3]))])

    def formula(self, depth):
        """Makes a connective before formulas, a relation of numbers, or an equality of the declared sort."""
        choice = random.random()
        if choice < 0.5:
            return self.relation(depth - 1)
        if choice < 0.6:
            return listed(b"=", [self.of_sort(b"U", depth - 1) for _ in range(2)])
        head, count = random.choice(CONNECTIVES)
        return listed(head, [self.of_sort(b"Bool", depth - 1) for _ in range(count)])

    def sum(self, most=3):
        """Makes a sum of multiples of some constants."""
        return sum_of({name: random.choice([-3, -2, -1, 1, 1, 2, 5]) for name in self.some_numbers(most)})

    def some_numbers(self, most=3):
        """Returns some constants of sort Real."""
        return random.sample(self.numbers, random.randint(1, min(most, len(self.numbers))))


def number_written(number):
    """Writes a fraction as a constant term."""
    above = b"%d" % abs(number.numerator)
    text = above if number.denominator == 1 else b"(/ %s %d)" % (above, number.denominator)
    return b"(- " + text + b")" if number < 0 else text


def sum_of(factors):
    """Writes a sum of multiples of names."""
    parts = [name if k == 1 else listed(b"*", [number_written(Fraction(k)), name]) for name, k in factors.items() if k]
    return parts[0] if len(parts) == 1 else listed(b"+", parts) if parts else b"0"


def nested(maker):
    """Makes nested formulas."""
    return [maker.of_sort(b"Bool", random.choice([2, 3, 3, 4])) for _ in range(random.randint(1, 4))]


def literals(maker):
    """Makes relations of small terms, some of them negated."""
    return [negated_by_chance(maker.relation(random.choice([0, 1, 1, 2])), 0.35) for _ in range(random.randint(2, 9))]


def bounded(maker):
    """Makes orders, equalities and negated equalities of sums and numbers."""
    made = []
    for _ in range(random.randint(3, 10)):
        head = random.choice([*ORDERS, *ORDERS, b"="])
        made.append(negated_by_chance(listed(head, [maker.sum(), maker.literal()]), 0.3))
    return made


def clauses(maker):
    """Makes clauses over a few atoms."""
    atoms = [maker.relation(random.choice([0, 0, 1])) for _ in range(random.randint(3, 7))]
    atoms += [listed(random.choice(ORDERS), [maker.sum(2), maker.literal()]) for _ in range(random.randint(1, 4))]
    atoms.append(maker.of_sort(b"Bool", 1))
    made = []
    for _ in range(round(len(atoms) * random.uniform(1.5, 4))):
        chosen = [negated_by_chance(random.choice(atoms)) for _ in range(random.choice([1, 2, 2, 3, 3]))]
        made.append(chosen[0] if len(chosen) == 1 else listed(b"or", chosen))
    return made


def differences(maker):
    """Makes a circle of differences, whose bounds sum to 0 or nearly; each may be one of two."""
    names = maker.numbers if len(maker.numbers) > 1 else [*maker.numbers, b"0"]
    bounds = [random.randint(-4, 4) for _ in names]
    bounds[-1] = random.choice([-1, 0, 0, 1]) - sum(bounds[:-1])
    made = []
    for place, bound in enumerate(bounds):
        sides = listed(b"-", [names[place - 1], names[place]]), number_written(Fraction(bound))
        order = listed(random.choice([b"<=", b"<=", b"<"]), sides)
        made.append(order if random.random() < 0.7 else listed(b"or", [order, maker.relation(0)]))
    random.shuffle(made)
    return made


def some_fraction(least, most, divisors):
    """Returns a whole number between two, over one of the divisors."""
    return Fraction(random.randint(least, most), random.choice(divisors))


def contradiction(maker):
    """Makes orders of sums whose weighted sum is a contradiction, or nearly one."""
    rows, total, constant = [], dict.fromkeys(maker.numbers, Fraction(0)), Fraction(0)
    for _ in range(random.randint(1, 4)):
        factors = {name: some_fraction(-5, 5, [1, 1, 1, 2, 3]) for name in maker.some_numbers()}
        bound, weight = some_fraction(-9, 9, [1]), some_fraction(1, 5, [1, 1, 2, 7])
        head = random.choice([b"<=", b"<=", b"<", b"="])
        rows.append(listed(head, [sum_of(factors), number_written(bound)]))
        constant += weight * bound
        for name, factor in factors.items():
            total[name] += weight * factor
    gap = random.choice([Fraction(0), Fraction(0), Fraction(1), Fraction(1, 1000), Fraction(-1)])
    last = [sum_of(total), number_written(constant + gap)]
    rows.append(listed(random.choice([b">=", b">"]), last))
    return [random.choice([row, row, listed(b"or", [row, maker.relation(0)])]) for row in rows]


def choices(maker):
    """Makes steps of numbers that `ite` chooses, and a relation at the end."""
    made, last = [], random.choice(maker.numbers)
    for name in maker.numbers:
        condition = random.choice([b"p", b"q", maker.relation(0), maker.of_sort(b"Bool", 1)])
        sides = [listed(b"+", [last, maker.literal()]), random.choice([last, maker.literal(), maker.sum(2)])]
        made.append(listed(b"=", [name, listed(b"ite", [condition, *sides])]))
        last = name
    return [*made, negated_by_chance(maker.relation(1)), maker.of_sort(b"Bool", 1)]


def few_values(maker):
    """Makes constants that take few values and are to be different."""
    values = random.sample(sorted(set(maker.pool)), random.choice([2, 2, 3]))
    made = [listed(b"or", [listed(b"=", [name, value]) for value in values]) for name in maker.numbers]
    if len(maker.numbers) > 1:
        count = min(len(values) + random.choice([0, 1]), len(maker.numbers))
        made.append(listed(b"distinct", random.sample(maker.numbers, count)))
    return [*made, *(maker.relation(1) for _ in range(random.randint(0, 2)))]


def beside_functions(maker):
    """Makes terms of the declared sort that numbers choose, with equalities between them."""
    made = []
    for _ in range(random.randint(2, 5)):
        chosen = listed(b"ite", [maker.relation(0), maker.of_sort(b"U", 1), maker.of_sort(b"U", 1)])
        made.append(negated_by_chance(listed(b"=", [chosen, maker.of_sort(b"U", 2)]), 0.4))
        if random.random() < 0.5:
            made.append(listed(b"or", [negated_by_chance(maker.relation(0)), listed(b"r", [maker.of_sort(b"U", 1)])]))
    return made


FAMILIES = [nested, nested, literals, bounded, bounded, clauses, clauses, differences, differences, contradiction]
FAMILIES += [contradiction, choices, few_values, beside_functions]
POOLS = [SMALL] * 6 + [SMALL + LONG, LONG, SMALL + WIDE, WIDE + LONG]


# The names, the sorts of the parameters and the sorts of what is defined.
DEFINED = ((b"d", (b"Real", b"Real"), b"Real"), (b"e", (b"Real", b"U"), b"Bool"))


def definition(maker, name, sorts, result):
    """Makes a definition with parameters, which later terms may use."""
    maker.bound = {b"s%d" % place: sort for place, sort in enumerate(sorts)}
    parameters = b" ".join(b"(%s %s)" % pair for pair in maker.bound.items())
    body = maker.of_sort(result, 2)
    maker.bound = {}
    maker.symbols[name] = (sorts, result)
    return b"(define-fun " + name + b" (" + parameters + b") " + result + b" " + body + b")"


def definitions(maker):
    """Makes definitions with parameters, which later terms use; few scripts have a function over numbers, too."""
    lines = []
    if random.random() < 0.4:
        lines += [definition(maker, *signature) for signature in DEFINED]
    if random.random() < 0.03:
        sorts, result = random.choice([((b"Real",), b"Real"), ((b"Real",), b"U"), ((b"U",), b"Real")])
        lines.append(b"(declare-fun far (%s) %s)" % (b" ".join(sorts), result))
        maker.symbols[b"far"] = (sorts, result)
    return lines


def beginning(maker):
    """Makes the first lines of a script over numbers: mostly an option and the logic, then what it declares."""
    lines = [b"(set-option :print-success false)"] if random.random() < 0.8 else []
    lines += [b"(set-logic QF_UFLRA)"] if random.random() < 0.8 else []
    lines += [b"(declare-sort U 0)"]
    return lines + declarations(maker)


def a_number_script():
    """Makes a script; its last command is a check, and some have another one before it."""
    maker = NumberMaker(random.choice(POOLS))
    lines = beginning(maker)
    lines += definitions(maker)
    formulas = random.choice(FAMILIES)(maker)
    if random.random() < 0.3:
        formulas += random.choice(FAMILIES)(maker)[:3]
    share = random.choice([0, 0, 0.1, 0.3])
    return text_of(maker, lines, formulas, share)
