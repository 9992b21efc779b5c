"""Makes scripts by chance in which functions and linear real arithmetic share terms.

Functions take and give numbers, elements of a declared sort and truth values, in all mixtures; their arguments are
linear terms, applications and choices. Scripts come in families. Those of number_scripts.py have applications in the
place of some constants. The others are of what has to go from one theory to the other: arguments that bounds make equal
or nearly so, values that congruence makes equal, functions that rise, that are given by a table or step by step, that
have an inverse or few values, and equalities that go to and fro. About half of the checks have a model.
"""

import random
from fractions import Fraction

from function_scripts import listed, negated_by_chance, text_of
from number_scripts import (
    DEFINED,
    LONG,
    ORDERS,
    SMALL,
    WIDE,
    NumberMaker,
    beginning,
    bounded,
    choices,
    clauses,
    contradiction,
    definition,
    differences,
    few_values,
    literals,
    nested,
    number_written,
)

FUNCTIONS = {
    b"f": ((b"Real",), b"Real"),
    b"f2": ((b"Real", b"Real"), b"Real"),
    b"h": ((b"U",), b"Real"),
    b"k": ((b"Real",), b"U"),
    b"l": ((b"Real", b"U"), b"Real"),
    b"m": ((b"U", b"Real"), b"U"),
    b"n": ((b"Bool", b"Real"), b"Real"),
    b"|f g|": ((b"Real",), b"Real"),
    b"r": ((b"Real",), b"Bool"),
    b"s": ((b"Real", b"U"), b"Bool"),
    b"t": ((b"Bool",), b"Real"),
    b"g": ((b"U",), b"U"),
}
CONSTANTS = {b"p": ((), b"Bool"), b"q": ((), b"Bool"), b"a": ((), b"U"), b"b": ((), b"U")}
# Functions that each script has: one for each way in which numbers can come in.
ALWAYS = (b"f", b"k", b"r")
POOLS = [SMALL] * 12 + [SMALL + LONG, SMALL + WIDE]


class MixedMaker(NumberMaker):
    """Makes terms by sort, in which functions stand at numbers; some of the numbers for sums are applications."""

    def __init__(self, pool):
        super().__init__(pool)
        others = [name for name in FUNCTIONS if name not in ALWAYS]
        chosen = {*ALWAYS, *random.sample(others, random.randint(1, 4))}
        constants = {name: ((), b"Real") for name in self.numbers}
        self.symbols = {**CONSTANTS, **constants, **{name: FUNCTIONS[name] for name in FUNCTIONS if name in chosen}}
        self.constants = self.numbers
        made = [self.applied(b"Real", random.choice([1, 1, 2])) for _ in range(random.randint(1, 3))]
        self.numbers = list(dict.fromkeys([*self.constants, *made]))

    def of_sort(self, sort, depth):
        """Makes a term of a sort, an application more often than a maker of numbers does."""
        is_applied = depth > 0 and random.random() < 0.3
        return self.applied(sort, depth) if is_applied else super().of_sort(sort, depth)

    def applied(self, sort, depth):
        """Makes a function before terms."""
        heads = [(name, sorts) for name, (sorts, result) in self.symbols.items() if result == sort and sorts]
        name, sorts = random.choice(heads)
        return listed(name, [self.argument(s, depth - 1) for s in sorts])

    def argument(self, sort, depth):
        """Makes an argument: of numbers often a constant, or a constant with a number added."""
        if sort != b"Real" or random.random() < 0.3:
            return self.of_sort(sort, depth)
        constant = random.choice(self.constants)
        return constant if random.random() < 0.6 else self.moved(constant, random.choice([b"1", b"1", self.literal()]))

    @staticmethod
    def moved(term, number):
        """Adds a number to a term, or takes it away."""
        shapes = [b"(+ %s %s)" % (term, number), b"(+ %s %s)" % (number, term), b"(- %s %s)" % (term, number)]
        return random.choice(shapes)

    def alike(self, term):
        """Writes a term differently, with the same value."""
        number = self.literal()
        return random.choice([
            term,
            b"(- (+ %s %s) %s)" % (term, number, number),
            b"(+ (- %s %s) %s)" % (term, number, number),
            b"(* 2 (/ %s 2))" % term,
            b"(- (- %s))" % term,
            b"(ite p %s (+ %s 0))" % (term, term),
        ])

    def some_terms(self, most):
        """Returns some different terms of sort Real."""
        made = [*self.numbers, *(self.of_sort(b"Real", 1) for _ in range(most))]
        made = list(dict.fromkeys(made))
        return random.sample(made, random.randint(2, min(most, len(made))))

    def place(self):
        """Makes a function with the place `%(t)s` for a number, once or inside one more, and returns its sort, too."""
        name = random.choice([b"f", *(name for name, (sorts, _) in self.symbols.items() if b"Real" in sorts)])
        sorts, result = self.symbols[name]
        others = {b"Real": b"%(t)s", b"U": b"a", b"Bool": b"q"}
        made = listed(name, [others[sort] for sort in sorts])
        if result == b"Real" and random.random() < 0.3:
            outer, result = self.place()
            return outer % {b"t": made}, result
        return made, result


def order_of(head, sides):
    """Writes an order, or the opposite one with its sides exchanged."""
    turned = {b"<": b">", b"<=": b">="}
    return listed(head, sides) if random.random() < 0.7 else listed(turned[head], sides[::-1])


def apart(maker, one, other):
    """Says that a function differs at two numbers."""
    place, result = maker.place()
    left, right = (place % {b"t": term} for term in (one, other))
    if result == b"Bool":
        return listed(b"xor", [left, right])
    if result == b"Real" and random.random() < 0.6:
        return order_of(b"<", [left, right])
    return b"(not (= %s %s))" % (left, right)


def squeezed(maker):
    """Says that numbers lie between each other, and that a function differs at two of them."""
    terms = maker.some_terms(4)
    made = [order_of(b"<=", pair) for pair in zip(terms, terms[1:])]
    closing = random.choice([b"<=", b"<=", b"<=", b"<"])
    if random.random() < 0.65:
        made.append(order_of(closing, [terms[-1], maker.alike(terms[0])]))
    one, other = random.sample(terms, 2)
    made.append(apart(maker, maker.alike(one), other))
    if random.random() < 0.3:
        made[0] = listed(b"or", [made[0], maker.of_sort(b"Bool", 1)])
    random.shuffle(made)
    return made


def rising(maker):
    """Says of some numbers that a function rises with them, and gives an order of them and one of its values."""
    terms = maker.some_terms(4)
    values = [b"(f %s)" % term for term in terms]
    strict = random.choice([b"<", b"<="])
    made = []
    for place, (one, above) in enumerate(zip(terms, values)):
        for other, below in list(zip(terms, values))[place + 1 :]:
            made.append(b"(=> (%s %s %s) (%s %s %s))" % (strict, one, other, strict, above, below))
    head = random.choice([strict, b"<=", b"<", b"distinct", b"distinct"])
    made.append(listed(head, terms))
    last = [values[-1], values[0]]
    if random.random() < 0.3:
        last[0] = listed(b"+", [last[0], maker.literal()])
    return [*made, listed(random.choice([b"<", b"<", b"<="]), last)]


def tables(maker):
    """Gives a function at some numbers, says that a constant is one of these, and bounds its value there."""
    places = random.sample(range(6), random.randint(2, 4))
    values = [random.randint(-3, 5) for _ in places]
    made = [b"(= (f %d) %s)" % (place, number_written(Fraction(value))) for place, value in zip(places, values)]
    some = random.choice(maker.constants)
    if random.random() < 0.7:
        made.append(listed(b"or", [listed(b"=", [some, b"%d" % place]) for place in places]))
    else:
        made += [b"(<= %d %s)" % (min(places), some), b"(%s %s %d)" % (random.choice(ORDERS[:2]), some, max(places))]
    bound = random.choice([max(values), max(values) - 1, min(values), max(values) + 1])
    said = listed(random.choice(ORDERS), [b"(f %s)" % maker.alike(some), number_written(Fraction(bound))])
    return [*made, negated_by_chance(said, 0.3), *([maker.relation(1)] if random.random() < 0.4 else [])]


def steps(maker):
    """Says how a function changes from each number to the next, and denies what comes of it, or something near."""
    some, count = random.choice(maker.constants), random.randint(2, 5)
    growth = random.choice([1, 2, 3])
    made = []
    for place in range(count):
        before = maker.alike(some) if place == 0 else b"(+ %s %d)" % (some, place)
        sides = [b"(f (+ %s %d))" % (some, place + 1), b"(+ (f %s) %d)" % (before, growth)]
        made.append(listed(random.choice([b"=", b"=", b"<="]), sides))
    end = b"(f (+ %s %d))" % (maker.alike(some), count)
    bound = b"(+ (f %s) %d)" % (some, growth * count + random.choice([0, 0, 0, 1, -1]))
    made.append(random.choice([order_of(b"<", [bound, end]), negated_by_chance(listed(b"=", [end, bound]), 0.8)]))
    random.shuffle(made)
    return made


def inverses(maker):
    """Says that one function takes back what another does, and that the other has one value at different numbers."""
    back = random.choice([name for name in (b"|f g|", b"h", b"f") if name in maker.symbols])
    there = b"k" if back == b"h" else b"f"
    terms = maker.some_terms(3)
    kept = terms if random.random() < 0.75 else terms[1:]
    made = [b"(= (%s (%s %s)) %s)" % (back, there, term, term) for term in kept]
    one, other = terms[:2]
    values = b"(= (%s %s) (%s %s))" % (there, one, there, maker.alike(other))
    made.append(values if random.random() < 0.8 else listed(b"or", [values, maker.of_sort(b"Bool", 1)]))
    made.append(order_of(random.choice([b"<", b"<", b"<="]), [one, other]))
    return made


def few_places(maker):
    """Says that numbers take few values, and that a function is different at some of them."""
    count = random.choice([2, 3, 3])
    values = random.sample([b"0", b"1", b"2", b"(f 0)", b"0.5"], count)
    terms = maker.some_terms(count + 1)
    made = [listed(b"or", [listed(b"=", [term, value]) for value in values]) for term in terms]
    kept = random.sample(terms, random.randint(2, len(terms)))
    return [*made, listed(b"distinct", [b"(k %s)" % term for term in kept])]


def to_and_fro(maker):
    """Makes two numbers equal by bounds, puts both into functions and sums in turn, and says that a value differs."""
    some = maker.some_terms(2)
    made = [order_of(b"<=", some), order_of(b"<=", [maker.alike(some[1]), some[0]])]
    if random.random() < 0.45:
        made.pop()
    for _ in range(random.randint(1, 3)):
        shapes = [b"(f (+ %(t)s %(n)s))", b"(+ (f %(t)s) %(n)s)", b"(- %(n)s (f (f %(t)s)))", b"(* 2 (f %(t)s))"]
        shape, number = random.choice(shapes), maker.literal()
        some = [shape % {b"t": term, b"n": number} for term in some]
    return [*made, apart(maker, *some)]


def elements(maker):
    """Makes equalities of elements that a function gives at numbers, and orders of numbers at such elements."""
    places = [*maker.some_terms(3), maker.literal()]
    things = [b"a", b"b", *(b"(k %s)" % place for place in places)]
    made = []
    for _ in range(random.randint(2, 5)):
        made.append(negated_by_chance(listed(b"=", random.sample(things, 2)), 0.45))
        if random.random() < 0.5:
            made.append(order_of(random.choice([b"<", b"<="]), random.sample(places, 2)))
    if b"h" in maker.symbols:
        made.append(order_of(b"<", [b"(h %s)" % thing for thing in random.sample(things, 2)]))
    return [*made, *([maker.relation(1)] if random.random() < 0.5 else [])]


OF_NUMBERS = [nested, literals, bounded, clauses, clauses, differences, contradiction, choices, few_values]
OWN = [squeezed, squeezed, rising, tables, steps, inverses, few_places, to_and_fro, to_and_fro, elements]


def definitions(maker):
    """Makes definitions with parameters, at which functions of numbers may stand; later terms use them."""
    return [definition(maker, *signature) for signature in DEFINED if random.random() < 0.25]


def a_mixed_script():
    """Makes a script; its last command is a check, and some have others before it."""
    maker = MixedMaker(random.choice(POOLS))
    lines = beginning(maker)
    lines += definitions(maker)
    formulas = random.choice(OWN if random.random() < 0.6 else OF_NUMBERS)(maker)
    if random.random() < 0.3:
        formulas += random.choice(OWN + OF_NUMBERS)(maker)[:3]
    share = random.choice([0, 0, 0.1, 0.3])
    return text_of(maker, lines, formulas, share)
