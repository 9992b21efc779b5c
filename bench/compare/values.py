"""Values of terms as SMT-LIB 2.6 has them, where each operation on numbers stays within 128 bits."""

import random
from fractions import Fraction
from math import gcd

from terms import BOOL, GREATEST, REAL

SOME_NUMBERS = [Fraction(0), Fraction(1), Fraction(-1), Fraction(1, 2), Fraction(-7, 3), Fraction(GREATEST)]


class Overflow(Exception):
    """The first operation whose result leaves 128 bits, with its operands."""

    def __init__(self, name, left, right):
        super().__init__(name)
        self.name = name
        self.left = left
        self.right = right


def is_small(*numbers):
    """Tells whether whole numbers are within the bound."""
    return all(abs(n) <= GREATEST for n in numbers)


def add(name, left, right):
    """Adds; the cross products over the common divisor of the denominators have to be within the bound too."""
    term = -right if name == "Sub" else right
    common = gcd(left.denominator, term.denominator)
    one = left.numerator * (term.denominator // common)
    other = term.numerator * (left.denominator // common)
    result = left + term
    if not is_small(one, other, one + other, result.numerator, result.denominator):
        raise Overflow(name, left, right)
    return result


def multiply(name, left, right):
    """Multiplies or divides."""
    result = left / right if name == "Div" else left * right
    if not is_small(result.numerator, result.denominator):
        raise Overflow(name, left, right)
    return result


def folded(operation, name, values):
    """Takes values two by two, from the left."""
    result = values[0]
    for value in values[1:]:
        result = operation(name, result, value)
    return result


class Values:
    """Values of terms by number, under tables for the symbols: a dict of arguments' values, and a default."""

    def __init__(self, terms, tables):
        self.terms = terms
        self.tables = tables
        self.known = {}

    def of(self, number):
        """Returns the value of a term, or raises its first overflow; arguments come first, from left to right."""
        if number not in self.known:
            head, given = self.terms.nodes[number]
            self.known[number] = self.applied(head, [self.of(t) for t in given])
        return self.known[number]

    def applied(self, head, values):
        """Returns what a head gives at values."""
        if head[0] == "number":
            return head[1]
        if head[0] == "symbol":
            rows, default = self.tables[head[1]]
            return rows.get(tuple(values), default)
        return self.of_core(head, values) if head not in (b"-", b"+", b"*", b"/") else self.of_reals(head, values)

    @staticmethod
    def of_reals(head, values):
        """Returns what an operation on numbers gives."""
        if head == b"+":
            return folded(add, "Add", values)
        if head == b"*":
            return folded(multiply, "Mul", values)
        if head == b"/":
            return folded(multiply, "Div", values)
        return -values[0] if len(values) == 1 else add("Sub", *values)

    @staticmethod
    def of_core(head, values):
        """Returns what a head gives that makes no number."""
        if head in (b"true", b"false"):
            return head == b"true"
        if head == b"not":
            return not values[0]
        if head in (b"and", b"or"):
            return all(values) if head == b"and" else any(values)
        if head == b"ite":
            return values[1] if values[0] else values[2]
        left, right = values
        if head == b"=>":
            return not left or right
        if head in (b"=", b"xor"):
            return (left == right) == (head == b"=")
        return left < right if head == b"<" else left <= right


class Exact(Values):
    """Values without any limit on numbers, as the standard has them."""

    def all(self, roots):
        """Returns the values of terms, however deep they are."""
        for number in self.terms.below(roots):
            self.of(number)
        return [self.known[root] for root in roots]

    @staticmethod
    def of_reals(head, values):
        """Returns what an operation on numbers gives."""
        first, rest = values[0], values[1:]
        if head == b"-":
            return first - rest[0] if rest else -first
        for value in rest:
            first = first + value if head == b"+" else first * value if head == b"*" else first / value
        return first


def some_value(sort):
    """Makes a value of a sort."""
    if sort == BOOL:
        return random.random() < 0.5
    return random.choice(SOME_NUMBERS) if sort == REAL else (sort[0], random.randrange(3))


def some_tables(functions):
    """Makes tables for declared symbols, which are lists of sorts with a result."""
    tables = {}
    for name, (sorts, result) in functions.items():
        count = random.randrange(3) if sorts else 0
        rows = {tuple(map(some_value, sorts)): some_value(result) for _ in range(count)}
        tables[name] = (rows, some_value(result))
    return tables
