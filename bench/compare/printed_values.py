"""Reads the values that the program prints: truth values, numbers, and elements of declared sorts."""

from fractions import Fraction

from terms import BOOL, REAL
from values import is_small


class Wrong(Exception):
    """What is wrong with an output of the program."""


def require(holds, what):
    """Raises what is wrong where something does not hold."""
    if not holds:
        raise Wrong(what)


def is_positive(item):
    """Tells whether an item is a numeral other than 0."""
    return item[0] == "num" and item[1] != b"0"


def whole_number_of(item):
    """Returns the whole number of a printed value, whose sign stands before it."""
    kind, parts, _ = item
    if kind == "num":
        return int(parts)
    require(kind == "list" and len(parts) == 2 and parts[0][:2] == ("sym", b"-"), "no number")
    require(is_positive(parts[1]), "no number below 0")
    return -int(parts[1][1])


def number_of(item):
    """Returns the number of a printed value, in lowest terms, with its sign in the numerator, and within 128 bits."""
    kind, parts, _ = item
    if kind == "list" and parts and parts[0][:2] == ("sym", b"/"):
        require(len(parts) == 3 and is_positive(parts[2]) and parts[2][1] != b"1", "no quotient")
        above, below = whole_number_of(parts[1]), int(parts[2][1])
        value = Fraction(above, below)
        require((value.numerator, value.denominator) == (above, below), "a number not in lowest terms")
    else:
        value = Fraction(whole_number_of(item))
    require(is_small(value.numerator, value.denominator), "a number beyond 128 bits")
    return value


def value_of(item, sort):
    """Returns the value that an item of a model is, for a sort."""
    kind, parts, _ = item
    if sort == BOOL:
        require(item[:2] in (("sym", b"true"), ("sym", b"false")), "no truth value")
        return parts == b"true"
    if sort == REAL:
        return number_of(item)
    require(kind == "list" and len(parts) == 3 and parts[0][:2] == ("res", b"as"), "no element")
    require(parts[1][0] == "sym" and parts[1][1][:2] == b"@e" and parts[2][:2] == ("sym", sort[0]), "no element")
    digits = parts[1][1][2:]
    require(digits.isdigit() and str(int(digits)).encode() == digits, "no number of an element")
    return (sort[0], int(digits))
