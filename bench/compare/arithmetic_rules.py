"""The 3 rules of linear arithmetic as docs/ALETHE.md lists them, over terms by number; a clause is a list of these.

A form is a constant and a dict of coefficients by variable, in order. What leaves 128 bits raises `Overflow`.
"""

from fractions import Fraction

from literals import strip
from terms import GREATEST, REAL
from values import Overflow, add, multiply

ARITHMETIC_RULES = {b"la_generic", b"la_disequality", b"la_totality"}
OPERATIONS = (b"+", b"-", b"*", b"/")


class Malformed(Exception):
    """A literal or an argument that is none of `la_generic`."""


def joined(name, one, other):
    """Returns the second form added to the first, or subtracted from it."""
    constant, variables = add(name, one[0], other[0]), dict(one[1])
    for variable, coefficient in other[1].items():
        if variable not in variables:
            variables[variable] = coefficient if name == "Add" else -coefficient
            continue
        variables[variable] = add(name, variables[variable], coefficient)
        if not variables[variable]:
            del variables[variable]
    return constant, variables


def changed(form, change):
    """Returns a form with its numbers changed, without variables whose coefficients came to 0."""
    constant = change(form[0])
    variables = {variable: change(coefficient) for variable, coefficient in form[1].items()}
    return constant, {variable: coefficient for variable, coefficient in variables.items() if coefficient}


def product(number, one, other):
    """Returns the product of two forms, or the term itself as a variable where both have variables."""
    if one[1] and other[1]:
        return None
    factor, form = (other[0], one) if one[1] else (one[0], other)
    return changed(form, lambda k: multiply("Mul", factor, k))


def headed(number, head, forms):
    """Returns the form of a term of arithmetic by those of its arguments."""
    alone = Fraction(0), {number: Fraction(1)}
    first, rest = forms[0], forms[1:]
    if head == b"-" and not rest:
        return changed(first, lambda k: -k)
    if head == b"/":
        divisor, variables = rest[0]
        return alone if variables or not divisor else changed(first, lambda k: multiply("Div", k, divisor))
    for form in rest:
        if head == b"*":
            first = product(number, first, form)
            if first is None:
                return alone
        else:
            first = joined("Sub" if head == b"-" else "Add", first, form)
    return first


def calculated(terms, root):
    """Returns a term and those of which its form is made, arguments first: none below another head is computed with."""
    found, open_ones = set(), [root]
    while open_ones:
        number = open_ones.pop()
        head, given = terms.nodes[number]
        if number not in found and head in OPERATIONS:
            open_ones += given
        found.add(number)
    return sorted(found)


def form_of(terms, root):
    """Returns the form of a term."""
    forms = {}
    for number in calculated(terms, root):
        head, given = terms.nodes[number]
        if head[0] == "number":
            forms[number] = head[1], {}
        elif head in OPERATIONS:
            forms[number] = headed(number, head, [forms[t] for t in given])
        else:
            forms[number] = Fraction(0), {number: Fraction(1)}
    return forms[root]


def number_in(item):
    """Returns the number that an argument writes, or its first overflow."""
    kind, value, _ = item
    if kind in ("num", "dec"):
        whole, _, behind = value.partition(b".")
        behind = behind.rstrip(b"0")
        if int(whole + behind) > GREATEST or len(behind) > 38:
            raise Malformed
        return Fraction(int(whole + behind), 10 ** len(behind))
    if kind != "list" or not value or value[0][0] != "sym":
        raise Malformed
    if value[0][1] == b"-" and len(value) == 2:
        found = number_in(value[1])
        return found if isinstance(found, Overflow) else -found
    if value[0][1] != b"/" or len(value) != 3:
        raise Malformed
    one, other = number_in(value[1]), number_in(value[2])
    if other == 0:
        raise Malformed
    for found in (one, other):
        if isinstance(found, Overflow):
            return found
    try:
        return multiply("Div", one, other)
    except Overflow as overflow:
        return overflow


def denied(terms, literal):
    """Returns what the negation of a literal says: how a form stands to 0, and the terms of the difference."""
    atom, positive = strip(terms, literal)
    head, given = terms.nodes[atom]
    if head not in (b"=", b"<", b"<=") or any(terms.sorts[t] != REAL for t in given):
        raise Malformed
    if head == b"=" and positive:
        raise Malformed
    sides = given[::-1] if positive else given
    kind = "=" if head == b"=" else "<" if (head == b"<") != positive else "<="
    return kind, sides


def is_contradiction(parts, turned):
    """Tells whether the sum of the forms, each with its kind and its weight, cannot be."""
    total, is_strict = (Fraction(0), {}), False
    for kind, form, weight in parts:
        factor = (-weight if turned else weight) if kind == "=" else abs(weight)
        total = joined("Add", total, changed(form, lambda k, factor=factor: multiply("Mul", factor, k)))
        is_strict = is_strict or (kind == "<" and weight != 0)
    return not total[1] and (total[0] > 0 or (total[0] == 0 and is_strict))


def la_generic(terms, clause, items):
    """Tells whether `la_generic` takes the clause with these arguments."""
    if len(clause) != len(items):
        return False
    try:
        pairs = [(denied(terms, literal), number_in(item)) for literal, item in zip(clause, items)]
    except Malformed:
        return False
    for _, weight in pairs:
        if isinstance(weight, Overflow):
            raise weight
    parts = []
    for (kind, (one, other)), weight in pairs:
        parts.append((kind, joined("Sub", form_of(terms, one), form_of(terms, other)), weight))
    return is_contradiction(parts, False) or is_contradiction(parts, True)


def is_ordered(terms, rule, clause):
    """Tells whether two numbers give the clause by the rule."""
    head, given = terms.nodes[clause[0]] if len(clause) == 1 else (None, ())
    first, sides = terms.nodes[given[0]] if head == b"or" else (None, ())
    if first != (b"=" if rule == b"la_disequality" else b"<=") or any(terms.sorts[t] != REAL for t in sides):
        return False
    orders = [terms.make(b"<=", sides), terms.make(b"<=", sides[::-1])]
    return list(given) == ([given[0], *map(terms.negation, orders)] if rule == b"la_disequality" else orders)


def calculates(terms, rule, premises, clause, items):
    """Tells whether the clause follows by a rule of arithmetic, with these arguments."""
    if premises:
        return False
    return la_generic(terms, clause, items) if rule == b"la_generic" else is_ordered(terms, rule, clause)
