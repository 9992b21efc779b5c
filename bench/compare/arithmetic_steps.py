"""Makes steps of linear arithmetic by chance, right or near to it, with the texts of their arguments."""

import random
from fractions import Fraction

from arithmetic_rules import ARITHMETIC_RULES, Malformed, denied, form_of, joined
from terms import GREATEST, REAL
from values import Overflow

WEIGHTS = [Fraction(n, d) for n in (1, 2, 3, 4, -1, -2) for d in (1, 1, 2, 4)]
WIDE = Fraction(GREATEST)
ODD_ARGUMENTS = [b"x", b"\"1\"", b"(/ 1 0)", b"(/ 1 (- 0))", b"(/ 1 2 3)", b"(+ 1 2)", b"()", b"(- 1 2)", b":a", b"0",
                 b"%d" % (GREATEST + 1), b"(/ %d 0.5)" % GREATEST, b"(/ (/ %d 0.5) 0)" % GREATEST]


def argument(number):
    """Writes a number as an argument, in one of the ways in which it can be."""
    if number < 0 and random.random() < 0.9:
        return b"(- " + argument(-number) + b")"
    top, bottom = abs(number.numerator), number.denominator
    sign = b"(- %d)" % top if number < 0 else b"%d" % top
    if bottom == 1 and random.random() < 0.8:
        return sign
    if number >= 0 and 4 % bottom == 0 and random.random() < 0.5:
        return b"%d.%s" % (top * 100 // bottom // 100, b"%02d" % (top * 100 // bottom % 100))
    return b"(/ %s %d)" % (sign, bottom) if random.random() < 0.8 else b"(/ (/ %s 2) (/ %d 2))" % (sign, bottom)


def constant(terms, number):
    """Returns the term of a number."""
    if number < 0:
        return terms.make(b"-", (constant(terms, -number),), REAL)
    if number.denominator not in (1, 2, 4):
        parts = constant(terms, Fraction(number.numerator)), constant(terms, Fraction(number.denominator))
        return terms.make(b"/", parts, REAL)
    return terms.make(("number", number), (), REAL)


def written_form(terms, form):
    """Returns a term with the form."""
    parts = []
    for variable, coefficient in form[1].items():
        times = [constant(terms, coefficient), variable]
        random.shuffle(times)
        parts.append(variable if coefficient == 1 else terms.make(b"*", times, REAL))
    if form[0] or not parts:
        parts.insert(random.randint(0, len(parts)), constant(terms, form[0]))
    return parts[0] if len(parts) == 1 else terms.make(b"+", parts, REAL)


def some_sum(terms, variables):
    """Returns a term of sort Real over some of the variables."""
    choice = random.random()
    if choice < 0.5:
        return random.choice(variables)
    if choice < 0.7:
        return constant(terms, random.choice([Fraction(0), Fraction(1), Fraction(5, 2), Fraction(-3), WIDE]))
    one, other = some_sum(terms, variables), some_sum(terms, variables)
    if choice < 0.8:
        return terms.make(b"*", (constant(terms, random.choice(WEIGHTS)), one), REAL)
    if choice < 0.84:
        return terms.make(b"/", (one, constant(terms, Fraction(random.choice([1, 2, 3])))), REAL)
    return terms.make(random.choice([b"+", b"-"]), (one, other), REAL)


def last_literal(terms, literals, weights):
    """Returns a literal and its weight by which the sum of all is a contradiction, or nearly."""
    total = Fraction(0), {}
    for literal, weight in zip(literals, weights):
        kind, (one, other) = denied(terms, literal)
        form = joined("Sub", form_of(terms, one), form_of(terms, other))
        factor = weight if kind == "=" else abs(weight)
        scaled = factor * form[0], {v: factor * k for v, k in form[1].items() if factor}
        total = joined("Add", total, scaled)
    weight = random.choice([Fraction(1), Fraction(1), Fraction(2), Fraction(1, 2)])
    wanted = random.choice([Fraction(0)] * 3 + [Fraction(1), Fraction(1, 4), Fraction(-1)])
    form = (wanted - total[0]) / weight, {v: -k / weight for v, k in total[1].items()}
    sides = written_form(terms, form), constant(terms, Fraction(0))
    if random.random() < 0.3:
        return terms.negation(terms.make(b"=", sides)), weight
    return terms.negation(terms.make(random.choice([b"<", b"<="]), sides)), weight


def some_literal(terms, variables):
    """Returns an order, its negation, or a negated equality."""
    sides = some_sum(terms, variables), some_sum(terms, variables)
    if random.random() < 0.3:
        return terms.negation(terms.make(b"=", sides))
    order = terms.make(random.choice([b"<", b"<="]), sides)
    return terms.negation(order) if random.random() < 0.7 else order


def order_clause(terms, rule, variables):
    """Returns a clause of one of the two rules of the order, or one near to it."""
    one, other = some_sum(terms, variables), some_sum(terms, variables)
    orders = [terms.make(b"<=", (one, other)), terms.make(b"<=", (other, one))]
    if random.random() < 0.1:
        random.shuffle(orders)
    parts = orders
    if rule == b"la_disequality":
        parts = [terms.make(b"=", (one, other)), *(order if random.random() < 0.05 else terms.negation(order) for order in orders)]
    if random.random() < 0.1:
        del parts[random.randrange(len(parts))]
    return parts if random.random() < 0.05 or not parts else [terms.make(b"or", parts)]


def arithmetic_step(terms, variables, formula):
    """Returns a rule, a clause and the text of its arguments, or None where there are none."""
    rule = random.choice([b"la_generic"] * 4 + sorted(ARITHMETIC_RULES))
    if rule != b"la_generic":
        clause = order_clause(terms, rule, variables)
        return (rule if random.random() < 0.95 else b"la_generic"), clause, random.choice([None, None, b"(1)"])
    literals = [some_literal(terms, variables) for _ in range(random.choice([0, 1, 1, 2, 3]))]
    weights = [random.choice(WEIGHTS) for _ in literals]
    try:
        literal, weight = last_literal(terms, literals, weights)
    except (Malformed, Overflow):
        literal, weight = some_literal(terms, variables), Fraction(1)
    place = random.randint(0, len(literals))
    literals.insert(place, literal)
    weights.insert(place, weight)
    texts = [argument(weight) for weight in weights]
    choice = random.random()
    if choice < 0.06:
        texts[random.randrange(len(texts))] = random.choice(ODD_ARGUMENTS)
    elif choice < 0.1:
        literals[random.randrange(len(literals))] = formula()
    elif choice < 0.14:
        texts = random.choice([texts[1:], [*texts, b"1"]])
    elif choice < 0.2:
        at = random.randrange(len(literals))
        literals[at] = terms.negation(terms.negation(literals[at]))
    return rule, literals, b"(" + b" ".join(texts) + b")"
