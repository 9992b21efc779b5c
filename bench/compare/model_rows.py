"""States of models by chance how they are written, and the values of their bodies, for the prover to compute.

The texts are those of docs/FORMATS.md: a definition for each symbol, whose body has the rows of its table.
"""

import random

from antt import listed, lines_written, read, sort_written, value_written, world_written, written
from reading import printed_name, read_one
from sessions import table_of
from terms import BOOL, REAL
from values import some_tables, some_value

NAMES = [b"p", b"f", b"a b", b"let", b"x", b"", b"define-fun", b"0", b"as", b"U", b"Bool", b"a.b", b"<=>"]
SORTS = [BOOL, REAL, (b"U", "declared"), (b"U V", "declared"), (b"let", "declared")]
HEAD = read("ModelRows.antt.txt")


def number_text(number):
    """Writes a fraction as a value."""
    above = b"%d" % abs(number.numerator)
    above = b"(- " + above + b")" if number < 0 else above
    return above if number.denominator == 1 else b"(/ %s %d)" % (above, number.denominator)


def value_text(value):
    """Writes a value."""
    if isinstance(value, bool):
        return b"true" if value else b"false"
    if isinstance(value, tuple):
        return b"(as @e%d %s)" % (value[1], printed_name(value[0]))
    return number_text(value)


def body_text(table):
    """Writes the table of a symbol as a term over its parameters."""
    text = value_text(table[1])
    for given, value in reversed(table[0].items()):
        equalities = [b"(= @x%d %s)" % (place, value_text(argument)) for place, argument in enumerate(given)]
        condition = equalities[0] if len(equalities) == 1 else b"(and " + b" ".join(equalities) + b")"
        text = b"(ite %s %s %s)" % (condition, value_text(value), text)
    return text


def definition_text(name, sorts, result, table):
    """Writes the definition of a symbol."""
    parameters = b" ".join(b"(@x%d %s)" % (place, printed_name(sort[0])) for place, sort in enumerate(sorts))
    return b"(define-fun %s (%s) %s %s)" % (printed_name(name), parameters, printed_name(result[0]), body_text(table))


def symbol_written(name, sorts, result):
    """Writes a symbol."""
    parts = f"parameters = {listed(map(sort_written, sorts))}; result = {sort_written(result)}"
    return f"record {{ name = {written(name)}; {parts} }}"


def value_row(name, number, sorts, table):
    """Returns the statement of a body's value at some arguments, of a row of the table or others."""
    given = tuple(map(some_value, sorts))
    given = random.choice([given, *table[0]])
    bindings = listed(f"({written(b'@x%d' % place)}, {value_written(value)})" for place, value in enumerate(given))
    value = value_written(table[0].get(given, table[1]))
    return f"""
pub {name}_{number} : model_values no_names {bindings} (trees_in ({lines_written(body_text(table))})) ≡ {value} ∷ []
unfolding model_values_on_literals
{name}_{number} = refl
"""


def row_of(seed):
    """Returns the statements of a model of some symbols, with counts."""
    random.seed(seed)
    names = random.sample(NAMES, random.randint(0, 4))
    counts = {name: random.choice([0, 0, 1, 2, 3]) for name in names}
    functions = {name: (random.choices(SORTS, k=count), random.choice(SORTS)) for name, count in counts.items()}
    tables = some_tables(functions)
    text = b"(\n"
    for name, (sorts, result) in functions.items():
        definition = definition_text(name, sorts, result, tables[name])
        if table_of(read_one(definition, 0)[0], name, sorts, result) != tables[name]:
            raise AssertionError(f"the definition of {name!r} is not read back")
        text += b"  " + definition + b"\n"
    symbols = listed(symbol_written(name, *sorts) for name, sorts in functions.items())
    statements = f"""
pub m{seed} : model_text {world_written(tables)} {symbols} ≡ {lines_written(text + b")" + bytes([10]))}
unfolding numeral
m{seed} = refl
"""
    rows = [value_row(f"m{seed}", n, functions[name][0], tables[name]) for n, name in enumerate(names)]
    return statements + "".join(rows), {"models": 1, "definitions": len(names), "values": len(rows)}
