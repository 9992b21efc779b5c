"""Writes what the independent reading finds as the definitions have it."""

import os
import re

from language import Definition
from terms import BOOL, REAL
from values import Overflow

HEADS = {
    b"true": "True", b"false": "False", b"not": "Not", b"and": "And", b"or": "Or", b"xor": "Xor", b"=>": "Implies",
    b"=": "Equal", b"ite": "Ite", b"-": "Minus", b"+": "Plus", b"*": "Times", b"/": "Divide", b"<": "Less",
    b"<=": "AtMost",
}


def read(name):
    """Returns the text of a file that stands beside this one."""
    with open(os.path.join(os.path.dirname(os.path.abspath(__file__)), name), encoding="utf-8") as file:
        return file.read()


def written(text):
    """Writes bytes as the definitions' list of them; those that no text of the prover has stand as numbers."""
    parts = re.split(rb"([^ -~])", text)
    strings = ['codes "%s"' % part.decode().replace("\\", "\\\\").replace('"', '\\"') for part in parts[::2]]
    others = [f" ++ {part[0]} ∷ " for part in parts[1::2]]
    whole = "".join(string + other for string, other in zip(strings, [*others, ""]))
    return f"({whole})" if others else whole


def lines_written(text):
    """Writes a text by its lines."""
    *lines, last = text.split(b"\n")
    return f"lines {listed(map(written, lines))}" + (f" ++ {written(last)}" if last else "")


def listed(items):
    """Writes a list."""
    return "(" + " ∷ ".join([*items, "[]"]) + ")"


def sort_written(sort):
    """Writes a sort."""
    return {BOOL: "Truth", REAL: "Number"}.get(sort) or f"(Declared ({written(sort[0])}))"


def term_written(terms, number, functions):
    """Writes a term as the definitions have it."""
    head, given = terms.nodes[number]
    arguments = listed(term_written(terms, t, functions) for t in given)
    if head[0] == "number":
        return f"of (Literal {fraction_written(head[1])}) {arguments}"
    if head[0] == "parameter":
        return f"of (Parameter {head[1]} {sort_written(head[2])}) {arguments}"
    if head[0] == "symbol":
        sorts, result = functions[head[1]]
        parts = f"parameters = {listed(map(sort_written, sorts))}; result = {sort_written(result)}"
        return f"of (Apply (record {{ name = {written(head[1])}; {parts} }})) {arguments}"
    return f"of {HEADS[head]} {arguments}"


def fraction_written(number):
    """Writes a fraction in lowest terms."""
    num, den = number.numerator, number.denominator
    whole = f"pos {num}" if num >= 0 else f"negsuc {-num - 1}"
    return f"(record {{ num = {whole}; den = {den} }})"


def declared(functions):
    """Returns the functions that are declared, without those that are defined."""
    return {name: known for name, known in functions.items() if not isinstance(known, Definition)}


def value_written(value):
    """Writes a value."""
    if isinstance(value, bool):
        return f"(truth {str(value).lower()})"
    if isinstance(value, tuple):
        return f"(element ({written(value[0])}) {value[1]})"
    return f"(number {fraction_written(value)})"


def table_written(table):
    """Writes the table of a symbol."""
    rows = [
        f"record {{ arguments = {listed(map(value_written, given))}; value = {value_written(value)} }}"
        for given, value in table[0].items()
    ]
    return f"record {{ rows = {listed(rows)}; default = {value_written(table[1])} }}"


def world_written(tables):
    """Writes the interpretation that has these tables."""
    cases = "".join(f"if bytes_eq n ({written(name)}) then {table_written(t)} else " for name, t in tables.items())
    return f"(record {{ table = λ n. {cases}record {{ rows = []; default = truth false }} }})"


def outcome_written(values, term):
    """Writes the value of a term, or its first overflow."""
    try:
        return f"Ok {value_written(values.of(term))}"
    except Overflow as o:
        parts = f"op = {o.name}; left = {fraction_written(o.left)}; right = {fraction_written(o.right)}"
        return f"Err (record {{ {parts} }})"
