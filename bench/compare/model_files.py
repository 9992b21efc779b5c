#!/usr/bin/env python3
"""Reads a model file, and judges it at a check of a script, by the independent reading alone.

    bench/compare/model_files.py SCRIPT MODEL [NUMBER]

prints `valid`, or the first fault with its line and column; the check is that with the number, from 1, or the first. The definitions are
those of `spec_model_files`. It shares nothing with the program: a file is read into tables, and values are computed by values.py.
"""

import sys
from fractions import Fraction

from commands import checks_of, read_script
from language import Definition
from proof_texts import require_end
from reading import Fault, error_line, read_one, token
from terms import BOOL, GREATEST, REAL
from values import Overflow, Values, is_small

# Literals may have any number of digits.
sys.set_int_max_str_digits(0)

# One more than the greatest number of an element.
ELEMENTS = 2**64


def symbol_of(item):
    """Returns the name of an item that has to be a symbol."""
    kind, name, start = item
    if kind != "sym":
        raise Fault(start, b"BadShape")
    return name


def begins_with(item, kind, name):
    """Requires that a list begins with this word."""
    if item[1][0][:2] != (kind, name):
        raise Fault(item[2], b"BadShape")


def has_form(item, length):
    """Tells whether an item is a list of so many items, of which the first is a word."""
    return item[0] == "list" and len(item[1]) == length and item[1][0][0] != "list"


def literal_of(item):
    """Returns the number of a numeral or a decimal, and whether it is within the bound."""
    kind, digits, start = item
    if kind not in ("num", "dec"):
        raise Fault(start, b"BadShape")
    whole, _, behind = digits.partition(b".")
    behind = behind.rstrip(b"0")
    return Fraction(digits.decode()), int(whole + behind) <= GREATEST and len(behind) <= 38


def divisor_of(item):
    """Returns a divisor: a literal or the negation of one, and whether it is within the bound."""
    if not has_form(item, 2):
        return literal_of(item)
    begins_with(item, "sym", b"-")
    number, is_within = literal_of(item[1][1])
    return -number, is_within


def number_of(item):
    """Returns a number as it is written, and whether all in it is within the bound."""
    if has_form(item, 2):
        begins_with(item, "sym", b"-")
        number, is_within = number_of(item[1][1])
        return -number, is_within
    if has_form(item, 3):
        begins_with(item, "sym", b"/")
        number, is_within = number_of(item[1][1])
        divisor, is_divisor_within = divisor_of(item[1][2])
        if divisor == 0:
            raise Fault(item[2], b"BadShape")
        number /= divisor
        return number, is_within and is_divisor_within and is_small(number.numerator, number.denominator)
    return literal_of(item)


def element_of(word, sort):
    """Returns the number of an element and the name of its sort, as they are written."""
    name = symbol_of(word)
    digits = name[2:]
    if name[:2] != b"@e" or not digits.isdigit() or (digits[:1] == b"0" and digits != b"0"):
        raise Fault(word[2], b"BadShape")
    return int(digits), symbol_of(sort)


class ModelReader:
    """Reads the definitions of a model file for a check."""

    def __init__(self, check):
        self.check = check
        self.tables = {}

    def sort_named(self, name):
        """Returns the sort of a name, or None."""
        return (name,) if name in (b"Bool", b"Real") else self.check.sorts.get(name)

    def require_sort(self, item, sort):
        """Requires that an item names a sort."""
        if self.sort_named(symbol_of(item)) != sort:
            raise Fault(item[2], b"WrongSort")

    def value(self, item, sort):
        """Returns a value of a sort: its form comes first, then its sort, then its bounds."""
        kind, word, start = item
        if kind == "sym" and word in (b"true", b"false"):
            found, is_right, is_within = word == b"true", sort == BOOL, True
        elif has_form(item, 3) and item[1][0][0] == "res":
            begins_with(item, "res", b"as")
            number, name = element_of(*item[1][1:])
            found, is_within = (sort[0], number), number < ELEMENTS
            is_right = sort not in (BOOL, REAL) and self.sort_named(name) == sort
        else:
            found, is_within = number_of(item)
            is_right = sort == REAL
        if not is_right:
            raise Fault(start, b"WrongSort")
        if not is_within:
            raise Fault(start, b"NumberWide")
        return found

    def argument(self, item, parameter):
        """Returns the value of a parameter by an equality."""
        name, sort = parameter
        if not has_form(item, 3):
            raise Fault(item[2], b"BadShape")
        begins_with(item, "sym", b"=")
        if item[1][1][:2] != ("sym", name):
            raise Fault(item[1][1][2], b"BadShape")
        return self.value(item[1][2], sort)

    def arguments(self, item, parameters):
        """Returns the values of all parameters by the condition of a row."""
        if len(parameters) == 1:
            return (self.argument(item, parameters[0]),)
        if item[0] != "list" or not item[1] or item[1][0][:2] != ("sym", b"and") or len(item[1]) != len(parameters) + 1:
            raise Fault(item[2], b"BadShape")
        return tuple(self.argument(*pair) for pair in zip(item[1][1:], parameters))

    def table(self, item, parameters, result):
        """Returns the table of a body: its rows, of which the first that fits counts, and its default."""
        rows = {}
        while parameters and has_form(item, 4):
            begins_with(item, "sym", b"ite")
            key = self.arguments(item[1][1], parameters)
            rows.setdefault(key, self.value(item[1][2], result))
            item = item[1][3]
        return rows, self.value(item, result)

    def parameters(self, item, sorts):
        """Returns the parameters with their sorts."""
        if item[0] != "list":
            raise Fault(item[2], b"BadShape")
        if len(item[1]) != len(sorts):
            raise Fault(item[2], b"WrongSort")
        found = []
        for pair, sort in zip(item[1], sorts):
            if pair[0] != "list" or len(pair[1]) != 2:
                raise Fault(pair[2], b"BadShape")
            name = symbol_of(pair[1][0])
            if name in dict(found):
                raise Fault(pair[1][0][2], b"Twice")
            self.require_sort(pair[1][1], sort)
            found.append((name, sort))
        return found

    def take(self, item):
        """Takes a definition."""
        if not has_form(item, 5):
            raise Fault(item[2], b"BadShape")
        begins_with(item, "res", b"define-fun")
        _, symbol, listed, sort, body = item[1]
        name = symbol_of(symbol)
        known = self.check.functions.get(name)
        if known is None or isinstance(known, Definition):
            raise Fault(symbol[2], b"UnknownSymbol")
        if name in self.tables:
            raise Fault(symbol[2], b"Twice")
        parameters = self.parameters(listed, known[0])
        self.require_sort(sort, known[1])
        self.tables[name] = self.table(body, parameters, known[1])

    def complete(self):
        """Returns the tables, with false, 0 or the first element where a symbol has no definition."""
        usual = {BOOL: False, REAL: Fraction(0)}
        for name in self.check.order:
            result = self.check.functions[name][1]
            self.tables.setdefault(name, ({}, usual.get(result, (result[0], 0))))
        return self.tables


def read_model(check, text):
    """Returns the tables that a model file says, or raises its first fault."""
    reader = ModelReader(check)
    first = token(text, 0)
    if first and first[:2] == ("sym", b"sat"):
        first = token(text, first[3])
    if first is None:
        raise Fault(len(text), b"BadShape")
    if first[0] != "(":
        raise Fault(first[2], b"StrayClose" if first[0] == ")" else b"BadShape")
    at = first[3]
    while True:
        following = token(text, at)
        if following is None:
            raise Fault(len(text), b"UnclosedList")
        if following[0] == ")":
            break
        item, at = read_one(text, at)
        reader.take(item)
    require_end(text, following[3])
    return reader.complete()


def untrue(check, tables):
    """Returns the fault of the first expression of a check that is not true, or None."""
    values = Values(check.terms, tables)
    for term, start in zip(check.assertions, check.places):
        try:
            if not values.of(term):
                return Fault(start, b"NotTrue")
        except Overflow:
            return Fault(start, b"ValueWide")
    return None


def predict_validate(script, number, model):
    """Returns what `validate` is to print for the check with this number, from 1, and its status."""
    checks = checks_of(read_script(script)[0])
    if len(checks) < number:
        return b'(error "1:1: NoSuchCheck")\n', 1
    check = checks[number - 1]
    try:
        tables = read_model(check, model)
    except Fault as fault:
        return error_line(model, fault), 1
    fault = untrue(check, tables)
    return (error_line(script, fault), 1) if fault else (b"valid\n", 0)


def main(words):
    """Judges the files that the words name; returns the status."""
    if len(words) not in (2, 3):
        sys.exit(__doc__)
    texts = []
    for path in words[:2]:
        with open(path, "rb") as file:
            texts.append(file.read())
    line, status = predict_validate(texts[0], int(words[2]) if words[2:] else 1, texts[1])
    sys.stdout.buffer.write(line)
    return status


if __name__ == "__main__":
    sys.exit(main(sys.argv[1:]))
