#!/usr/bin/env python3
"""Has `validate` judge models of z3 and cvc5.

    bench/other_models.py PROGRAM [--models N] [--seed S] [SCRIPT ..]

Each check of the scripts, and then of scripts that are made by chance, is put to those of the two that are on the path,
as a script of its own, until N models were judged, 500 if no number is given. A model is judged as it stands, and in
the form that docs/FORMATS.md says: elements are numbered in the order in which they come. A body, which may be any term
of the theories there, is computed at the arguments at which the assertions apply the symbol: these are the rows. What
the independent reading says of both texts is compared with what the program says.

It prints for each solver how many models were judged, how many of them are valid, how many as they stand, and with
which faults the others are refused. The status is 1 where the program and the reading differ, else 0.
"""

import argparse
import operator
import os
import random
import subprocess
import sys
import tempfile
from collections import Counter
from fractions import Fraction

sys.dont_write_bytecode = True  # so that the imports below leave no files here
sys.path.insert(0, os.path.join(os.path.dirname(os.path.abspath(__file__)), "compare"))
sys.setrecursionlimit(20_000)
sys.set_int_max_str_digits(0)

from commands import checks_of, read_script
from level_scripts import MAKERS, single_checks
from model_files import predict_validate
from model_rows import definition_text
from others import SECONDS, solvers
from reading import Fault, read_one
from terms import BOOL, REAL
from values import Exact

MODELS_ASKED = b"(set-option :produce-models true)\n"
LONGEST_SCRIPT = 100_000
COMPARED = {b"=": operator.eq, b"<": operator.lt, b"<=": operator.le, b">": operator.gt, b">=": operator.ge}


class Unread(Exception):
    """A model has something that is not read here."""


class ModelText:
    """A model as another solver prints it: bodies of symbols, and elements by their names."""

    def __init__(self, items):
        self.bodies, self.elements, self.counts = {}, {}, Counter()
        for kind, parts, _ in items:
            if kind != "list" or len(parts) < 2:
                raise Unread
            word = parts[0][1]
            if word == b"declare-fun":
                self.element(parts[1][1], parts[3][1])
            elif word == b"define-fun":
                self.bodies[parts[1][1]] = ([pair[1][0][1] for pair in parts[2][1]], parts[4])
            elif word not in (b"forall", b"declare-sort"):
                raise Unread

    def element(self, name, sort):
        """Returns the element of a sort that has a name."""
        if (name, sort) not in self.elements:
            self.elements[name, sort] = self.elements[name] = (sort, self.counts[sort])
            self.counts[sort] += 1
        return self.elements[name, sort]

    def applied(self, name, given):
        """Returns the value of a symbol at arguments."""
        parameters, body = self.bodies[name]
        return self.value(body, dict(zip(parameters, given)))

    def value(self, item, bound):
        """Returns the value of a body under the values of parameters."""
        kind, parts, _ = item
        if kind in ("num", "dec"):
            return Fraction(parts.decode())
        if kind == "list" and parts and parts[0][0] in ("sym", "res"):
            return self.of_list(parts[0][1], parts[1:], bound)
        if kind != "sym":
            raise Unread
        if parts in bound:
            return bound[parts]
        if parts in (b"true", b"false"):
            return parts == b"true"
        if parts in self.elements:
            return self.elements[parts]
        if parts in self.bodies:
            return self.applied(parts, [])
        sort, is_element, _ = parts.partition(b"!val!")
        if not is_element:
            raise Unread
        return self.element(parts, sort)

    def of_list(self, word, items, bound):
        """Returns the value of a list by its first word."""
        if word == b"as":
            return self.element(items[0][1], items[1][1])
        if word == b"let":
            more = {pair[1][0][1]: self.value(pair[1][1], bound) for pair in items[0][1]}
            return self.value(items[1], bound | more)
        if word == b"ite":
            return self.value(items[1] if self.value(items[0], bound) else items[2], bound)
        values = [self.value(item, bound) for item in items]
        if word in self.bodies:
            return self.applied(word, values)
        if word in COMPARED:
            return COMPARED[word](*values)
        if word in (b"not", b"and", b"or"):
            return Exact.of_core(word, values)
        if word in (b"+", b"-", b"*", b"/"):
            return Exact.of_reals(word, values)
        raise Unread


class Rows(dict):
    """The rows of a symbol, computed where they are asked for."""

    def __init__(self, model, name):
        super().__init__()
        self.model, self.name = model, name

    def get(self, given, default=None):
        """Returns the value at arguments, which is a row from then on; the default of a symbol that is left out."""
        if self.name not in self.model.bodies:
            return default
        if given not in self:
            self[given] = self.model.applied(self.name, given)
        return self[given]


def in_own_form(check, text):
    """Returns a model of another solver as a model file."""
    model = ModelText(read_one(text, 0)[0][1])
    usual = {BOOL: False, REAL: Fraction(0)}
    functions = {name: check.functions[name] for name in check.order}
    tables = {name: (Rows(model, name), usual.get(result, (result[0], 0))) for name, (_, result) in functions.items()}
    Exact(check.terms, tables).all(check.assertions)
    lines = []
    for name, (sorts, result) in functions.items():
        rows, default = tables[name]
        table = (dict(rows), default) if sorts else ({}, rows.get((), default))
        lines.append(b"  " + definition_text(name, sorts, result, table) + b"\n")
    return b"(\n" + b"".join(lines) + b")\n"


def model_of(words, script):
    """Returns the model that a solver prints for a script with one check, or None."""
    asked = MODELS_ASKED + script + b"(get-model)\n"
    try:
        done = subprocess.run(words, input=asked, capture_output=True, timeout=2 * SECONDS, check=False)
    except subprocess.TimeoutExpired:
        return None
    word, _, text = done.stdout.partition(b"\n")
    return text if word == b"sat" and b"(error" not in text else None


def some_scripts(paths):
    """Gives the scripts of the single checks of files, and then of scripts that are made by chance, without end."""
    for path in paths:
        with open(path, "rb") as file:
            text = file.read()
        if len(text) <= LONGEST_SCRIPT:
            yield from single_checks(text)
    while True:
        yield from single_checks(random.choice(MAKERS)())


class Judged:
    """How the models of one solver were judged."""

    def __init__(self, program, folder):
        self.program = program
        self.paths = [os.path.join(folder, name) for name in ("script", "model")]
        self.models = self.unread = self.valid = self.as_they_stand = self.differences = 0
        self.faults = Counter()

    def is_valid(self, script, model):
        """Judges a model file, by the program and by the independent reading; tells whether it is valid."""
        for path, text in zip(self.paths, (script, model)):
            with open(path, "wb") as out:
                out.write(text)
        done = subprocess.run([self.program, "validate", *self.paths], capture_output=True, check=False)
        wanted = predict_validate(script, 1, model)
        if (done.stdout, done.returncode) != wanted:
            self.differences += 1
            print(f"wanted {wanted!r}, got {done.stdout!r} {done.returncode}\n{script.decode()}\n{model.decode()}")
        return done.stdout

    def judge(self, script, text):
        """Judges a model as it stands, and in the form of model files."""
        self.models += 1
        said = self.is_valid(script, text)
        self.as_they_stand += said == b"valid\n"
        if said != b"valid\n":
            self.faults[said.split(b" ")[-1].rstrip(b'")\n').decode()] += 1
        try:
            model = in_own_form(checks_of(read_script(script)[0])[0], text)
        except (Unread, Fault, IndexError, ZeroDivisionError):
            self.unread += 1
            return
        self.valid += self.is_valid(script, model) == b"valid\n"


def main(given):
    """Judges models of both solvers; returns the status."""
    parser = argparse.ArgumentParser(description=__doc__, formatter_class=argparse.RawDescriptionHelpFormatter)
    parser.add_argument("program", metavar="PROGRAM")
    parser.add_argument("--models", type=int, default=500, metavar="N")
    parser.add_argument("--seed", type=int, default=1)
    parser.add_argument("scripts", nargs="*", metavar="SCRIPT")
    words = parser.parse_intermixed_args(given)
    random.seed(words.seed)
    with tempfile.TemporaryDirectory() as folder:
        judged = {name: Judged(os.path.abspath(words.program), folder) for name in solvers()}
        for script in some_scripts(words.scripts):
            for name, command in solvers().items():
                text = model_of(command, script)
                if text is not None:
                    judged[name].judge(script, text)
            if not judged or sum(one.models for one in judged.values()) >= words.models:
                break
    for name, one in judged.items():
        faults = ", ".join(f"{count} {fault}" for fault, count in one.faults.most_common())
        print(f"{name}: {one.models} models, {one.valid} valid, {one.unread} not read")
        print(f"{name}: as they stand {one.as_they_stand} valid, else {faults}")
    return int(any(one.differences for one in judged.values()))


if __name__ == "__main__":
    sys.exit(main(sys.argv[1:]))
