"""Performs what a script asks beside its checks: `get-model`, `get-value`, `get-proof`, `get-assertions`, `get-option`,
`get-info`, and what a proof rests on: `get-unsat-core` and `get-unsat-assumptions`.

What depends on a check is a `Question`: it is answered once it is known what was found there.
"""

from typing import NamedTuple

from cores import core, used
from language import Check
from printed_proofs import printed
from reading import Fault, printed_name
from values import Overflow, Values

SAT, UNSAT, UNKNOWN = b"sat\n", b"unsat\n", b"unknown\n"
INFOS = {
    b":name": b'"smt_cli"',
    b":version": b'"1.0"',
    b":authors": b'"the smt_cli team"',
    b":error-behavior": b"continued-execution",
}


def shown_value(value):
    """Returns a value as the program prints it."""
    if isinstance(value, bool):
        return b"true" if value else b"false"
    if isinstance(value, tuple):
        return b"(as @e%d %s)" % (value[1], printed_name(value[0]))
    whole = b"%d" % value.numerator if value >= 0 else b"(- %d)" % -value.numerator
    return whole if value.denominator == 1 else b"(/ %s %d)" % (whole, value.denominator)


class Question(NamedTuple):
    """A question about the last check, with the answer of it that it needs; of `get-value` the items and their terms."""

    word: bytes
    start: int
    check: Check
    needs: bytes
    is_enabled: bool
    items: tuple = ()
    terms: tuple = ()
    is_full: bool = False

    def answer(self, found):
        """Returns what is answered, or nothing where what was found is not known; raises its first fault."""
        if found.line != self.needs:
            raise Fault(self.start, b"WrongMode")
        if not self.is_enabled:
            raise Fault(self.start, b"NotEnabled")
        if self.is_full:
            raise Fault(self.start, b"Full")
        if found.text is None:
            return None
        if self.word == b"get-value":
            return self.values(found.tables)
        if self.word == b"get-unsat-core":
            return b"(" + b" ".join(map(printed_name, core(self.check, found.text))) + b")\n"
        if self.word == b"get-unsat-assumptions":
            return b"(" + b" ".join(map(printed, used(self.check, found.text))) + b")\n"
        return b"(:reason-unknown " + found.text[:-1] + b")\n" if self.word == b"get-info" else found.text

    def values(self, tables):
        """Returns the terms with their values under tables for the symbols."""
        values, pairs = Values(self.check.terms, tables), []
        for item, term in zip(self.items, self.terms):
            try:
                value = values.of(term)
            except Overflow as overflow:
                raise Fault(item[2], b"ValueWide") from overflow
            pairs.append(b"(" + printed(item) + b" " + shown_value(value) + b")")
        return b"(" + b" ".join(pairs) + b")\n"


def question(state, word, start, needs, is_enabled, **given):
    """Returns a question about the last check, or raises that there was none since something was stated."""
    if state.asked is None:
        raise Fault(start, b"WrongMode")
    return Question(word, start, state.asked, needs, is_enabled, **given)


def plain(word, mode, option):
    """Gives what performs a question that is a word alone, in a mode and with an option."""

    def perform(state, parts, start):
        if len(parts) != 1:
            raise Fault(start, b"BadShape")
        return question(state, word, start, mode, state.options[option])

    return perform


def get_value(state, parts, start):
    """Performs `get-value`; its terms cannot be named."""
    if len(parts) != 2 or parts[1][0] != "list" or not parts[1][1]:
        raise Fault(start, b"BadShape")
    items = tuple(parts[1][1])
    reader = state.reader(may_name=False)
    terms = tuple(reader.term({}, item) for item in items)
    is_full = len(state.terms.below(terms)) > state.limit
    is_enabled = state.options[b":produce-models"]
    return question(state, b"get-value", start, SAT, is_enabled, items=items, terms=terms, is_full=is_full)


def get_assertions(state, parts, start):
    """Performs `get-assertions`."""
    if len(parts) != 1:
        raise Fault(start, b"BadShape")
    if not state.options[b":produce-assertions"]:
        raise Fault(start, b"NotEnabled")
    return b"(" + b" ".join(map(printed, state.written)) + b")\n"


def key_of(parts, start):
    """Returns the keyword of `get-option` or `get-info`, which has to be alone."""
    if len(parts) != 2 or parts[1][0] != "kw":
        raise Fault(start, b"BadShape")
    return parts[1][1]


def get_option(state, parts, start):
    """Performs `get-option`."""
    value = state.options.get(key_of(parts, start))
    return "unsupported" if value is None else b"true\n" if value else b"false\n"


def get_info(state, parts, start):
    """Performs `get-info`."""
    key = key_of(parts, start)
    if key == b":reason-unknown":
        return question(state, b"get-info", start, UNKNOWN, True)
    if key == b":assertion-stack-levels":
        return b"(:assertion-stack-levels %d)\n" % len(state.levels)
    return b"(%s %s)\n" % (key, INFOS[key]) if key in INFOS else "unsupported"


QUESTIONS = {
    b"get-model": plain(b"get-model", SAT, b":produce-models"),
    b"get-proof": plain(b"get-proof", UNSAT, b":produce-proofs"),
    b"get-unsat-core": plain(b"get-unsat-core", UNSAT, b":produce-unsat-cores"),
    b"get-unsat-assumptions": plain(b"get-unsat-assumptions", UNSAT, b":produce-unsat-assumptions"),
    b"get-value": get_value,
    b"get-assertions": get_assertions,
    b"get-option": get_option,
    b"get-info": get_info,
}
