"""Reads texts into s-expressions as docs/FORMATS.md says, which follows SMT-LIB 2.6, chapter 3.

A token is (kind, value, start, end), and an item (kind, value, start). The kinds are `sym`, `res` (a reserved word),
`num`, `dec`, `str`, `kw`, and of tokens the two parentheses; an item of kind `list` has the list of its items as value.
Texts are bytes, and places in them are offsets from 0.
"""

RESERVED = set(b"""! _ as BINARY DECIMAL exists HEXADECIMAL forall let match NUMERAL par STRING
assert check-sat check-sat-assuming declare-const declare-datatype declare-datatypes declare-fun declare-sort define-fun
define-fun-rec define-funs-rec define-sort echo exit get-assertions get-assignment get-info get-model get-option
get-proof get-unsat-assumptions get-unsat-core get-value pop push reset reset-assertions set-info set-logic
set-option""".split())
THEORY = set(b"true false not and or xor => = distinct ite - + * / < <= > >=".split())
SYMBOL_BYTES = set(b"abcdefghijklmnopqrstuvwxyzABCDEFGHIJKLMNOPQRSTUVWXYZ0123456789~!@$%^&*_-+=<>.?/")
DIGITS = set(b"0123456789")
BLANKS = set(b"\t\n\r ")


class Fault(Exception):
    """The first fault of a text, at an offset, with the name that is printed."""

    def __init__(self, offset, name):
        super().__init__(name)
        self.offset = offset
        self.name = name


def place_of(text, offset):
    """Returns the line and the column of an offset, both from 1; columns are in bytes."""
    return 1 + text.count(b"\n", 0, offset), offset - text.rfind(b"\n", 0, offset)


def error_line(text, fault):
    """Returns the printed line of a fault."""
    return b'(error "%d:%d: %s")\n' % (*place_of(text, fault.offset), fault.name)


def printed_name(name):
    """Returns a symbol as the program prints it, in bars where it has to be."""
    if name and name[0] not in DIGITS and all(byte in SYMBOL_BYTES for byte in name) and name not in RESERVED:
        return name
    return b"|" + name + b"|"


def behind_blanks(text, at):
    """Returns the first offset from `at` on that is in no blank and in no comment."""
    while at < len(text):
        if text[at] in BLANKS:
            at += 1
        elif text[at : at + 1] == b";":
            while at < len(text) and text[at] not in b"\n\r":
                at += 1
        else:
            break
    return at


def behind(text, at, allowed):
    """Returns the first offset from `at` on whose byte is not allowed."""
    while at < len(text) and text[at] in allowed:
        at += 1
    return at


def string_token(text, start):
    """Reads a string; two quotes in it stand for one."""
    at = start + 1
    while at < len(text):
        if text[at : at + 2] == b'""':
            at += 2
        elif text[at : at + 1] == b'"':
            return "str", text[start : at + 1], start, at + 1
        else:
            at += 1
    raise Fault(start, b"UnclosedString")


def quoted_token(text, start):
    """Reads a symbol in bars; its name is what stands between them."""
    for at in range(start + 1, len(text)):
        if text[at : at + 1] == b"|":
            return "sym", text[start + 1 : at], start, at + 1
        if text[at : at + 1] == b"\\":
            raise Fault(at, b"BadChar")
    raise Fault(start, b"UnclosedQuote")


def number_token(text, start):
    """Reads a numeral or a decimal; no byte of a symbol may follow it."""
    at = start + 1
    if text[start : start + 1] != b"0":
        at = behind(text, at, DIGITS)
    kind = "num"
    if text[at : at + 1] == b".":
        end = behind(text, at + 1, DIGITS)
        if end == at + 1:
            raise Fault(at, b"BadChar")
        at = end
        kind = "dec"
    if at < len(text) and text[at] in SYMBOL_BYTES:
        raise Fault(at, b"BadChar")
    return kind, text[start:at], start, at


def token(text, at):
    """Returns the first token from `at` on, or None at the end of the text."""
    start = behind_blanks(text, at)
    if start >= len(text):
        return None
    first = text[start : start + 1]
    if first in (b"(", b")"):
        return first.decode(), None, start, start + 1
    if first == b'"':
        return string_token(text, start)
    if first == b"|":
        return quoted_token(text, start)
    if first == b":":
        end = behind(text, start + 1, SYMBOL_BYTES)
        if end == start + 1:
            raise Fault(start, b"BadChar")
        return "kw", text[start:end], start, end
    if text[start] in DIGITS:
        return number_token(text, start)
    if text[start] in SYMBOL_BYTES:
        end = behind(text, start, SYMBOL_BYTES)
        word = text[start:end]
        return "res" if word in RESERVED else "sym", word, start, end
    raise Fault(start, b"BadChar")


def read_one(text, at):
    """Returns the first item from `at` on and the offset behind it, or None."""
    open_lists = []
    while True:
        found = token(text, at)
        if found is None:
            if not open_lists:
                return None
            raise Fault(len(text), b"UnclosedList")
        kind, value, start, at = found
        if kind == "(":
            open_lists.append(("list", [], start))
            continue
        item = (kind, value, start)
        if kind == ")":
            if not open_lists:
                raise Fault(start, b"StrayClose")
            item = open_lists.pop()
        if not open_lists:
            return item, at
        open_lists[-1][1].append(item)
