"""Writes trees of texts in the layouts in which they can be written, and damages texts.

A tree is ("symbol", name), ("raw", text), or ("row", list of trees). The caller seeds `random`.
"""

import random
import re

from reading import Fault, printed_name, read_one

ODD_NAMES = b"""p q r s a b x1 Bool Real U -x <=> ~ % ? cl assume step unsat success assert let ! _ par as exit
define-fun 1a 0 ;c ( ) " :k h1 t1 p1 == +1 trUe AND & $ a@ a. # resolution '""".split()
ODD_NAMES += [b"", b"a b", b"x\ny", b"\xc3\xa9", b"\x00", b"\t", b"a\r", b"p q", b"\xff", b"a\n(check-sat)"]
INSERTED = b"""( ) | " ; \\ \x00 \xff \x80 : . 0 1 @ ! _ { # ' , ` \x7f a () "" || (check-sat)""".split(b" ")
INSERTED += [b"\t", b"\n", b"\r", b" ", b"\x0b", b"\x0c", b" let ", b" true "]
PIECES = re.compile(rb'\|[^|]*\||"[^"]*"|[()]|[^\s()|"]+|\s+')


def symbol(name):
    """Returns the tree of a symbol."""
    return ("symbol", name)


def raw(text):
    """Returns the tree of a text that is written as it is."""
    return ("raw", text)


def row(*trees):
    """Returns the tree of a list."""
    return ("row", list(trees))


def separator():
    """Returns what stands between two items, mostly one blank."""
    if random.random() < 0.85:
        return b" "
    comments = [b" ;c\n", b' ; (x "|\r', b";\n", b" ;\xff\x00\n"]
    return random.choice([b"  ", b"\n", b"\t", b"\r", b"\r\n", b"\n\n", *comments])


def seldom_separator():
    """Returns what stands where nothing needs to."""
    return b"" if random.random() < 0.9 else separator()


def may_touch(left, right):
    """Tells whether two texts stay two items with nothing between them."""
    if left[-1:] == b'"' and right[:1] == b'"':
        return False
    return left[-1:] in b')"|' or right[:1] in b'("|'


def written(tree):
    """Writes a tree, with separators and bars by chance."""
    kind, value = tree
    if kind == "raw":
        return value
    if kind == "symbol":
        name = printed_name(value)
        return b"|" + value + b"|" if name == value and random.random() < 0.12 else name
    result = b"(" + seldom_separator()
    before = None
    for text in map(written, value):
        if before is not None and not (may_touch(before, text) and random.random() < 0.15):
            result += separator()
        result += text
        before = text
    return result + seldom_separator() + b")"


def plainly_written(tree):
    """Writes a tree as the program would."""
    kind, value = tree
    if kind == "row":
        return b"(" + b" ".join(map(plainly_written, value)) + b")"
    return printed_name(value) if kind == "symbol" else value


def tree_of_item(item):
    """Returns the tree of an item that was read."""
    kind, value, _ = item
    if kind == "list":
        return row(*map(tree_of_item, value))
    return symbol(value) if kind == "sym" else raw(value)


def trees_of(text):
    """Returns the trees of a text that can be read, or None."""
    trees, at = [], 0
    try:
        while (found := read_one(text, at)) is not None:
            item, at = found
            trees.append(tree_of_item(item))
    except Fault:
        return None
    return trees


def copied(tree):
    """Returns a copy that can be changed alone."""
    kind, value = tree
    return (kind, list(map(copied, value))) if kind == "row" else tree


def replaced(tree, old, new):
    """Returns the tree with each occurrence of `old` replaced."""
    if tree == old:
        return copied(new)
    kind, value = tree
    return (kind, [replaced(part, old, new) for part in value]) if kind == "row" else tree


def laid_out(text, names):
    """Writes a text in another layout, two of the names replaced by odd ones; one that cannot be read is kept."""
    trees = trees_of(text)
    if trees is None:
        return text
    for old in random.sample(names, 2):
        new = symbol(random.choice(ODD_NAMES))
        trees = [replaced(tree, symbol(old), new) for tree in trees]
    return seldom_separator() + b"".join(written(tree) + random.choice([b"\n", separator()]) for tree in trees)


def damage_pieces(text):
    """Exchanges, copies or drops a piece of the text."""
    pieces = PIECES.findall(text)
    if b"".join(pieces) != text or len(pieces) < 2:
        return text
    one = random.randrange(len(pieces))
    other = random.randrange(len(pieces))
    choice = random.random()
    if choice < 0.4:
        pieces[one], pieces[other] = pieces[other], pieces[one]
    elif choice < 0.7:
        pieces[one] = pieces[other]
    elif choice < 0.85:
        del pieces[one]
    else:
        pieces.insert(one, pieces[other])
    return b"".join(pieces)


def damage_once(text):
    """Changes the text, which is not empty, at one place."""
    choice = random.random()
    at = random.randrange(len(text))
    if choice < 0.15:
        return text[:at] + text[at + 1 :]
    if choice < 0.22:
        return text[:at] + text[at + random.randint(1, 8) :]
    if choice < 0.40:
        return text[:at] + random.choice(INSERTED) + text[at:]
    if choice < 0.50:
        return text[:at] + random.choice(INSERTED) + text[at + 1 :]
    if choice < 0.55:
        other = random.randrange(len(text))
        changed = bytearray(text)
        changed[at], changed[other] = changed[other], changed[at]
        return bytes(changed)
    if choice < 0.60:
        return text[:at] + bytes([random.randrange(256)]) + text[at + 1 :]
    if choice < 0.65:
        places = [found.start() for found in re.finditer(rb"[()]", text)] or [at]
        at = random.choice(places)
        return text[:at] + text[at + 1 :]
    if choice < 0.90:
        return damage_pieces(text)
    if choice < 0.95:
        return text[:at]
    end = min(len(text), at + random.randint(1, 30))
    return text[:end] + text[at:end] + text[end:]


def damaged(text, times=None):
    """Changes the text at one place or several."""
    for _ in range(times or random.choice([1, 1, 1, 2, 3, 5])):
        if text:
            text = damage_once(text)
    return text
