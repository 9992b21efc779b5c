"""Tells what is next in a text that comes in pieces, as soon as it is next in each text that goes on so.

It is plain and slow, and follows docs/FORMATS.md alone: it tries what may come. What is next is the same in every text that
goes on so where it is the same in those that are tried: the text itself, and the text with a few bytes more, of which one
goes on with each kind of token, one ends it, and one makes a fault of it.
"""

from commands import answer_to
from language import State
from reading import Fault, read_one

ITEM, FAULT, MORE, DONE = "item", "fault", "more", "done"
TEXT_LIMIT = 2**30
CONTINUATIONS = (b"", b"a", b"\na", b" ", b"0", b'"', b"|", b"(", b")", b"\n", b";", b":", b".", b"\\", b"\0", b" \0", b'a"', b"\0|")
# What stands in the place of the missing end of a text that is longer than is read.
UNENDED = (b"UnclosedString", b"UnclosedQuote", b"UnclosedList")


def next_in(text, at, is_cut=False):
    """Returns what is next in a whole text from `at` on, or in one that has more bytes than are read.

    It is an item with the offset behind it, a fault with its offset and name, or the end.
    """
    try:
        found = read_one(text, at)
    except Fault as fault:
        if is_cut and fault.name in UNENDED:
            return FAULT, len(text), b"TooLong"
        return FAULT, fault.offset, fault.name
    if found is None:
        return (FAULT, len(text), b"TooLong") if is_cut else (DONE,)
    return (ITEM, *found)


def take(data, at, is_closed, limit=TEXT_LIMIT):
    """Returns what is next from `at` on, where these bytes came and no more come, or more may come.

    It is an item, a fault or the end, as in a whole text, or that more has to come. Of the bytes the first `limit` are read.
    """
    if len(data) > limit:
        return next_in(data[:limit], at, True)
    if is_closed:
        return next_in(data, at)
    first = next_in(data + CONTINUATIONS[0], at)
    if any(next_in(data + more, at) != first for more in CONTINUATIONS[1:]):
        return (MORE,)
    return first


class Taken:
    """The commands of a text that comes in pieces: how many answers are due by the bytes that came, and whether it is over."""

    def __init__(self):
        self.data = b""
        self.at = 0
        self.state = State(2**24)
        self.answers = 0
        self.is_over = False

    def feed(self, piece):
        """Takes all commands that are there once a piece came."""
        self.data += piece
        self.take_all(False)

    def close(self):
        """Takes what is left where no more comes."""
        self.take_all(True)

    def take_all(self, is_closed):
        """Takes commands until more has to come, or the text is over: by its end, by `exit` or by a fault."""
        while not self.is_over:
            kind, *found = take(self.data, self.at, is_closed)
            if kind == MORE:
                return
            if kind == ITEM:
                item, self.at = found
                answer, self.is_over = answer_to(self.state, self.data, item)
                self.answers += answer is not None
            else:
                self.answers += kind == FAULT
                self.is_over = True
