"""Finds models of assertions over symbols of sort Bool and of declared sorts, by trying values.

What a symbol gives at arguments is an *entry*. An evaluation in three values, where `None` is open, says which entry an
open assertion needs next. That entry is given each value in turn: of sort Bool the two, of a declared sort the elements
that were used by then and one more. Elements are alike, so this misses no model: where the search ends without one,
there is none. It shares nothing with the program, which closes equalities under congruence.
"""

from terms import BOOL

MOST_NODES = 400


class Spent(Exception):
    """The search had more nodes than it may have."""


def conjunction(values):
    """Returns the conjunction of values, each of which may be open."""
    if False in values:
        return False
    return None if None in values else True


def negated(value):
    """Returns the other truth value, or open."""
    return None if value is None else not value


def chosen(values):
    """Returns what `ite` gives: the same of both sides is known without the condition."""
    condition, then, other = values
    if condition is None:
        return then if then == other else None
    return then if condition else other


def core_value(head, given, values):
    """Returns what a head of theory Core gives; an equality of one term with itself is true, whatever its value."""
    if head in (b"true", b"false"):
        return head == b"true"
    if head == b"not":
        return negated(values[0])
    if head == b"and":
        return conjunction(values)
    if head == b"or":
        return negated(conjunction([negated(value) for value in values]))
    if head == b"=>":
        return negated(conjunction([values[0], negated(values[1])]))
    if head == b"ite":
        return chosen(values)
    is_equal = True if given[0] == given[1] else None if None in values else values[0] == values[1]
    return is_equal if head == b"=" else negated(is_equal)


class Search:
    """A search for entries that make all assertions true."""

    def __init__(self, terms, roots, most):
        self.terms = terms
        self.roots = list(dict.fromkeys(roots))
        self.below = terms.below(self.roots)
        self.left = most
        self.entries = {}

    def values(self):
        """Returns the values of all subterms under the entries so far."""
        known = {}
        for number in self.below:
            head, given = self.terms.nodes[number]
            values = [known[t] for t in given]
            if head[0] == "symbol":
                known[number] = None if None in values else self.entries.get((head[1], *values))
            else:
                known[number] = core_value(head, given, values)
        return known

    def needed(self, number, known):
        """Returns the symbol term below an open term whose entry is to be tried next."""
        while True:
            head, given = self.terms.nodes[number]
            inner = [t for t in given if known[t] is None]
            if not inner:
                return number
            if head == b"ite" and known[given[0]] is not None:
                number = given[1] if known[given[0]] else given[2]
            else:
                number = inner[0]

    def candidates(self, sort):
        """Returns the values that an entry of a sort may be given."""
        if sort == BOOL:
            return [False, True]
        used = [value[1] for value in self.entries.values() if isinstance(value, tuple) and value[0] == sort[0]]
        return [(sort[0], number) for number in range(max(used, default=-1) + 2)]

    def succeeds(self):
        """Tells whether the entries so far can be extended to a model; they are one then."""
        self.left -= 1
        if self.left < 0:
            raise Spent
        known = self.values()
        truths = [known[root] for root in self.roots]
        if False in truths:
            return False
        if None not in truths:
            return True
        term = self.needed(self.roots[truths.index(None)], known)
        head, given = self.terms.nodes[term]
        key = (head[1], *(known[t] for t in given))
        for value in self.candidates(self.terms.sorts[term]):
            self.entries[key] = value
            if self.succeeds():
                return True
            del self.entries[key]
        return False


def find_model(terms, roots, most=MOST_NODES):
    """Returns entries that make the terms true, or None where there are none; raises that it was too much to try."""
    search = Search(terms, roots, most)
    return search.entries if search.succeeds() else None


def tables_of(entries, tables):
    """Returns tables for symbols in which the entries stand, and what `tables` has for the rest."""
    made = dict(tables)
    for (name, *given), value in entries.items():
        rows, default = made[name]
        made[name] = ({**rows, tuple(given): value}, default) if given else ({}, value)
    return made
