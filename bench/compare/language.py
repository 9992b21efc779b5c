"""Reads terms: sorts, functions, numbers, `let`, `!` and definitions, as SMT-LIB 2.6 has them.

It shares nothing with the program. What the standard leaves open is as in docs/DECISIONS.md: chains and `distinct` are
read as conjunctions of pairs, the first fault in the order of reading counts, and numbers end at 128 bits.
"""

from fractions import Fraction
from functools import cached_property

from models import Spent, find_model
from reading import THEORY, Fault
from terms import BOOL, GREATEST, REAL, Terms
from truths import Tables

# The options that are known, with what they are at first.
OPTIONS = {b":print-success": True} | {
    b":produce-" + kind: False for kind in (b"models", b"proofs", b"assertions", b"unsat-cores", b"unsat-assumptions")
}
OPTIONS[b":global-declarations"] = False
BOOL_HEADS = {b"not": (1, 1), b"and": (1, None), b"or": (1, None), b"xor": (2, None), b"=>": (2, None)}
REAL_HEADS = {b"-": 1, b"+": 1, b"*": 1, b"/": 2, b"<": 2, b"<=": 2, b">": 2, b">=": 2}


def is_name(item):
    """Tells whether an item may stand where a new name has to: a symbol, or a reserved word, which is refused later."""
    return item[0] in ("sym", "res")


def pairs_of(items):
    """Returns each item with the next."""
    return list(zip(items, items[1:]))


class Definition:
    """A name that stands for a term: its parameters with their sorts, and the term of its body."""

    def __init__(self, name, parameters, term):
        self.name = name
        self.parameters = parameters
        self.term = term


class Reader:
    """Reads the terms of one command of a script; the names that `:named` makes are known from there on."""

    # What a new name may not begin with, and the fault of a name for a term that there is already.
    KEPT_BYTES = (b"@", b".")
    KNOWN = b"Twice"

    def __init__(self, state, own=None, may_name=True):
        self.state = state
        self.terms = state.terms
        self.own = own
        self.may_name = may_name
        self.made = {}

    def known(self, name):
        """Returns what a function's name is, or None."""
        return self.made.get(name) or self.state.functions.get(name)

    def new_name(self, item, is_taken, fault=b"Twice"):
        """Returns the name of an item that has to be new, or raises that it is there, as this fault."""
        kind, name, start = item
        if kind == "res" or name[:1] in self.KEPT_BYTES:
            raise Fault(start, b"Reserved")
        if name in THEORY or is_taken(name):
            raise Fault(start, fault)
        return name

    def name_for_term(self, item):
        """Returns the name of an item that is declared, defined, or given to a term, and new."""
        return self.new_name(item, lambda name: self.known(name) is not None or name == self.own, self.KNOWN)

    def literal(self, item):
        """Returns the term of a numeral or a decimal."""
        whole, _, behind = item[1].partition(b".")
        behind = behind.rstrip(b"0")
        if int(whole + behind) > GREATEST or len(behind) > 38:
            raise Fault(item[2], b"NumberWide")
        return self.terms.make(("number", Fraction(int(whole + behind), 10 ** len(behind))), (), REAL)

    def atom(self, bound, item):
        """Returns the term of an atom."""
        kind, name, start = item
        if kind in ("num", "dec"):
            return self.literal(item)
        if kind == "res":
            raise Fault(start, b"Reserved")
        if kind != "sym":
            raise Fault(start, b"BadShape")
        return self.applied(bound, name, start, start, [])

    def term(self, bound, item):
        """Returns the term of an item, under the terms of bound names."""
        kind, parts, start = item
        if kind != "list":
            return self.atom(bound, item)
        if len(parts) < 2:
            raise Fault(start, b"BadShape")
        head_kind, head, head_start = parts[0]
        if head_kind == "res":
            if head == b"let":
                return self.let(bound, item)
            if head == b"!":
                return self.annotated(bound, item)
            raise Fault(head_start, b"Reserved")
        if head_kind != "sym":
            raise Fault(start, b"BadShape")
        given = [self.term(bound, part) for part in parts[1:]]
        return self.applied(bound, head, head_start, start, given)

    def let(self, bound, item):
        """Returns the term of a `let`, whose bindings do not see each other."""
        _, parts, start = item
        if len(parts) != 3 or parts[1][0] != "list" or not parts[1][1] or not self.are_pairs(parts[1][1]):
            raise Fault(start, b"BadShape")
        here = {}
        for _, (name, text), _ in parts[1][1]:
            new = self.new_name(name, lambda n: n in here)
            here[new] = self.term(bound, text)
        return self.term({**bound, **here}, parts[2])

    @staticmethod
    def are_pairs(items):
        """Tells whether each item is a list of a name and one item more."""
        return all(kind == "list" and len(parts) == 2 and is_name(parts[0]) for kind, parts, _ in items)

    def annotated(self, bound, item):
        """Returns the term before attributes, after the names that these give it."""
        _, parts, start = item
        names = self.names_given(parts[2:], start)
        term = self.term(bound, parts[1])
        for name in names:
            new = self.name_for_term(name)
            if not self.may_name or free_names(parts[1]) & set(bound):
                raise Fault(start, b"BadShape")
            self.made[new] = Definition(new, (), term)
        return term

    @staticmethod
    def names_given(attributes, start):
        """Returns the names after `:named` among attributes, or raises that their shape is none."""
        names, wanted = [], "keyword"
        for item in attributes:
            if wanted == "name":
                if not is_name(item):
                    raise Fault(start, b"BadShape")
                names.append(item)
                wanted = "keyword"
            elif item[0] == "kw":
                wanted = "name" if item[1] == b":named" else "value"
            elif wanted == "value":
                wanted = "keyword"
            else:
                raise Fault(start, b"BadShape")
        if not attributes or wanted == "name":
            raise Fault(start, b"BadShape")
        return names

    def applied(self, bound, name, place, start, given):
        """Returns the term of a name before terms: bound, of a theory, declared, defined, or unknown."""
        if name in bound:
            return self.with_sorts([], start, given, lambda: bound[name])
        if name in THEORY:
            return self.of_theory(name, start, given)
        known = self.known(name)
        if known is None:
            raise Fault(place, b"UnknownSymbol")
        if isinstance(known, Definition):
            sorts = [sort for _, sort in known.parameters]
            return self.with_sorts(sorts, start, given, lambda: self.terms.filled(known.term, given))
        sorts, result = known
        return self.with_sorts(sorts, start, given, lambda: self.terms.make(("symbol", name), given, result))

    def with_sorts(self, sorts, start, given, made):
        """Returns what is made where the terms have these sorts, in their order."""
        if len(sorts) != len(given):
            raise Fault(start, b"WrongCount")
        if list(sorts) != [self.terms.sorts[t] for t in given]:
            raise Fault(start, b"WrongSort")
        return made()

    def of_theory(self, head, start, given):
        """Returns the term that a theory's head before terms is read as."""
        sorts = [self.terms.sorts[t] for t in given]
        count = len(given)
        if head in (b"true", b"false"):
            return self.with_sorts([], start, given, lambda: self.terms.make(head))
        if head == b"ite":
            if count != 3:
                raise Fault(start, b"WrongCount")
            if sorts[0] != BOOL or sorts[1] != sorts[2]:
                raise Fault(start, b"WrongSort")
            return self.terms.make(head, given, sorts[1])
        if head in (b"=", b"distinct"):
            least, most, wanted = 2, None, sorts[:1]
        elif head in BOOL_HEADS:
            (least, most), wanted = BOOL_HEADS[head], [BOOL]
        else:
            least, most, wanted = REAL_HEADS[head], None, [REAL]
        if count < least or (most is not None and count > most):
            raise Fault(start, b"WrongCount")
        if sorts != wanted * count:
            raise Fault(start, b"WrongSort")
        if head in REAL_HEADS:
            return self.of_reals(head, start, given)
        return self.of_core(head, given)

    def of_core(self, head, given):
        """Returns the term of a head of theory Core whose arguments fit."""
        make = self.terms.make
        if head == b"=":
            return self.terms.conjunction([make(b"=", pair) for pair in pairs_of(given)])
        if head == b"distinct":
            apart = [(t, u) for at, t in enumerate(given) for u in given[at + 1 :]]
            return self.terms.conjunction([make(b"not", [make(b"=", pair)]) for pair in apart])
        if head == b"xor":
            return self.left(head, given, BOOL)
        if head == b"=>":
            term = given[-1]
            for argument in reversed(given[:-1]):
                term = make(head, [argument, term])
            return term
        return make(head, given)

    def of_reals(self, head, start, given):
        """Returns the term of a head of theory Reals whose arguments fit, where it is linear."""
        make, terms = self.terms.make, self.terms
        if head == b"*" and sum(not terms.is_constant(t) for t in given) > 1:
            raise Fault(start, b"NotLinear")
        if head == b"/":
            if not all(terms.is_divisor(t) for t in given[1:]):
                raise Fault(start, b"NotLinear")
            if any(terms.is_zero(t) for t in given[1:]):
                raise Fault(start, b"ZeroDivisor")
        if head in (b"<", b"<="):
            return terms.conjunction([make(head, pair) for pair in pairs_of(given)])
        if head in (b">", b">="):
            turned = b"<" if head == b">" else b"<="
            return terms.conjunction([make(turned, (u, t)) for t, u in pairs_of(given)])
        if head == b"/" or (head == b"-" and len(given) > 1):
            return self.left(head, given, REAL)
        return make(head, given, REAL)

    def left(self, head, given, sort):
        """Returns the terms taken two by two, from the left."""
        term = given[0]
        for argument in given[1:]:
            term = self.terms.make(head, (term, argument), sort)
        return term


def free_names(item):
    """Returns the symbols that occur free in the text of a term."""
    kind, parts, _ = item
    if kind != "list":
        return {parts} if kind == "sym" else set()
    if parts and parts[0][0] == "res":
        if parts[0][1] == b"!":
            return free_names(parts[1])
        names = set().union(*(free_names(binding[1][1]) for binding in parts[1][1]))
        return names | (free_names(parts[2]) - {binding[1][0][1] for binding in parts[1][1]})
    return set().union(*map(free_names, parts))


class State:
    """What a script has stated: sorts and functions by name, assertions, levels, options, and whether it has begun.

    `written` has the items of the assertions, `literals` those that the last check assumes, and `asked` is that check, where nothing was
    stated after it.
    """

    def __init__(self, limit):
        self.limit = limit
        self.terms = Terms()
        self.forget_all()

    def forget_all(self):
        """Takes back all that was stated, as `reset` does."""
        self.options = dict(OPTIONS)
        self.has_begun = False
        self.forget_assertions()

    def forget_assertions(self):
        """Takes back assertions, levels, and names that are not global, as `reset-assertions` does."""
        if not self.options[b":global-declarations"]:
            self.sorts, self.functions = {}, {}
        self.assertions, self.written, self.literals, self.levels = [], [], [], []
        self.asked = None

    def open_levels(self, count):
        """Opens so many levels: of each what was there before it is kept."""
        here = dict(self.sorts), dict(self.functions), list(self.assertions), list(self.written)
        self.levels += [here] * count

    def close_levels(self, count):
        """Closes so many levels: what was there before the lowest of them is there again, and names that are global stay."""
        if count:
            sorts, functions, assertions, written = self.levels[-count]
            if not self.options[b":global-declarations"]:
                self.sorts, self.functions = dict(sorts), dict(functions)
            self.assertions, self.written = list(assertions), list(written)
            del self.levels[-count:]

    def sort(self, item):
        """Returns the sort of an item."""
        kind, name, start = item
        if kind == "list":
            raise Fault(start, b"UnknownSort")
        if kind == "res":
            raise Fault(start, b"Reserved")
        if kind != "sym":
            raise Fault(start, b"BadShape")
        if name in (b"Bool", b"Real"):
            return (name,)
        if name not in self.sorts:
            raise Fault(start, b"UnknownSort")
        return self.sorts[name]

    def reader(self, own=None, may_name=True):
        """Returns a reader of terms for one command, which may define a name of its own, and name terms."""
        return Reader(self, own, may_name)

    def at_check(self, assumed):
        """Returns what is current now, at a check that assumes terms, apart from what later commands state."""
        return Check(self, assumed)

    def propositions(self):
        """Returns the names of sort Bool without parameters, declared and defined."""
        return [name for name, known in self.functions.items() if self.is_proposition(known)]

    def is_proposition(self, known):
        """Tells whether what a name is has no parameters, and the sort Bool."""
        if isinstance(known, Definition):
            return not known.parameters and self.terms.sorts[known.term] == BOOL
        return known == ([], BOOL)

    def new_function(self, item):
        """Returns a name that no function and no theory has."""
        return self.reader().name_for_term(item)

    def new_sort(self, item):
        """Returns a name that no sort has."""
        kind, name, start = item
        if kind == "res" or name[:1] in (b"@", b"."):
            raise Fault(start, b"Reserved")
        if name in (b"Bool", b"Real") or name in self.sorts:
            raise Fault(start, b"Twice")
        return name

    def require_room(self, start, names, terms=()):
        """Raises that there are too many names, or too many different subterms."""
        live = len(self.sorts) + len(self.functions) + names
        if live > self.limit or len(self.terms.below(terms)) > self.limit:
            raise Fault(start, b"Full")


class Check(State):
    """What is current at a check: what it asks about, its declared symbols in their order, and its answer.

    Its assertions are those of all levels, and after them what the check assumes; `places` has the offset of each in the script.
    `stated` and `supposed` have the two as they are written.
    """

    def __init__(self, state, assumed):
        super().__init__(state.limit)
        self.terms = state.terms
        self.sorts, self.functions = dict(state.sorts), dict(state.functions)
        self.assertions = [*state.assertions, *assumed]
        self.stated, self.supposed = list(state.written), list(state.literals)
        self.places = [item[2] for item in (*self.stated, *self.supposed)]
        self.order = [name for name, known in self.functions.items() if not isinstance(known, Definition)]

    @cached_property
    def has_numbers(self):
        """Tells whether an assertion has a term of sort Real."""
        return self.terms.have_numbers(self.assertions)

    @property
    def is_open(self):
        """Tells whether it is not known if there is a model."""
        return self.is_satisfiable is None

    @property
    def is_over_truths(self):
        """Tells whether truth tables decide the assertions."""
        return self.terms.are_over_truths(self.assertions)

    @cached_property
    def is_satisfiable(self):
        """Tells whether the assertions have a model.

        It is None where they have numbers, and where it was too much to try.
        """
        if self.has_numbers:
            return None
        if self.is_over_truths:
            tables = Tables(self.terms, self.assertions)
            rows = tables.all_true
            for assertion in self.assertions:
                rows &= tables.known[assertion]
            return rows != 0
        try:
            return find_model(self.terms, self.assertions) is not None
        except Spent:
            return None
