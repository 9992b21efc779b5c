"""Judges Alethe proofs, as docs/FORMATS.md, docs/ALETHE.md and docs/DECISIONS.md say.

A proof's terms are read as those of its script, with the names that the proof defines before them. Names may begin with
`@` or `.` there. A name that `:named` gives is known after it, in the same command and in those that follow.
"""

from typing import NamedTuple

from defining import define_fun
from language import Definition, Reader, State
from proof_texts import step_parts, take_all
from reading import Fault
from rules import RULES, follows
from terms import BOOL
from values import Overflow


class ProofReader(Reader):
    """Reads the terms of one command of a proof."""

    KEPT_BYTES = ()
    KNOWN = b"TwiceName"


class Names(State):
    """What a check's script and a proof have made known: sorts, functions, and definitions of both."""

    def __init__(self, check):
        super().__init__(check.limit)
        self.terms = check.terms
        self.sorts, self.functions = dict(check.sorts), dict(check.functions)

    def reader(self, own=None, may_name=True):
        """Returns a reader of terms for one command, which may define a name of its own, and name terms."""
        return ProofReader(self, own, may_name)

    def is_declared(self, name):
        """Tells whether the script declares a symbol of this name."""
        known = self.functions.get(name)
        return known is not None and not isinstance(known, Definition)


class Assumed(NamedTuple):
    """An assume: the offset of its term, its name, and the term."""

    start: int
    name: bytes
    term: int


class Stepped(NamedTuple):
    """A step: its offset, its name, its clause, its rule, the clauses of its premises, and the items of its arguments."""

    start: int
    name: bytes
    clause: list
    rule: bytes
    premises: list
    arguments: list


class Defined(NamedTuple):
    """A definition: its offset, and the name."""

    start: int
    name: bytes


class Judge:
    """What a proof has made known so far: names, the clauses of its commands, whether one was empty."""

    def __init__(self, check):
        self.names = Names(check)
        self.terms = check.terms
        self.assertions = set(check.assertions)
        self.clauses = {}
        self.has_empty = False

    def defined(self, name):
        """Returns the term that a name without parameters stands for."""
        return self.names.functions[name].term

    def fresh(self, item):
        """Returns a name that no assume and no step has."""
        if item[1] in self.clauses:
            raise Fault(item[2], b"TwiceName")
        return item[1]

    def formulas(self, items, start):
        """Returns the terms of items, each of sort Bool and with room for all, and the names that are given in them."""
        reader = self.names.reader()
        terms = []
        for item in items:
            term = reader.term({}, item)
            if self.terms.sorts[term] != BOOL:
                raise Fault(item[2], b"WrongSort")
            terms.append(term)
        self.names.require_room(start, len(reader.made), terms)
        return terms, reader.made

    def assume(self, parts, start):
        """Reads an assume."""
        if len(parts) != 3 or parts[1][0] != "sym":
            raise Fault(start, b"BadShape")
        name = self.fresh(parts[1])
        terms, made = self.formulas(parts[2:], start)
        self.names.functions.update(made)
        return Assumed(parts[2][2], name, terms[0])

    def step(self, parts, start):
        """Reads a step: its shape, its name, its literals, its rule, and its premises."""
        if len(parts) < 3 or parts[1][0] != "sym":
            raise Fault(start, b"BadShape")
        kind, literals, _ = parts[2]
        if kind != "list" or not literals or literals[0][:2] != ("sym", b"cl"):
            raise Fault(start, b"BadShape")
        found = step_parts(parts, start)
        name = self.fresh(parts[1])
        clause, made = self.formulas(literals[1:], start)
        _, rule, rule_start = found[b":rule"]
        if rule not in RULES:
            raise Fault(rule_start, b"UnknownRule")
        premises = []
        for _, premise, premise_start in found[b":premises"][1] if b":premises" in found else []:
            if premise not in self.clauses:
                raise Fault(premise_start, b"UnknownPremise")
            premises.append(self.clauses[premise])
        self.names.functions.update(made)
        arguments = found[b":args"][1] if b":args" in found else []
        return Stepped(start, name, clause, rule, premises, arguments)

    def read(self, item):
        """Reads a command, or raises its first fault; a definition is known from there on."""
        kind, parts, start = item
        verb = parts[0][:2] if kind == "list" and parts else None
        if verb == ("sym", b"assume"):
            return self.assume(parts, start)
        if verb == ("sym", b"step"):
            return self.step(parts, start)
        if verb == ("res", b"define-fun"):
            define_fun(self.names, parts, start)
            return Defined(start, parts[1][1])
        raise Fault(start, b"BadShape")

    def require_right(self, command):
        """Raises the fault of a command that is read, but not right."""
        if isinstance(command, Assumed) and command.term not in self.assertions:
            raise Fault(command.start, b"NotAsserted")
        try:
            is_right = not isinstance(command, Stepped) or self.is_step(command)
        except Overflow as overflow:
            raise Fault(command.start, b"Wide") from overflow
        if not is_right:
            raise Fault(command.start, b"RuleFails")

    def is_step(self, command):
        """Tells whether a step's clause follows by its rule."""
        return follows(self.terms, command.rule, command.premises, command.clause, command.arguments)

    def learn(self, command):
        """Keeps the clause of a command under its name."""
        if isinstance(command, Defined):
            return
        clause = [command.term] if isinstance(command, Assumed) else command.clause
        self.clauses[command.name] = clause
        self.has_empty = self.has_empty or not clause

    def take(self, item):
        """Takes a command of a proof, or raises its first fault."""
        command = self.read(item)
        self.require_right(command)
        self.learn(command)


def first_fault(check, proof):
    """Returns the first fault of a proof of a check, or None."""
    judge = Judge(check)
    try:
        take_all(judge.take, proof)
    except Fault as fault:
        return fault
    return None if judge.has_empty else Fault(len(proof), b"NoEmptyClause")
