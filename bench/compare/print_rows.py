"""States of derivations by chance how their proofs are printed, for the prover to compute.

The text is that of docs/FORMATS.md: a definition for each term with arguments that is needed and not in place, and then
the assumes and steps that the last one rests on. The independent judge has to take what is printed.
"""

import random

from antt import declared, lines_written, listed, read, term_written, written
from commands import checks_of, read_script
from judging import Assumed, Defined, Stepped, first_fault
from proofs import Invented, a_script, refutation
from reading import Fault, printed_name, read_one

HEAD = read("PrintRows.antt.txt")
DEEPEST = 8  # in place


def shortest(number):
    """Writes a number that is not below 0 as a numeral, or as the shortest decimal."""
    places = next(n for n in range(39) if (number * 10**n).denominator == 1)
    digits = str((number * 10**places).numerator).rjust(places + 1, "0")
    return (digits if places == 0 else f"{digits[:-places]}.{digits[-places:]}").encode()


class Derivation:
    """Inferences that are right after those before them, each with the places of its premises, and all their terms."""

    def __init__(self, invented):
        self.judge = invented.judge
        self.terms = invented.terms
        self.inferences = []
        self.places = {}

    def add(self, line):
        """Takes the command of a line, if it is right."""
        try:
            command = self.judge.read(read_one(line, 0)[0])
            self.judge.require_right(command)
        except Fault:
            return
        self.judge.learn(command)
        if not isinstance(command, Defined):
            self.places[command.name] = len(self.inferences)
            self.inferences.append((command, self.premises_of(line)))

    def premises_of(self, line):
        """Returns the places of the premises of a step's line."""
        parts = read_one(line, 0)[0][1]
        keywords = dict(zip((part[1] for part in parts[3::2]), parts[4::2])) if parts[0][1] == b"step" else {}
        return [self.places[name] for _, name, _ in keywords.get(b":premises", (None, [], 0))[1]]

    def newest(self):
        """Returns the clause of the newest inference, or an empty one where there is none."""
        return list(self.clause(len(self.inferences) - 1)) if self.inferences else []

    def clause(self, place):
        """Returns the clause of an inference."""
        command = self.inferences[place][0]
        return [command.term] if isinstance(command, Assumed) else command.clause

    def rests(self, last):
        """Returns the places of what an inference rests on, itself too."""
        seen, waiting = set(), [last]
        while waiting:
            place = waiting.pop()
            if place not in seen:
                seen.add(place)
                waiting += self.inferences[place][1]
        return sorted(seen)


class Printer:
    """Prints the proof of one inference of a derivation."""

    def __init__(self, derivation, last):
        self.derivation = derivation
        self.terms = derivation.terms
        self.rests = derivation.rests(last)
        self.needed = self.terms.below([term for place in self.rests for term in derivation.clause(place)])
        self.names = {}
        self.depths = self.depths_in_place()

    def depths_in_place(self):
        """Returns the depths of the terms with arguments that are in place."""
        uses = [term for place in self.rests for term in self.derivation.clause(place)]
        uses += [part for term in self.needed for part in self.terms.nodes[term][1]]
        depths = {}
        for term in self.needed:
            given = self.terms.nodes[term][1]
            depth = 1 + max((depths.get(part, 0) for part in given), default=0)
            if given and uses.count(term) == 1 and depth <= DEEPEST:
                depths[term] = depth
        return depths

    def applied(self, term):
        """Writes a head before its arguments."""
        head, given = self.terms.nodes[term]
        name = printed_name(head[1]) if head[0] == "symbol" else head
        return b"(" + b" ".join([name, *map(self.argument, given)]) + b")"

    def argument(self, term):
        """Writes a term as an argument or a literal."""
        head, given = self.terms.nodes[term]
        if given:
            return self.applied(term) if term in self.depths else b"@p%d" % self.names[term]
        if head[0] == "number":
            return shortest(head[1])
        return printed_name(head[1]) if head[0] == "symbol" else head

    def definitions(self):
        """Returns the lines of the terms with arguments that are not in place."""
        lines = []
        for term in self.needed:
            if self.terms.nodes[term][1] and term not in self.depths:
                inner = self.applied(term)
                self.names[term] = len(lines) + 1
                sort = printed_name(self.terms.sorts[term][0])
                lines.append(b"(define-fun @p%d () %s %s)" % (self.names[term], sort, inner))
        return lines

    def inferences(self):
        """Returns the lines of the inferences."""
        lines, names, counts = [], {}, {Assumed: 0, Stepped: 0}
        for place in self.rests:
            command, premises = self.derivation.inferences[place]
            counts[type(command)] += 1
            names[place] = (b"h%d" if isinstance(command, Assumed) else b"t%d") % counts[type(command)]
            clause = b" ".join(map(self.argument, self.derivation.clause(place)))
            if isinstance(command, Assumed):
                lines.append(b"(assume %s %s)" % (names[place], clause))
                continue
            words = b" :premises (" + b" ".join(names[p] for p in premises) + b")" if premises else b""
            clause = b"(cl " + clause + b")" if clause else b"(cl)"
            lines.append(b"(step %s %s :rule %s%s)" % (names[place], clause, command.rule, words))
        return lines

    def text(self):
        """Returns the proof."""
        return b"\n".join([b"(", *self.definitions(), *self.inferences(), b")", b""])


def rule_written(rule):
    """Writes a rule."""
    return "rules." + "".join(word.capitalize() for word in rule.decode().split("_"))


def some_derivation():
    """Makes a derivation by chance, or nothing where the script has no check."""
    checks = checks_of(read_script(a_script().text)[0])
    if not checks:
        return None, None
    invented = Invented(checks[0], 0)
    derivation = Derivation(invented)
    for _ in range(random.randint(2, 8)):
        choice = random.random()
        line = invented.definition() if choice < 0.15 else invented.assume() if choice < 0.4 else invented.step()
        invented.lines.append(line)
        derivation.add(line)
        invented.pool = (invented.pool + derivation.newest())[-10:]
    for line in refutation(invented):
        derivation.add(line)
    return checks[0], derivation


def row_of(seed):
    """Returns the statement of how a proof is printed, with counts; or nothing where there is too little."""
    random.seed(seed)
    check, derivation = some_derivation()
    if not derivation or len(derivation.inferences) < 2:
        return None
    last = random.choice([len(derivation.inferences) - 1, random.randrange(len(derivation.inferences))])
    printer = Printer(derivation, last)
    text = printer.text()
    fault = first_fault(check, text)
    if fault and (fault.name != b"NoEmptyClause" or not derivation.clause(last)):
        raise AssertionError(f"{fault.name} at {fault.offset} of {text.decode()}")
    terms = derivation.terms
    table = terms.below([t for place in range(len(derivation.inferences)) for t in derivation.clause(place)])
    functions = declared(derivation.judge.names.functions)

    def terms_written(numbers):
        return listed(term_written(terms, number, functions) for number in numbers)

    inferences = []
    for command, premises in derivation.inferences:
        if isinstance(command, Assumed):
            inferences.append(f"«assumption» ({term_written(terms, command.term, functions)})")
        else:
            clause = terms_written(command.clause)
            inferences.append(f"by_rule {rule_written(command.rule)} {listed(map(str, premises))} none {clause}")
    printed = listed(str(term in printer.needed).lower() for term in table)
    heights = listed(str(printer.depths.get(term, 0)) for term in table)
    rests = listed(str(place in printer.rests).lower() for place in range(last + 1))
    statement = f"""
abbrev d{seed}_terms : List Term
d{seed}_terms = {terms_written(table)}

abbrev d{seed}_derivation : Derivation
d{seed}_derivation = {listed(inferences)}

pub d{seed} : printed_by d{seed}_terms d{seed}_derivation {printed} {rests} {heights} ≡ ({heights}, {lines_written(text)})
unfolding numeral same_term sort_of second_sort places has_decimal literal_text
d{seed} = refl
"""
    return statement, {"proofs": 1, "lines": text.count(b"\n") - 2, "valid": int(fault is None)}
