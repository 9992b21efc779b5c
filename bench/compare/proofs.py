"""Makes scripts with proofs by chance: mostly right proofs, with a fault of any kind in some.

Assertions are over constants of sort Bool and numbers, or are premises of single steps; the clauses of a proof have
terms of every sort. A proof is made by terms, and each of these is written in one of the ways in which it can be.
"""

import random
from typing import NamedTuple

from arithmetic_steps import arithmetic_step
from clauses import changed_clause, opened, resolved, single_step, stated_clause
from commands import checks_of, read_script
from equality_steps import equality_of_held, equality_step
from faulty import DECLARATIONS, DEFINITIONS, ODD_TERMS, command_of_a_proof
from judging import Judge
from language import Definition
from layout import damaged, tree_of_item
from reading import Fault, printed_name, read_one
from rules import PREMISED, RESOLUTIONS, RULES, STATING, SUBSET_RULES, follows
from scripts import Maker, an_assertion, one_of
from terms import BOOL, REAL
from values import Overflow

BOOLS = [b"p", b"q", b"|a b|"]
SINGLE_NAMES = [b"p", b"q", b"r"]
# What the script of single steps declares besides, so that terms of other sorts come in.
SINGLE_DECLARATIONS = b"""(declare-sort U 0)
(declare-fun a () U)
(declare-fun b () U)
(declare-fun f (U Bool) U)
(declare-fun g (U Bool) Bool)
(declare-fun x () Real)
(declare-fun y () Real)
(declare-fun k (U) Real)
(declare-fun h (Bool) U)""".split(b"\n")
ALL_RULES = sorted(RULES)
FRONTS = [b"unsat ", b"|unsat|", b"unsat unsat ", b"sat ", b":unsat ", b";unsat\n", b"() "]
ENDS = [b" ()", b" unsat", b" )", b" (", b"\n\"s", b" ; (", b" |a\\", b" 1."]
OTHER_RULES = b"hole congr reflexive lia_generic eq_symmetric and_simplify Resolution or1 ite3 cl".split()
PARAMETERS = [(b"v", b"Real"), (b"@w", b"Bool"), (b"p", b"U")]


class Script(NamedTuple):
    """A script, and the number of the check that is meant."""

    text: bytes
    number: int


class ProofMaker(Maker):
    """Makes the texts of terms and definitions of a proof; names may begin with `@` or `.` there."""

    def annotated(self, sort, size, bound):
        """Makes a term with attributes, with a name in few cases."""
        term = self.of_sort(sort, size - 1, bound)
        if random.random() < self.share:
            return b"(! " + term + b" :named " + one_of([b"n", b"@n"], [b"p", b"let", b"and", b"both"], 0.4) + b")"
        return b"(! " + term + random.choice([b" :a", b" :a 1", b" :pattern (p q)", b" :a let :b"]) + b")"


def a_script():
    """Makes a script with checks."""
    bools = Maker(0)
    lines = [b"(set-logic QF_UFLRA)"] if random.random() < 0.3 else []
    lines.append(b"(declare-sort U 0)")
    kept = random.sample(DECLARATIONS, random.randint(5, len(DECLARATIONS)))
    lines += [line for line in DECLARATIONS if line in kept or line == DECLARATIONS[0]]
    bools.functions = {n: ([], b"Bool") for n in BOOLS if b"(declare-fun %s () Bool)" % n in lines}
    lines += random.sample(DEFINITIONS, random.randint(0, 2))
    asserted = [an_assertion(bools) for _ in range(random.randint(1, 3))]
    if random.random() < 0.5:
        asserted.append(b"(assert (not " + random.choice(asserted)[8:] + b")")
    lines += [*asserted, b"(check-sat)"]
    if random.random() < 0.2:
        late = random.choice([b"(declare-fun late () Bool)", b"(assert q)", b"(assert (= 1 2))", b"(exit)"])
        lines += [late, b"(check-sat)"]
    return Script(b"\n".join(lines) + b"\n", random.choice([1] * 15 + [2, 2, 3]))


def decimal(number):
    """Writes a number as a literal that is read as it."""
    places = 0
    while (number * 10**places).denominator != 1:
        places += 1
    whole = str((number * 10**places).numerator).rjust(places + 1, "0")
    text = whole[: len(whole) - places] + ("." + whole[len(whole) - places :] if places else "")
    return text.encode() + random.choice([b"", b"", b"0" if places else b".0"])


class Writer:
    """Writes the terms of a proof, which may use the names that it has defined by then."""

    def __init__(self, judge):
        self.judge = judge
        self.terms = judge.terms
        self.count = 0
        self.may_name = True
        self.given = {}

    def names_of(self, number):
        """Returns the names that stand for a term: defined without parameters, or given to it where it was written."""
        functions = self.judge.names.functions.items()
        names = [n for n, d in functions if isinstance(d, Definition) and not d.parameters and d.term == number]
        return names + [n for n, t in self.given.items() if self.may_name and t == number]

    def outside(self, number):
        """Writes a term for a script, or for a command that may be left out: without names of a proof."""
        self.may_name = False
        text = self.written(number)
        self.may_name = True
        return text

    def written(self, number):
        """Writes a term in one of the ways in which it can be."""
        names = self.names_of(number)
        if names and random.random() < 0.8:
            return printed_name(random.choice(names))
        choice = random.random()
        if choice < 0.03:
            return b"(! " + self.plain(number) + b" :a 1)"
        if choice > 0.9 and self.may_name:
            text = self.plain(number)
            name = b"@n%d" % len(self.given)
            self.given[name] = number
            return b"(! " + text + b" :named " + name + b")"
        if choice < 0.08:
            self.count += 1
            name = (b"@v%d" if self.may_name else b"v%d") % self.count
            return b"(let ((" + name + b" " + self.plain(number) + b")) " + name + b")"
        return self.plain(number)

    def plain(self, number):
        """Writes a term by its head, or by a chain or another head that is read as it."""
        head, given = self.terms.nodes[number]
        if head[0] == "number":
            return decimal(head[1])
        if head[0] == "symbol":
            name = printed_name(head[1])
            name = b"|" + name + b"|" if name == head[1] and random.random() < 0.05 else name
            return self.listed(name, given) if given else name
        if not given:
            return head
        head, given = self.another(head, given) if random.random() < 0.5 else (head, given)
        return self.listed(head, given)

    def another(self, head, given):
        """Returns another head with arguments that is read as this one, where there is one."""
        inner = [self.terms.nodes[t] for t in given]
        if head == b"not" and inner[0][0] == b"=":
            return b"distinct", inner[0][1]
        if head == b"=>" and inner[1][0] == b"=>":
            return head, (given[0], *inner[1][1])
        if head in (b"xor", b"/", b"-") and inner[0][0] == head and len(given) == len(inner[0][1]) == 2:
            return head, (*inner[0][1], given[1])
        if head in (b"<", b"<="):
            return head.replace(b"<", b">"), given[::-1]
        if head == b"and" and [node[0] for node in inner] in ([b"=", b"="], [b"<", b"<"]):
            if inner[0][1][1] == inner[1][1][0]:
                return inner[0][0], (*inner[0][1], inner[1][1][1])
        return head, given

    def listed(self, head, given):
        """Writes a head before terms."""
        return b"(" + b" ".join([head, *map(self.written, given)]) + b")"


class Invented:
    """A proof that grows by commands that are right, but for some."""

    def __init__(self, check, share):
        self.judge = Judge(check)
        self.terms = check.terms
        self.writer = Writer(self.judge)
        self.maker = ProofMaker(share)
        self.maker.functions = {printed_name(name): self.sorts_of(known) for name, known in check.functions.items()}
        self.maker.sorts = [name for name, sort in check.sorts.items() if sort == (name, "declared")]
        self.pool = list(dict.fromkeys(check.assertions))
        self.lines = []

    def sorts_of(self, known):
        """Returns the names of the sorts of a function's parameters, and of its result."""
        if isinstance(known, Definition):
            return [sort[0] for _, sort in known.parameters], self.terms.sorts[known.term][0]
        return [sort[0] for sort in known[0]], known[1][0]

    def known(self, name):
        """Returns the term of a declared constant of sort Bool."""
        return self.terms.make(("symbol", name))

    def some(self, sort):
        """Returns a term of a sort, by number."""
        if sort == BOOL:
            return self.formula()
        item = read_one(self.maker.of_sort(sort[0], random.choice([1, 1, 2, 3]), {}), 0)[0]
        try:
            term = self.judge.names.reader().term({}, item)
        except Fault:
            term = None
        if term is not None and self.terms.sorts[term] == sort:
            return term
        fitting = [n for n, known in enumerate(self.terms.sorts) if known == sort and self.terms.is_closed(n)]
        return random.choice(fitting) if fitting else self.terms.make(b"true")

    def declared_sorts(self):
        """Returns the declared sorts that some constant has."""
        known = [known for known in self.judge.names.functions.values() if not isinstance(known, Definition)]
        return sorted({sort for sorts, sort in known if not sorts and len(sort) > 1})

    def formula(self):
        """Returns a formula, by number: one that was used, or a new one."""
        if self.pool and random.random() < 0.5:
            return random.choice(self.pool)
        item = read_one(self.maker.of_sort(b"Bool", random.choice([1, 2, 3, 4]), {}), 0)[0]
        try:
            term = self.judge.names.reader().term({}, item)
        except Fault:
            return self.terms.make(b"true")
        return term if self.terms.is_formula(term) else self.terms.make(b"true")

    def next_step(self):
        """Returns a rule, names of premises and a clause."""
        held = list(self.judge.clauses)
        choice = random.random()
        if random.random() < 0.3:
            return equality_of_held(self.terms, self.some, self.judge.clauses, self.declared_sorts())
        if choice < 0.4 or not held:
            rule = random.choice(sorted(STATING))
            return rule, [], stated_clause(self.terms, rule, self.formula)
        if choice < 0.6:
            singles = [name for name in held if len(self.judge.clauses[name]) == 1]
            given = [(name, *pair) for name in singles for pair in opened(self.terms, self.judge.clauses[name][0])]
            if given:
                name, rule, clause = random.choice(given)
                return (random.choice(sorted(PREMISED)) if random.random() < 0.05 else rule), [name], clause
        if choice < 0.75:
            name = random.choice(held)
            clause = random.sample(self.judge.clauses[name], len(self.judge.clauses[name]))
            return random.choice(SUBSET_RULES), [name], clause + [self.formula() for _ in range(random.randint(0, 1))]
        premises = random.sample(held, min(len(held), random.randint(1, 4)))
        clauses = [self.judge.clauses[name] for name in premises]
        return random.choice(RESOLUTIONS), premises, resolved(self.terms, clauses)

    def definition(self):
        """Makes a definition of a name, with parameters or without."""
        name = one_of([b"@p%d" % len(self.lines), b".d", b"d", b"h1", b"|d e|"], [b"p", b"x", b"and", b"let", b"both"],
                      0.06 + self.maker.share / 2)
        parameters = dict(random.sample(PARAMETERS, random.choice([0, 0, 0, 1, 2])))
        sort = random.choice([b"Bool", b"Bool", b"Real", b"U"])
        if self.pool and not parameters and random.random() < 0.6:
            sort, body = b"Bool", self.writer.written(self.formula())
        else:
            body = self.maker.of_sort(sort, random.choice([1, 3, 5]), parameters)
        self.maker.functions.setdefault(name, (list(parameters.values()), sort))
        listed = b" ".join(b"(" + n + b" " + s + b")" for n, s in parameters.items())
        return b"(define-fun " + name + b" (" + listed + b") " + sort + b" " + body + b")"

    def assume(self):
        """Makes an assume of an assertion, or seldom of another term."""
        asserted = sorted(self.judge.assertions)
        term = random.choice(asserted) if asserted and random.random() < 0.93 else self.formula()
        return b"(assume h%d %s)" % (len(self.lines) + 1, self.writer.written(term))

    def step(self):
        """Makes a step, which is right in most cases."""
        rule, premises, clause = self.next_step()
        if random.random() < 0.04:
            premises = random.choice([premises[1:], [*premises, random.choice(list(self.judge.clauses) or [b"h1"])]])
        if random.random() < 0.15:
            clause = changed_clause(self.terms, clause)
        given = [self.judge.clauses.get(name, []) for name in premises]
        if not is_taken(self.terms, rule, given, clause, None) and random.random() < 0.4:
            return self.assume()
        literals = b" ".join([b"cl", *map(self.writer.written, clause)])
        name = b"t%d" % (len(self.lines) + 1)
        return b"(step %s (%s) %s)" % (name, literals, b" ".join(self.attributes(rule, premises)))

    def attributes(self, rule, premises, arguments=None):
        """Makes the keywords of a step, in any order."""
        rule = one_of([rule], [b"|" + rule + b"|"], 0.05)
        texts = [b":rule " + one_of([rule], OTHER_RULES + ALL_RULES, self.maker.share / 3)]
        if premises or random.random() < 0.05:
            texts.append(b":premises (" + b" ".join(premises) + b")")
        if arguments is not None:
            texts.append(b":args " + arguments)
        elif random.random() < 0.08:
            texts.append(random.choice([b":args (1)", b":args ((- 2.5) zz let)", b":args ()"]))
        if random.random() < 0.05:
            texts.append(random.choice([b":discharge ()", b":discharge (zz)"]))
        if random.random() < 0.2:
            random.shuffle(texts)
        return texts

    def add(self):
        """Adds a command, and takes it where it can be read."""
        choice = random.random()
        line = self.definition() if choice < 0.2 else self.assume() if choice < 0.5 else self.step()
        self.lines.append(line)
        try:
            command = self.judge.read(read_one(line, 0)[0])
        except Fault:
            return
        self.judge.learn(command)
        clause = self.judge.clauses.get(command.name, [])
        self.pool = (self.pool + clause[:2])[-10:]


WORDS = [b"h1", b"t2", b"t9", b"p", b"x", b"let", b"zz", b"@p0", *ALL_RULES, *OTHER_RULES]
ODD_COMMANDS = b"""unsat
h1
5
()
(())
(assume)
(assume h9)
(assume h9 p p)
(assume let p)
(assume 5 p)
(assume "h" p)
(assume (h) p)
(|assume| |h9| |p|)
(assert p)
(anchor :step t1)
(step)
(step t9)
(step t9 (cl))
(step t9 (cl) :rule)
(step t9 (cl) :premises ())
(step t9 (cl true) :rule true)
(step t9 (cl true) :rule |true| :args (zz 5 (let)) :discharge (zz))
(step t9 (|cl| true) :rule true)
(step t9 cl :rule true)
(step t9 () :rule true)
(step t9 ((cl)) :rule true)
(step t9 (kl true) :rule true)
(step t9 ("cl" true) :rule true)
(step let (cl true) :rule true)
(step 5 (cl true) :rule true)
(step t9 (cl true) :rule let)
(step t9 (cl true) :rule "true")
(step t9 (cl true) :rule (true))
(step t9 (cl true) :rule true :rule true)
(step t9 (cl true) :rule true :args 1)
(step t9 (cl true) :rule true :args)
(step t9 (cl true) :rule true :zz ())
(step t9 (cl true) :rule true :premises (5))
(step t9 (cl true) :rule true :premises ((h1)))
(step t9 (cl true) :rule true :premises h1)
(step t9 (cl true) :rule true :premises (t9))
(step t9 (cl true) :rule true :discharge (5))
(step t9 (cl true) :rule true :discharge zz)
(step t9 (cl true) rule true)
(step t9 (cl true) true :rule)
(|define-fun| d9 () Bool p)
(define-fun d9 () Bool)
(define-fun d9 () Bool p p)
(define-fun d9 p Bool p)
(define-fun d9 (v) Bool p)
(define-fun d9 ((v)) Bool p)
(define-fun d9 ((5 Bool)) Bool p)
(define-fun 5 () Bool p)
(define-fun "d" () Bool p)
(define-fun let () Bool p)
(define-fun true () Bool p)
(define-fun p () Bool p)
(define-fun d9 () W p)
(define-fun d9 () 5 p)
(define-fun d9 () (Bool) p)
(define-fun d9 () let p)
(define-fun d9 () "s" p)
(define-fun d9 () Real p)
(define-fun d9 () Bool d9)
(define-fun d9 ((v W)) Bool p)
(define-fun d9 ((v Bool) (v Real)) Bool p)
(define-fun d9 ((and Bool)) Bool p)
(define-fun d9 ((let Bool)) Bool p)
(define-fun d9 ((v Bool)) Bool (! p :named n))
(define-fun d9 ((v Bool)) Bool (! v :named n))
(define-fun d9 () Bool (! p :named d9))
(declare-const c Bool)""".split(b"\n")


def places(item):
    """Returns the offsets and ends of the items below one, without the first of each list."""
    kind, parts, _ = item
    return [item] + [below for part in parts[1:] for below in places(part)] if kind == "list" else [item]


def end_of(line, item):
    """Returns the offset behind an item that was read from a line."""
    return read_one(line, item[2])[1]


def with_odd_term(line):
    """Puts an odd text into the place of a part of a command."""
    items = places(read_one(line, 0)[0])[1:]
    if not items:
        return line
    item = random.choice(items)
    return line[: item[2]] + random.choice(ODD_TERMS) + line[end_of(line, item) :]


def with_other_word(line, words):
    """Puts one of the words into the place of an atom of a command."""
    items = [item for item in places(read_one(line, 0)[0]) if item[0] not in ("list", "kw")]
    if not items:
        return line
    item = random.choice(items)
    return line[: item[2]] + random.choice(words) + line[end_of(line, item) :]


def with_fault(lines):
    """Changes one command of a proof; it may stay right."""
    lines = list(lines)
    at = random.randrange(len(lines))
    choice = random.random()
    if choice < 0.3:
        lines[at] = with_odd_term(lines[at])
    elif choice < 0.5:
        lines[at] = with_other_word(lines[at], WORDS)
    elif choice < 0.8:
        lines.insert(at, random.choice(ODD_COMMANDS))
    elif choice < 0.87:
        del lines[at]
    elif choice < 0.94:
        lines.insert(random.randint(0, len(lines)), lines[at])
    else:
        other = random.randrange(len(lines))
        lines[at], lines[other] = lines[other], lines[at]
    return lines


def joined(lines):
    """Writes commands one after the other, or in one list; the word `unsat` may come first, and odd texts too."""
    text = b"\n".join(lines)
    if random.random() < 0.2:
        text = b"(" + text + b")" + random.choice([b""] * 6 + ENDS)
    text = one_of([b"", b"", b"", b"unsat\n"], FRONTS, 0.05) + text + b"\n"
    return damaged(text) if random.random() < 0.1 else text


def a_proof():
    """Returns a script, a limit on terms and names, and a proof for the check of its number."""
    limit = random.choice([2**24] * 12 + [12, 16])
    if random.random() < 0.3:
        return proof_of_single_steps(limit)
    script = a_script()
    checks = checks_of(read_script(script.text, limit)[0])
    if len(checks) < script.number:
        return script, limit, b"(assume h1 p)\n"
    return script, limit, joined(some_lines(checks[script.number - 1]))


def some_lines(check, faulty=0.6, most=6):
    """Returns the commands of a proof of a check, by chance, a line each; this share of the proofs ends in odd ones."""
    invented = Invented(check, random.choice([0, 0, 0, 0.1, 0.3]))
    is_faulty = random.random() < faulty
    for _ in range(random.randint(0, 2) if is_faulty else random.randint(2, most)):
        invented.add()
    if is_faulty:
        asserted = [invented.writer.outside(term) for term in check.assertions]
        return invented.lines + [command_of_a_proof(asserted) for _ in range(random.randint(1, 2))]
    if random.random() < 0.7:
        invented.lines += refutation(invented)
    lines = invented.lines
    for _ in range(random.choice([0, 0, 0, 1, 2])):
        lines = with_fault(lines) if lines else lines
    return lines


def some_trees(check):
    """Returns the commands of a proof of a check, mostly right, as trees; those that cannot be read are left out."""
    trees = []
    for line in some_lines(check, 0.2, 20):
        try:
            trees.append(tree_of_item(read_one(line, 0)[0]))
        except Fault:
            continue
    return trees


def proof_of_single_steps(limit, most=2):
    """Returns a script that asserts the premises of some single steps, the limit, and a proof with these steps.

    Of more than two steps nearly all are right, up to a last one that need not be.
    """
    head = [b"(declare-const %s Bool)" % name for name in SINGLE_NAMES] + SINGLE_DECLARATIONS
    invented = Invented(checks_of(read_script(b"\n".join([*head, b"(check-sat)"]))[0])[0], 0)
    assertions = []
    for number in range(random.randint(1, most)):
        rule, premises, clause, arguments = a_single_step(invented)
        is_right = is_taken(invented.terms, rule, premises, clause, arguments)
        if not is_right and most > 2 and random.random() < 0.8:
            continue
        assertions += single_step_lines(invented, number, rule, premises, clause, arguments)
        if not is_right and most > 2:
            break
    script = Script(b"\n".join([*head, *assertions, b"(check-sat)"]) + b"\n", 1)
    return script, limit, joined(invented.lines)


def is_taken(terms, rule, premises, clause, arguments):
    """Tells whether a step is right, with the text of its arguments."""
    items = read_one(arguments, 0)[0][1] if arguments is not None else []
    try:
        return follows(terms, rule, premises, clause, items)
    except Overflow:
        return False


def a_single_step(invented):
    """Returns a rule, clauses of premises, a clause, and the text of arguments or None; right or near to it."""

    def atom():
        return random.choice([*(invented.known(name) for name in SINGLE_NAMES), invented.formula()])

    choice = random.random()
    if choice < 0.3:
        variables = [invented.some(REAL) for _ in range(random.randint(1, 3))]
        rule, clause, arguments = arithmetic_step(invented.terms, variables, atom)
        return rule, random.choice([[]] * 19 + [[[atom()]]]), clause, arguments
    if choice < 0.6:
        return *equality_step(invented.terms, lambda sort: atom() if sort == BOOL else invented.some(sort),
                              invented.declared_sorts()), None
    return *single_step(invented.terms, atom), None


def single_step_lines(invented, number, rule, premises, clause, arguments):
    """Adds a single step with its premises and arguments; returns the assertions of the premises."""
    assertions, names = [], []
    for place, premise in enumerate(premises):
        term = premise[0] if len(premise) == 1 else invented.terms.make(b"or", premise)
        name = b"a%d%d" % (number, place)
        assertions.append(b"(assert %s)" % invented.writer.outside(term))
        invented.lines.append(b"(assume %s %s)" % (name, invented.writer.written(term)))
        if len(premise) > 1:
            literals = b" ".join(map(invented.writer.written, premise))
            invented.lines.append(b"(step b%s (cl %s) :rule or :premises (%s))" % (name, literals, name))
            name = b"b" + name
        names.append(name)
    literals = b" ".join([b"cl", *map(invented.writer.written, clause)])
    words = b" ".join(invented.attributes(rule, names, arguments))
    invented.lines.append(b"(step c%d (%s) %s)" % (number, literals, words))
    return assertions


def refutation(invented):
    """Returns an end with the empty clause, where the assertions have a term and its negation."""
    terms = invented.terms
    for term in sorted(invented.judge.assertions):
        if terms.negation(term) in invented.judge.assertions:
            sides = invented.writer.written(term), invented.writer.written(terms.negation(term))
            return [b"(assume z1 %s)" % sides[0], b"(assume z2 %s)" % sides[1],
                    b"(step z3 (cl) :rule resolution :premises (z1 z2))"]
    return []
