"""Makes scripts by chance, over all sorts; the share of their commands that is ill-formed somewhere is an argument."""

import random

from assumed import a_check
from faulty import NUMERALS, ODD_TERMS, command_of_a_script

NAMES = [b"p", b"q", b"x", b"y", b"a", b"b", b"f", b"g", b"h", b"|a b|", b"n"]
SORTS = [b"Bool", b"Bool", b"Real", b"Real", b"U", b"V"]
ODD_SORTS = [b"W", b"let", b"5", b'"s"', b"(Bool)", b"()", b"|Real|", b":k"]
ODD_NAMES = [b"let", b"@a", b".a", b"|@b|", b"and", b"=", b"true", b"_", b"|let|"]
OTHERS = [b"(set-info :status sat)", b'(echo "a ""b""")', b"(set-option :produce-models true)", b"(set-option :x y)"]
# What stands before and after a term to make none of it.
ODD_FRONTS = [b"(zz", b"(forall ((v Bool))", b"(let ()", b"(let ((v))", b"((not)", b"(5", b"(true"]
ODD_FRONTS = [(front, b")") for front in ODD_FRONTS]
ODD_FRONTS += [(b"(!", end) for end in (b")", b" :named)", b" a)")]


def one_of(words, odd, share):
    """Returns a word, an odd one in this share of the cases."""
    return random.choice(odd if random.random() < share else words)


class Maker:
    """Makes the commands of one script, with the names that it has declared by sort."""

    def __init__(self, share):
        self.share = share
        self.functions = {}
        self.sorts = []

    def sort(self):
        """Makes a sort, mostly one that there is."""
        return one_of([s for s in SORTS if s not in (b"U", b"V") or s in self.sorts], ODD_SORTS + SORTS, self.share / 3)

    def name(self):
        """Makes a name, mostly a new one."""
        new = [name for name in NAMES if name not in self.functions]
        return one_of(new or NAMES, ODD_NAMES + NAMES, self.share / 2)

    def of_sort(self, sort, size, bound):
        """Makes a term that mostly has the sort; `bound` has the sorts of names."""
        if random.random() < self.share / 6:
            return self.odd(size, bound)
        choices = [n for n, s in bound.items() if s == sort]
        choices += [n for n, (sorts, result) in self.functions.items() if result == sort and not sorts]
        if sort == b"Bool":
            choices += [b"true", b"false"]
        if sort == b"Real":
            choices += [random.choice(NUMERALS)]
        if size <= 1:
            return random.choice(choices or [b"c"])
        if random.random() < 0.12:
            return self.let(sort, size, bound)
        if random.random() < 0.1:
            return self.annotated(sort, size, bound)
        return self.applied(sort, size - 1, bound)

    def applied(self, sort, size, bound):
        """Makes a head before terms."""
        heads = [(n, sorts) for n, (sorts, result) in self.functions.items() if result == sort and sorts]
        if heads and random.random() < 0.4:
            head, sorts = random.choice(heads)
            return self.list(head, sorts, size, bound)
        if sort == b"Bool":
            head = random.choice(
                b"not and or xor => = distinct ite and or < <= > >=".split() if size < 9 else b"and or ite".split()
            )
            count = {b"not": 1, b"ite": 3}.get(head) or random.choice([2, 2, 3])
            if head in (b"=", b"distinct"):
                sorts = [random.choice([b"Bool", b"Real", sort] + self.sorts)] * count
            elif head in (b"<", b"<=", b">", b">="):
                sorts = [b"Real"] * count
            else:
                sorts = [b"Bool"] * count
            return self.list(head, sorts, size, bound)
        if sort == b"Real":
            head = random.choice(b"- + * / ite".split())
            if head == b"*":
                factors = [random.choice([*NUMERALS, b"(+ 1 1)", b"(- 2)"]), self.of_sort(b"Real", size // 2, bound)]
                random.shuffle(factors)
                return b"(* " + b" ".join(factors) + b")"
            if head == b"/":
                return b"(/ " + self.of_sort(b"Real", size // 2, bound) + b" " + self.divisor() + b")"
            if head != b"ite":
                return self.list(head, [b"Real"] * random.choice([1, 2, 3]), size, bound)
        return self.list(b"ite", [b"Bool", sort, sort], size, bound)

    def divisor(self):
        """Makes a divisor, seldom one that is none or zero."""
        number = random.choice(NUMERALS)
        return random.choice([number, b"2", b"(- " + number + b")", b"(/ 1 " + number + b")", b"(+ 2)", b"x"])

    def list(self, head, sorts, size, bound):
        """Makes a list of a head and terms of these sorts."""
        given = [self.of_sort(sort, size // len(sorts), bound) for sort in sorts]
        if random.random() < self.share / 8:
            given = given[1:] if random.random() < 0.5 else given + given[:1]
        return b"(" + b" ".join([head, *given]) + b")"

    def let(self, sort, size, bound):
        """Makes a `let`."""
        here = {}
        texts = []
        for _ in range(random.choice([1, 1, 2])):
            of = random.choice([b"Bool", b"Real", sort])
            name = one_of([b"z", b"w", b"p", b"x"], ODD_NAMES, self.share / 6)
            texts.append(b"(" + name + b" " + self.of_sort(of, size // 3, bound) + b")")
            here[name] = of
        body = self.of_sort(sort, size // 2, {**bound, **here})
        return b"(let (" + b" ".join(texts) + b") " + body + b")"

    def annotated(self, sort, size, bound):
        """Makes a term with attributes."""
        attributes = [random.choice([b":a", b":a 1", b":pattern (p q)", b":a let"])] if random.random() < 0.4 else []
        term = self.of_sort(sort, size - 1, bound)
        if random.random() < 0.7:
            name = self.name()
            attributes.append(b":named " + name)
            if random.random() < 0.8:
                self.functions.setdefault(name, ([], sort))
        return b"(! " + b" ".join([term, *attributes]) + b")"

    def odd(self, size, bound):
        """Makes what is mostly no term, or one of another sort."""
        choice = random.random()
        if choice < 0.5:
            return random.choice(ODD_TERMS)
        if choice < 0.6:
            return self.of_sort(random.choice([b"Bool", b"Real", b"U"]), size, bound)
        front, end = random.choice(ODD_FRONTS)
        return front + b" " + self.of_sort(random.choice([b"Bool", b"Real"]), size // 2, bound) + end

    def declaration(self):
        """Makes a declaration or a definition."""
        choice = random.random()
        if choice < 0.15:
            name = one_of([b"U", b"V"], [b"Bool", b"let", b"@S", b"|Real|"], self.share)
            self.sorts.append(name)
            return b"(declare-sort " + name + b" " + one_of([b"0"], [b"1", b"0.0", b"x"], self.share / 4) + b")"
        if choice < 0.22:
            name = one_of([b"V", b"W"], ODD_NAMES, self.share)
            self.sorts.append(name)
            return b"(define-sort " + name + b" () " + self.sort() + b")"
        name, result = self.name(), self.sort()
        if choice < 0.5:
            self.functions.setdefault(name, ([], result))
            return b"(declare-const " + name + b" " + result + b")"
        sorts = [self.sort() for _ in range(random.choice([0, 1, 1, 2]))]
        if choice < 0.75:
            self.functions.setdefault(name, (sorts, result))
            return b"(declare-fun " + name + b" (" + b" ".join(sorts) + b") " + result + b")"
        bound = {one_of([b"s%d" % k], ODD_NAMES + [b"s0"], self.share / 4): sort for k, sort in enumerate(sorts)}
        parameters = b" ".join(b"(" + n + b" " + s + b")" for n, s in bound.items())
        body = self.of_sort(result, random.choice([1, 3, 6]), bound)
        self.functions.setdefault(name, (list(bound.values()), result))
        return b"(define-fun " + name + b" (" + parameters + b") " + result + b" " + body + b")"

    def check(self):
        """Makes a check, which assumes literals in some cases."""
        if random.random() < 0.7:
            return b"(check-sat)"
        names = [name for name, known in self.functions.items() if known == ([], b"Bool")]
        return a_check(names, self.share)

    def command(self):
        """Makes a command."""
        choice = random.random()
        if choice < 0.45:
            return self.declaration()
        if choice < 0.45 + self.share / 2:
            return command_of_a_script()
        if choice < 0.85:
            return b"(assert " + self.of_sort(b"Bool", random.choice([1, 3, 6, 10]), {}) + b")"
        if choice < 0.93:
            return self.check()
        return random.choice(
            [
                b"(set-logic QF_UF)",
                b"(set-logic QF_BV)",
                b"(set-info :status sat)",
                b"(set-option :produce-models true)",
                b"(set-option :x y)",
                b'(echo "a")',
                b"(push 1)",
                b"(pop 1)",
                b"(get-model)",
                b"(assert p q)",
            ]
        )


def an_arithmetic_script():
    """Makes a script of assertions on numbers, nearly all of them well-formed."""
    maker = Maker(0.03)
    lines = []
    for name in (b"x", b"y"):
        maker.functions[name] = ([], b"Real")
        lines.append(b"(declare-const " + name + b" Real)")
    maker.functions[b"f"] = ([b"Real"], b"Real")
    lines.append(b"(declare-fun f (Real) Real)")
    lines.append(b"(define-fun g ((s0 Real)) Real " + maker.of_sort(b"Real", 5, {b"s0": b"Real"}) + b")")
    maker.functions[b"g"] = ([b"Real"], b"Real")
    for _ in range(random.randint(1, 3)):
        sides = maker.of_sort(b"Real", random.choice([4, 8]), {}), maker.of_sort(b"Real", 4, {})
        head = random.choice([b"<", b"<=", b"=", b">", b"distinct"])
        lines.append(b"(assert (" + b" ".join([head, *sides]) + b"))")
    return b"\n".join(lines) + b"\n"


def a_script(share=0.5, count=None):
    """Makes a script; the greater the share, the more is ill-formed."""
    maker = Maker(share)
    lines = [b"(set-option :print-success false)"] if random.random() < 0.5 else []
    lines += [maker.declaration() for _ in range(random.randint(1, 4))]
    lines += [maker.command() for _ in range(count or random.randint(2, 6))]
    return b"\n".join(lines) + b"\n"


def an_assertion(maker):
    """Makes an assertion of a small term."""
    return b"(assert %s)" % maker.of_sort(b"Bool", random.choice([1, 2, 4]), {})


def a_session(share):
    """Makes a script with checks at its end and before it; the greater the share, the more of it is ill-formed."""
    if share and random.random() < 0.5:
        return a_script(share)
    maker = Maker(0)
    lines = [b"(set-option :print-success false)"] if random.random() < 0.5 else []
    lines += [maker.declaration() for _ in range(random.randint(1, 6))]
    for _ in range(random.randint(2, 8)):
        choice = random.random()
        if choice < 0.5:
            lines.append(an_assertion(maker))
        else:
            lines.append(maker.check() if choice < 0.8 else random.choice(OTHERS))
    if random.random() < share:
        lines.insert(random.randint(0, len(lines)), a_script(share).split(b"\n")[-2])
    return b"\n".join([*lines, b"(check-sat)"]) + b"\n"
