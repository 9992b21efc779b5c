"""Makes scripts by chance over two declared sorts and functions, all of them well-formed.

Terms have constants, functions of one to three arguments, some of sort Bool, `ite` of declared sorts, and equalities as
arguments. Scripts come in families: nested formulas, equalities between few terms, clauses of equalities, powers of a
function, terms that take few values, and ways from a constant to the next. About a third of the checks have no model.
"""

import random

SYMBOLS = {
    b"a": ((), b"U"),
    b"b": ((), b"U"),
    b"c": ((), b"U"),
    b"d": ((), b"U"),
    b"|a b|": ((), b"U"),
    b"v": ((), b"V"),
    b"w": ((), b"V"),
    b"p": ((), b"Bool"),
    b"q": ((), b"Bool"),
    b"f": ((b"U",), b"U"),
    b"f2": ((b"U", b"U"), b"U"),
    b"g": ((b"U",), b"V"),
    b"h": ((b"V", b"U"), b"U"),
    b"k": ((b"Bool",), b"U"),
    b"m": ((b"U", b"Bool"), b"V"),
    b"l": ((b"U", b"Bool", b"V"), b"U"),
    b"n": ((b"Bool", b"Bool"), b"Bool"),
    b"r": ((b"U",), b"Bool"),
    b"s": ((b"U", b"V"), b"Bool"),
    b"t": ((b"Bool",), b"Bool"),
}
ALWAYS = (b"a", b"b", b"v", b"p", b"f")
SORTS = (b"U", b"V", b"Bool")
CONNECTIVES = [(b"not", 1), (b"and", 2), (b"and", 3), (b"or", 2), (b"or", 3), (b"=>", 2), (b"=>", 3), (b"xor", 2)]
CONNECTIVES += [(b"xor", 3), (b"=", 2), (b"=", 3), (b"ite", 3), (b"distinct", 2), (b"and", 1)]


def listed(head, given):
    """Writes a head before terms."""
    return b"(" + b" ".join([head, *given]) + b")"


class FunctionMaker:
    """Makes terms over some of the symbols, by sort."""

    def __init__(self):
        others = [name for name in SYMBOLS if name not in ALWAYS]
        chosen = set(ALWAYS) | set(random.sample(others, random.randint(1, len(others))))
        self.symbols = {name: sorts for name, sorts in SYMBOLS.items() if name in chosen}
        self.bound = {}
        self.count = 0

    def leaf(self, sort):
        """Makes a constant, a bound name or a truth value."""
        names = [name for name, (sorts, result) in self.symbols.items() if result == sort and not sorts]
        names += [name for name, of in self.bound.items() if of == sort]
        return random.choice(names + ([b"true", b"false"] if sort == b"Bool" and random.random() < 0.4 else []))

    def of_sort(self, sort, depth):
        """Makes a term of a sort."""
        choice = random.random()
        if depth <= 0 or choice < 0.15:
            return self.leaf(sort)
        if choice < 0.27:
            return listed(b"ite", [self.of_sort(s, depth - 1) for s in (b"Bool", sort, sort)])
        if choice < 0.31:
            return self.let(sort, depth)
        return self.formula(depth) if sort == b"Bool" and choice < 0.75 else self.applied(sort, depth)

    def applied(self, sort, depth):
        """Makes a function before terms, or a constant where no function has the sort."""
        heads = [(name, sorts) for name, (sorts, result) in self.symbols.items() if result == sort and sorts]
        if not heads:
            return self.leaf(sort)
        name, sorts = random.choice(heads)
        return listed(name, [self.of_sort(s, depth - 1) for s in sorts])

    def let(self, sort, depth):
        """Makes a `let`, whose name may hide a symbol."""
        of = random.choice(SORTS)
        self.count += 1
        name = random.choice([b"z%d" % self.count, b"z%d" % self.count, b"b" if of == b"U" else b"z0"])
        value, before = self.of_sort(of, depth - 1), dict(self.bound)
        self.bound[name] = of
        body = self.of_sort(sort, depth - 1)
        self.bound = before
        return b"(let ((" + name + b" " + value + b")) " + body + b")"

    def equality(self, depth, sort=None):
        """Makes an equality of two terms of a declared sort."""
        sort = sort or random.choice([b"U", b"U", b"V"])
        return listed(b"=", [self.of_sort(sort, depth), self.of_sort(sort, depth)])

    def formula(self, depth):
        """Makes a connective before formulas, or an equality or `distinct` of terms of a declared sort."""
        if random.random() < 0.45:
            sort, head = random.choice([b"U", b"U", b"V"]), random.choice([b"=", b"=", b"=", b"distinct"])
            count = random.choice([2, 2, 2, 3])
            return listed(head, [self.of_sort(sort, depth - 1) for _ in range(count)])
        head, count = random.choice(CONNECTIVES)
        return listed(head, [self.of_sort(b"Bool", depth - 1) for _ in range(count)])


def negated_by_chance(formula, share=0.5):
    """Returns the formula, negated in this share of the cases."""
    return b"(not " + formula + b")" if random.random() < share else formula


def nested(maker):
    """Makes assertions of nested formulas."""
    return [maker.of_sort(b"Bool", random.choice([2, 3, 3, 4])) for _ in range(random.randint(1, 4))]


def literals(maker):
    """Makes equalities and predicates of small terms, some of them negated."""
    made = []
    for _ in range(random.randint(3, 9)):
        atom = maker.equality(random.choice([1, 1, 2])) if random.random() < 0.75 else maker.applied(b"Bool", 2)
        made.append(negated_by_chance(atom, 0.35))
    return made


def clauses(maker):
    """Makes clauses over a few atoms."""
    atoms = [maker.equality(random.choice([0, 1, 1, 2])) for _ in range(random.randint(2, 5))]
    atoms += [maker.of_sort(b"Bool", 1) for _ in range(random.randint(1, 3))]
    made = []
    for _ in range(random.randint(4, 14)):
        chosen = [negated_by_chance(random.choice(atoms)) for _ in range(random.choice([1, 2, 2, 3]))]
        made.append(chosen[0] if len(chosen) == 1 else listed(b"or", chosen))
    return made


def power(name, count, term):
    """Writes a function of one argument so many times before a term."""
    return (b"(" + name + b" ") * count + term + b")" * count


def powers(maker):
    """Makes equalities between powers of a function at a constant, with one that is denied."""
    made = []
    for _ in range(random.randint(2, 4)):
        sides = [power(b"f", random.randint(0, 5), random.choice([b"a", b"a", b"b"])) for _ in range(2)]
        made.append(listed(b"=", sides))
    denied = listed(b"=", [power(b"f", random.randint(0, 2), random.choice([b"a", b"b"])) for _ in range(2)])
    return [*made, negated_by_chance(denied, 0.8), *([maker.of_sort(b"Bool", 2)] if random.random() < 0.3 else [])]


def few_elements(maker):
    """Makes terms that take few values, and that are to be different."""
    values = random.sample([b"a", b"b", b"(f a)", b"(f b)"], random.randint(2, 3))
    count = len(values) + random.choice([0, 1, 1])
    terms = [maker.of_sort(b"U", random.choice([1, 1, 2])) for _ in range(count)]
    made = [listed(b"or", [listed(b"=", [term, value]) for value in values]) for term in terms]
    return [*made, listed(b"distinct", terms), *([maker.of_sort(b"Bool", 2)] if random.random() < 0.3 else [])]


def truths_as_arguments(maker):
    """Makes literals about functions of truth values, whose arguments are formulas."""
    heads = [name for name, (sorts, _) in maker.symbols.items() if b"Bool" in sorts] or [b"f"]
    terms = []
    for _ in range(random.randint(2, 4)):
        name = random.choice(heads)
        sorts, result = maker.symbols[name]
        depths = {b"Bool": random.choice([0, 1, 2])}
        terms.append((listed(name, [maker.of_sort(sort, depths.get(sort, 0)) for sort in sorts]), result))
    made = []
    for term, result in terms:
        others = [other for other, sort in terms if sort == result] + [maker.of_sort(result, 1)]
        made.append(negated_by_chance(listed(b"=", [term, random.choice(others)])))
    return [*made, *(maker.of_sort(b"Bool", 1) for _ in range(random.randint(0, 3)))]


def many_clauses(maker):
    """Makes clauses over more atoms, near to where about half of such scripts have a model."""
    atoms = [maker.equality(random.choice([1, 1, 2])) for _ in range(random.randint(5, 12))]
    atoms += [maker.of_sort(b"Bool", 2) for _ in range(random.randint(2, 6))]
    made = []
    for _ in range(round(len(atoms) * random.uniform(2, 4.5))):
        chosen = [negated_by_chance(random.choice(atoms)) for _ in range(random.choice([2, 3, 3, 4]))]
        made.append(listed(b"or", chosen))
    return made


def diamonds(maker):
    """Makes ways of two equalities each from a constant to the next, and that the ends of some of them differ."""
    names = [name for name, (sorts, result) in maker.symbols.items() if result == b"U" and not sorts]
    points = names + [power(b"f", count, b"a") for count in range(1, 4)]
    made = []
    for one, other in zip(points, points[1:]):
        ways = [maker.of_sort(b"U", 1) for _ in range(2)]
        made.append(b"(or %s)" % b" ".join(b"(and (= %s %s) (= %s %s))" % (one, way, way, other) for way in ways))
    ends = random.choice(points), random.choice(points)
    return [*made, b"(not (= %s %s))" % ends, *([maker.of_sort(b"Bool", 2)] if random.random() < 0.5 else [])]


SMALL = [nested, nested, literals, literals, clauses, clauses, powers, few_elements, truths_as_arguments, diamonds]


def definitions(maker):
    """Makes definitions of functions, which later terms use as symbols, and symbols of numbers, which none uses."""
    lines = [b"(declare-fun x0 () Real)", b"(declare-fun y0 (Real U) Bool)"] if random.random() < 0.1 else []
    if random.random() < 0.2:
        lines.append(b"(define-sort W () U)")
        lines.append(b"(declare-fun e () W)")
        maker.symbols[b"e"] = ((), b"U")
    if random.random() < 0.2:
        maker.bound = {b"x": b"U", b"y": b"Bool"}
        result = random.choice(SORTS)
        body = maker.of_sort(result, 2)
        maker.bound = {}
        lines.append(b"(define-fun def ((x U) (y Bool)) " + result + b" " + body + b")")
        maker.symbols[b"def"] = ((b"U", b"Bool"), result)
    return lines


def assertion(maker, formula):
    """Writes an assertion, with a name for its term in some cases, which later terms may use."""
    if random.random() < 0.08:
        maker.count += 1
        name = b"n%d" % maker.count
        maker.symbols[name] = ((), b"Bool")
        return b"(assert (! " + formula + b" :named " + name + b"))"
    return b"(assert " + formula + b")"


def declarations(maker):
    """Declares the functions of a maker, in an order by chance."""
    declared = list(maker.symbols.items())
    random.shuffle(declared)
    return [b"(declare-fun %s (%s) %s)" % (name, b" ".join(sorts), result) for name, (sorts, result) in declared]


def text_of(maker, lines, formulas, share):
    """Asserts formulas after some lines, with a check before a share of them, and one at the end."""
    for place, formula in enumerate(formulas):
        if place and random.random() < share:
            lines.append(b"(check-sat)")
        lines.append(assertion(maker, formula))
    return b"\n".join([*lines, b"(check-sat)"]) + b"\n"


def a_function_script():
    """Makes a script; its last command is a check, and some have another one before it."""
    maker = FunctionMaker()
    lines = [b"(set-option :print-success false)"] if random.random() < 0.8 else []
    lines += [b"(set-logic QF_UF)"] if random.random() < 0.5 else []
    lines += [b"(declare-sort U 0)", b"(declare-sort V 0)"]
    lines += declarations(maker)
    lines += definitions(maker)
    formulas = many_clauses(maker) if random.random() < 0.05 else random.choice(SMALL)(maker)
    if random.random() < 0.25:
        formulas += random.choice(SMALL)(maker)[:3]
    share = random.choice([0, 0, 0.1, 0.4])
    return text_of(maker, lines, formulas, share)
