"""Formulas over equality and functions of one declared sort, family by family, for `bench/race.py search`."""

from itertools import combinations, product

from clause_families import numbers

SORT = "(declare-sort U 0)\n"
# How many terms and how many assertions a script of facts has, and how many constants are below the terms.
TERMS = 200
FACTS = 1_000
CONSTANTS = 40


def declare(name, arguments=0):
    """Declares a symbol with so many arguments."""
    return f"(declare-fun {name} ({' '.join(['U'] * arguments)}) U)\n"


def claim(formula):
    """Asserts a formula."""
    return f"(assert {formula})\n"


def equal(left, right):
    """Returns the equality of two terms."""
    return f"(= {left} {right})"


def diamonds(n, open_at=None):
    """Denies that the ends of n diamonds are equal, of which each has two ways from its first corner to its last one.

    In the diamond open_at one way leads back to the first corner, so there is a model.
    """
    yield SORT
    yield from (declare(f"{corner}{i}") for corner in "xyz" for i in range(n + 1))
    for i in range(n):
        ends = {"y": i + 1, "z": i if i == open_at else i + 1}
        ways = [f"(and {equal(f'x{i}', f'{way}{i}')} {equal(f'{way}{i}', f'x{end}')})" for way, end in ends.items()]
        yield claim(f"(or {' '.join(ways)})")
    yield claim(f"(not {equal('x0', f'x{n}')})")


def open_diamonds(n):
    """Denies that the ends of n diamonds are equal, of which the one in the middle is open."""
    return diamonds(n, n // 2)


def colouring(n):
    """Gives n vertices one of three colours each, and neighbours different ones, at 2.3 edges by chance for each vertex."""
    source = numbers(n)
    colours, vertices = [f"c{i}" for i in range(3)], [f"v{i}" for i in range(n)]
    yield SORT + "".join(map(declare, colours + vertices))
    yield from (claim(f"(not {equal(a, b)})") for a, b in combinations(colours, 2))
    yield from (claim(f"(or {' '.join(equal(v, c) for c in colours)})") for v in vertices)
    edges = set()
    while len(edges) < 23 * n // 10:
        a, b = sorted(next(source) % n for _ in range(2))
        if a != b:
            edges.add((a, b))
    yield from (claim(f"(not {equal(vertices[a], vertices[b])})") for a, b in sorted(edges))


def equalities(n):
    """Denies that the ends of a path of n equalities are equal."""
    yield SORT
    yield from (declare(f"a{i}") for i in range(n + 1))
    yield from (claim(equal(f"a{i}", f"a{i + 1}")) for i in range(n))
    yield claim(f"(not {equal('a0', f'a{n}')})")


def applications(n):
    """Denies that f n times of a is f n times of b, where a is b. Each application is a definition of its own."""
    yield SORT + declare("f", 1) + declare("a0") + declare("b0") + claim(equal("a0", "b0"))
    for i in range(n):
        yield from (f"(define-fun {name}{i + 1} () U (f {name}{i}))\n" for name in "ab")
    yield claim(f"(not {equal(f'a{n}', f'b{n}')})")


def cycles(n):
    """Denies that f of a is a, where f n times of a is a, and so is f n + 1 times of a."""
    yield SORT + declare("f", 1) + declare("a0")
    yield from (f"(define-fun a{i + 1} () U (f a{i}))\n" for i in range(n + 1))
    yield claim(equal(f"a{n}", "a0")) + claim(equal(f"a{n + 1}", "a0")) + claim("(not (= a1 a0))")


def table_of_quasigroup(n):
    """Asserts that the table of g over n elements has each of them once in each row and in each column."""
    elements = [f"e{i}" for i in range(n)]
    yield SORT + declare("g", 2) + "".join(map(declare, elements)) + claim(f"(distinct {' '.join(elements)})")
    for a, b in product(elements, repeat=2):
        yield claim(f"(or {' '.join(equal(f'(g {a} {b})', one) for one in elements)})")
    for a in elements:
        yield claim(f"(distinct {' '.join(f'(g {a} {b})' for b in elements)})")
        yield claim(f"(distinct {' '.join(f'(g {b} {a})' for b in elements)})")


def quasigroup(n):
    """Asserts such a table with g(a, a) = a, and g(g(g(b, a), b), b) = a. Source: Fujita, Slaney and Bennett, IJCAI 1993, QG5."""
    yield from table_of_quasigroup(n)
    elements = [f"e{i}" for i in range(n)]
    yield from (claim(equal(f"(g {a} {a})", a)) for a in elements)
    for a, b in product(elements, repeat=2):
        yield claim(equal(f"(g (g (g {b} {a}) {b}) {b})", a))


def commuting_quasigroup(n):
    """Asserts such a table with g(a, a) = a and g(a, b) = g(b, a), which there is for odd n alone."""
    yield from table_of_quasigroup(n)
    elements = [f"e{i}" for i in range(n)]
    yield from (claim(equal(f"(g {a} {a})", a)) for a in elements)
    yield from (claim(equal(f"(g {a} {b})", f"(g {b} {a})")) for a, b in combinations(elements, 2))


def facts(seed):
    """Asserts 1,000 clauses of one to three equalities, most of them denied, of 200 terms of constants and two functions."""
    source = numbers(seed)
    terms = [f"c{i}" for i in range(CONSTANTS)]
    yield SORT + declare("f", 1) + declare("g", 2) + "".join(map(declare, terms))
    while len(terms) < TERMS:
        a, b = (terms[next(source) % len(terms)] for _ in range(2))
        made = f"(f {a})" if next(source) % 2 else f"(g {a} {b})"
        yield f"(define-fun t{len(terms)} () U {made})\n"
        terms.append(f"t{len(terms)}")
    for _ in range(FACTS):
        yield claim(clause(source, terms))


def clause(source, terms):
    """Returns a clause of one to three equalities of terms by chance, of which one in four is not denied."""
    literals = []
    for _ in range(1 + next(source) % 3):
        a, b = (terms[next(source) % len(terms)] for _ in range(2))
        literals.append(equal(a, b) if next(source) % 4 == 0 else f"(not {equal(a, b)})")
    return literals[0] if len(literals) == 1 else f"(or {' '.join(literals)})"
