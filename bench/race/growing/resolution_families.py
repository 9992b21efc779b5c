"""Proofs by resolution by a number n, each with its script: pairs of a line and its answer, as in script_families.py.

Each proof is valid, and its own last step is the empty clause.
"""

from proof_families import Family, unanswered


def script(constants, assertions):
    """Returns a script that declares the constants and asserts the terms, one command a line."""
    lines = [f"(declare-const {name} Bool)" for name in constants]
    return unanswered([*lines, *(f"(assert {term})" for term in assertions), "(check-sat)"])


def assume(name, term):
    """Returns an assumption."""
    return f"(assume {name} {term})"


def step(name, literals, premises, rule="resolution"):
    """Returns a step with its clause."""
    return f"(step {name} ({' '.join(['cl', *literals])}) :rule {rule} :premises ({' '.join(premises)}))"


def rising(n):
    """A script that asserts p0 to pn, and that pn is false."""
    return script([f"p{i}" for i in range(n + 1)], [*(f"p{i}" for i in range(n + 1)), f"(not p{n})"])


def denied(n, first):
    """A script that asserts a term, and that each of p1 to pn is false."""
    names = [f"p{i}" for i in range(1, n + 1)]
    return script(names, [first, *(f"(not {name})" for name in names)])


def chain(n):
    """From each p(i+1) the clause (not pi) or p(i+1), and with it p(i+1) from pi: 2n + 1 steps with two premises."""
    lines = [assume("t0", "p0")]
    for i in range(n):
        lines.append(assume(f"h{i + 1}", f"p{i + 1}"))
        lines.append(step(f"c{i}", [f"(not p{i})", f"p{i + 1}"], [f"h{i + 1}"]))
        lines.append(step(f"t{i + 1}", [f"p{i + 1}"], [f"t{i}", f"c{i}"]))
    return unanswered([*lines, assume("g", f"(not p{n})"), step("e", [], [f"t{n}", "g"])])


def against_units(n, start, is_helpful):
    """Goes on from a clause c of p1 to pn with one step against the assumptions that these are false."""
    lines = [assume(f"h{i}", f"(not p{i + 1})") for i in range(n)]
    units = [f"h{i}" for i in range(n)]
    return unanswered([*start, *lines, step("e", [], ["c", *units] if is_helpful else [*units, "c"])])


def wide(n, is_helpful=True):
    """One clause of n literals, and one step of n + 1 premises that resolves all of them away."""
    start = [assume("g", "p1"), step("c", [f"p{i}" for i in range(1, n + 1)], ["g"])]
    return against_units(n, start, is_helpful)


def disjunction(n):
    """Returns the disjunction of p1 to pn."""
    return f"(or {' '.join(f'p{i}' for i in range(1, n + 1))})"


def opened(n, is_helpful=True):
    """One disjunction of n constants, which the rule `or` opens, and the same step."""
    start = [assume("g", disjunction(n)), step("c", [f"p{i}" for i in range(1, n + 1)], ["g"], "or")]
    return against_units(n, start, is_helpful)


def ladder(n, is_helpful=True):
    """Clauses (not p(i-1)) or (not pi) or p(i+1), against p0, p1 and (not pn), in one step of n + 2 premises."""
    lines = [assume("h0", "p0"), assume("h1", "p1")]
    for i in range(1, n):
        lines.append(assume(f"h{i + 1}", f"p{i + 1}"))
        lines.append(step(f"c{i}", [f"(not p{i - 1})", f"(not p{i})", f"p{i + 1}"], [f"h{i + 1}"]))
    premises = ["g", *(f"c{i}" for i in range(n - 1, 0, -1)), "h1", "h0"]
    last = step("e", [], premises if is_helpful else reversed(premises))
    return unanswered([*lines, assume("g", f"(not p{n})"), last])


# Those that are not helpful have the long clause last, or the clauses of the ladder the other way round.
FAMILIES = {
    "resolution-chain": Family(rising, chain),
    "resolution-wide": Family(lambda n: denied(n, "p1"), wide),
    "resolution-wide-unhelpful": Family(lambda n: denied(n, "p1"), lambda n: wide(n, False)),
    "resolution-ladder": Family(rising, ladder),
    "resolution-ladder-unhelpful": Family(rising, lambda n: ladder(n, False)),
    "resolution-opened": Family(lambda n: denied(n, disjunction(n)), opened),
    "resolution-opened-unhelpful": Family(lambda n: denied(n, disjunction(n)), lambda n: opened(n, False)),
}
