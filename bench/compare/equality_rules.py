"""The 11 rules of equality and functions as docs/ALETHE.md lists them, over terms by number.

A clause is a list of these. A *reason* is an equality that is a premise alone, or that a literal of the clause denies;
it may stand in either direction.
"""

REFLEXIVE = (b"eq_reflexive", b"refl", b"distinct_elim")
PREMISED_EQUALITIES = (b"symm", b"trans", b"cong")
CHOICES = (b"x_ite_then", b"x_ite_else")
EQUALITY_RULES = {*REFLEXIVE, *PREMISED_EQUALITIES, *CHOICES, b"eq_transitive", b"eq_congruent", b"eq_congruent_pred"}
assert len(EQUALITY_RULES) == 11


def sides(terms, number):
    """Returns the two sides of an equality, or None."""
    head, given = terms.nodes[number]
    return given if head == b"=" else None


def denied_sides(terms, literal):
    """Returns the two sides of the equality that a literal denies by one `not`, or None."""
    head, given = terms.nodes[literal]
    return sides(terms, given[0]) if head == b"not" else None


def lone_sides(terms, clause):
    """Returns the two sides of the equality that is a clause alone, or None."""
    return sides(terms, clause[0]) if len(clause) == 1 else None


def lead(reasons, start, end):
    """Tells whether reasons, at least one, lead in their order from one term to another."""
    for reason in reasons:
        if reason is None or start not in reason:
            return False
        start = reason[1] if reason[0] == start else reason[0]
    return bool(reasons) and start == end


def are_congruent(terms, reasons, one, other):
    """Tells whether two terms have one head and arguments that are the same, or that a reason joins, place by place."""
    (head, given), (other_head, others) = terms.nodes[one], terms.nodes[other]
    if head != other_head or len(given) != len(others) or not given:
        return False
    joined = {pair for reason in reasons if reason for pair in (reason, reason[::-1])}
    return all(t == u or (t, u) in joined for t, u in zip(given, others))


def is_congruent(terms, clause, of_formulas):
    """Tells whether `eq_congruent` states the clause, or `eq_congruent_pred` where the two terms are formulas."""
    ends = sides(terms, clause[-1]) if clause else None
    if ends and (not of_formulas or terms.is_formula(ends[0])):
        if are_congruent(terms, [denied_sides(terms, literal) for literal in clause[:-1]], *ends):
            return True
    if not of_formulas or len(clause) < 2 or terms.nodes[clause[-2]][0] != b"not":
        return False
    reasons = [denied_sides(terms, literal) for literal in clause[:-2]]
    return are_congruent(terms, reasons, terms.nodes[clause[-2]][1][0], clause[-1])


def is_choice(terms, rule, clause):
    """Tells whether a rule of `ite` states the clause, over a sort other than Bool."""
    ends = sides(terms, clause[1]) if len(clause) == 2 else None
    if not ends or terms.is_formula(ends[1]) or terms.nodes[ends[0]][0] != b"ite":
        return False
    condition, then, other = terms.nodes[ends[0]][1]
    if rule == b"x_ite_then":
        return clause[0] == terms.negation(condition) and ends[1] == then
    return clause[0] == condition and ends[1] == other


def equates(terms, rule, premises, clause):
    """Tells whether the clause follows from the premises by the rule of equality."""
    if rule in PREMISED_EQUALITIES:
        ends = lone_sides(terms, clause)
        reasons = [lone_sides(terms, premise) for premise in premises]
        if not ends or (rule == b"symm" and len(premises) != 1):
            return False
        return are_congruent(terms, reasons, *ends) if rule == b"cong" else lead(reasons, *ends)
    if premises:
        return False
    if rule in REFLEXIVE:
        ends = lone_sides(terms, clause)
        return ends is not None and ends[0] == ends[1]
    if rule == b"eq_transitive":
        ends = sides(terms, clause[-1]) if clause else None
        return ends is not None and lead([denied_sides(terms, literal) for literal in clause[:-1]], *ends)
    if rule in CHOICES:
        return is_choice(terms, rule, clause)
    return is_congruent(terms, clause, rule == b"eq_congruent_pred")
