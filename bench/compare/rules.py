"""The 60 rules of proofs as docs/ALETHE.md lists them, over terms by number; a clause is a list of these."""

from arithmetic_rules import ARITHMETIC_RULES, calculates
from equality_rules import EQUALITY_RULES, equates
from literals import strip

HEADS = {
    b"and": b"and_pos and_neg",
    b"or": b"or_pos or_neg",
    b"=>": b"implies_pos implies_neg1 implies_neg2",
    b"=": b"equiv_pos1 equiv_pos2 equiv_neg1 equiv_neg2",
    b"xor": b"xor_pos1 xor_pos2 xor_neg1 xor_neg2",
    b"ite": b"ite_pos1 ite_pos2 ite_neg1 ite_neg2",
}
HEAD_OF = {rule: head for head, names in HEADS.items() for rule in names.split()}
STATING = set(HEAD_OF) | {b"true", b"false", b"not_not"}
# Of a rule with one premise of one literal: the rule that states its clause behind the premise's complement.
PREMISED = {
    b"and": b"and_pos",
    b"not_and": b"and_neg",
    b"not_or": b"or_neg",
    b"implies": b"implies_pos",
    b"not_implies1": b"implies_neg1",
    b"not_implies2": b"implies_neg2",
    b"equiv1": b"equiv_pos2",
    b"equiv2": b"equiv_pos1",
    b"not_equiv1": b"equiv_neg2",
    b"not_equiv2": b"equiv_neg1",
    b"xor1": b"xor_pos1",
    b"xor2": b"xor_pos2",
    b"not_xor1": b"xor_neg1",
    b"not_xor2": b"xor_neg2",
    b"ite1": b"ite_pos1",
    b"ite2": b"ite_pos2",
    b"not_ite1": b"ite_neg1",
    b"not_ite2": b"ite_neg2",
}
SUBSET_RULES = (b"contraction", b"reordering", b"weakening")
RESOLUTIONS = (b"resolution", b"th_resolution")
RULES = STATING | set(PREMISED) | set(SUBSET_RULES) | set(RESOLUTIONS) | EQUALITY_RULES | ARITHMETIC_RULES | {b"or"}
assert len(RULES) == 60


def resolution(terms, premises, clause):
    """Tells whether unit propagation from the negated clause and the premises meets a conflict.

    Each literal that comes to be false is looked up once in the premises that have it.
    """
    values, false = {}, []
    for literal in clause:
        inner, sign = strip(terms, literal)
        if values.get(inner, not sign) == sign:
            return True
        if inner not in values:
            values[inner] = not sign
            false.append((inner, sign))
    clauses = [{strip(terms, literal) for literal in premise} for premise in premises]
    left, having = [len(literals) for literals in clauses], {}
    for number, literals in enumerate(clauses):
        for literal in literals:
            having.setdefault(literal, []).append(number)
    units = [number for number, count in enumerate(left) if count <= 1]
    while units or false:
        if not units:
            for number in having.get(false.pop(), ()):
                left[number] -= 1
                if left[number] <= 1:
                    units.append(number)
            continue
        open_ones = [(inner, sign) for inner, sign in clauses[units.pop()] if values.get(inner, sign) == sign]
        if not open_ones:
            return True
        inner, sign = open_ones[0]
        if len(open_ones) == 1 and inner not in values:
            values[inner] = sign
            false.append((inner, not sign))
    return False


def binary_rest(terms, rule, arguments):
    """Returns what stands behind the term in the clause of a rule on `=>`, `=`, `xor` or `ite`."""
    no = terms.negation
    x, y = arguments[0], arguments[1]
    if rule.startswith(b"ite"):
        z = arguments[2]
        return {
            b"ite_pos1": [x, z],
            b"ite_pos2": [no(x), y],
            b"ite_neg1": [x, no(z)],
            b"ite_neg2": [no(x), no(y)],
        }[rule]
    return {
        b"implies_pos": [no(x), y],
        b"implies_neg1": [x],
        b"implies_neg2": [no(y)],
        b"equiv_pos1": [x, no(y)],
        b"equiv_pos2": [no(x), y],
        b"equiv_neg1": [no(x), no(y)],
        b"equiv_neg2": [x, y],
        b"xor_pos1": [x, y],
        b"xor_pos2": [no(x), no(y)],
        b"xor_neg1": [x, no(y)],
        b"xor_neg2": [no(x), y],
    }[rule]


def states(terms, rule, clause):
    """Tells whether a rule without premises states the clause."""
    if rule == b"true":
        return clause == [terms.make(b"true")]
    if rule == b"false":
        return clause == [terms.negation(terms.make(b"false"))]
    if not clause:
        return False
    no = terms.negation
    first, rest = clause[0], list(clause[1:])
    if rule == b"not_not":
        return len(rest) == 1 and first == no(no(no(rest[0])))
    if b"_pos" in rule:
        if terms.nodes[first][0] != b"not":
            return False
        first = terms.nodes[first][1][0]
    head, arguments = terms.nodes[first]
    if head != HEAD_OF[rule] or not all(map(terms.is_formula, arguments)):
        return False
    if rule == b"and_pos":
        return len(rest) == 1 and rest[0] in arguments
    if rule == b"and_neg":
        return rest == [no(argument) for argument in arguments]
    if rule == b"or_pos":
        return rest == list(arguments)
    if rule == b"or_neg":
        return len(rest) == 1 and rest[0] in [no(argument) for argument in arguments]
    return rest == binary_rest(terms, rule, arguments)


def follows(terms, rule, premises, clause, items=()):
    """Tells whether the clause follows from the premises by the rule, with the items of its arguments."""
    if rule in STATING:
        return not premises and states(terms, rule, clause)
    if rule in RESOLUTIONS:
        return resolution(terms, premises, clause)
    if rule in EQUALITY_RULES:
        return equates(terms, rule, premises, clause)
    if rule in ARITHMETIC_RULES:
        return calculates(terms, rule, premises, clause, items)
    if len(premises) != 1:
        return False
    premise = premises[0]
    if rule in SUBSET_RULES:
        return all(literal in clause for literal in premise)
    if len(premise) != 1:
        return False
    head, arguments = terms.nodes[premise[0]]
    if rule == b"or":
        return head == b"or" and all(argument in clause for argument in arguments)
    complement = arguments[0] if head == b"not" else terms.negation(premise[0])
    return states(terms, PREMISED[rule], [complement, *clause])
