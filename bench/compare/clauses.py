"""Makes clauses by chance that rules give, and changes them; a clause is a list of terms by number."""

import random

from literals import strip
from rules import PREMISED, RESOLUTIONS, STATING, SUBSET_RULES

LARGEST = 60


def size(terms, number):
    """Returns the number of subterms, each as often as it stands there, or one more than the largest size wanted."""
    count = 0
    waiting = [number]
    while waiting and count <= LARGEST:
        count += 1
        waiting += terms.nodes[waiting.pop()][1]
    return count


def stated_clause(terms, rule, some):
    """Returns a clause that the rule states, over formulas that `some` gives."""
    no = terms.negation
    x, y, z = some(), some(), some()
    y = random.choice([x, no(x)] + [y] * 10)
    several = [some() for _ in range(random.choice([1, 2, 2, 3, 4]))]
    conjunction = terms.make(b"and", several)
    disjunction = terms.make(b"or", several)
    implication = terms.make(b"=>", (x, y))
    equality = terms.make(b"=", (x, y))
    difference = terms.make(b"xor", (x, y))
    choice = terms.make(b"ite", (x, y, z))
    return {
        b"true": [terms.make(b"true")],
        b"false": [no(terms.make(b"false"))],
        b"not_not": [no(no(no(x))), x],
        b"and_pos": [no(conjunction), random.choice(several)],
        b"and_neg": [conjunction, *map(no, several)],
        b"or_pos": [no(disjunction), *several],
        b"or_neg": [disjunction, no(random.choice(several))],
        b"implies_pos": [no(implication), no(x), y],
        b"implies_neg1": [implication, x],
        b"implies_neg2": [implication, no(y)],
        b"equiv_pos1": [no(equality), x, no(y)],
        b"equiv_pos2": [no(equality), no(x), y],
        b"equiv_neg1": [equality, no(x), no(y)],
        b"equiv_neg2": [equality, x, y],
        b"xor_pos1": [no(difference), x, y],
        b"xor_pos2": [no(difference), no(x), no(y)],
        b"xor_neg1": [difference, x, no(y)],
        b"xor_neg2": [difference, no(x), y],
        b"ite_pos1": [no(choice), x, z],
        b"ite_pos2": [no(choice), no(x), y],
        b"ite_neg1": [choice, x, no(z)],
        b"ite_neg2": [choice, no(x), no(y)],
    }[rule]


def exchanged(terms, number):
    """Returns the term with its arguments in the other order, or with another head."""
    head, arguments = terms.nodes[number]
    binary = [b"and", b"or", b"xor", b"=", b"=>"]
    if head in binary and len(arguments) == 2 and random.random() < 0.5:
        return terms.make(random.choice(binary), arguments)
    return terms.make(head, tuple(reversed(arguments)), terms.sorts[number]) if len(arguments) > 1 else number


def changed_clause(terms, clause, times=1):
    """Changes a clause at one place or several; it may stay right."""
    clause = list(clause)
    for _ in range(times if clause else 0):
        at = random.randrange(len(clause))
        other = random.randrange(len(clause))
        arguments = terms.nodes[clause[at]][1]
        choice = random.randrange(11)
        if choice == 0 and len(clause) > 1:
            del clause[at]
        elif choice == 1:
            clause.insert(at, clause[other])
        elif choice == 2:
            clause[at], clause[other] = clause[other], clause[at]
        elif choice == 3:
            clause[at] = terms.negation(clause[at])
        elif choice == 4:
            clause[at] = terms.negation(terms.negation(clause[at]))
        elif choice == 5:
            clause.append(terms.make(random.choice([b"true", b"false"])))
        elif choice == 6:
            clause.reverse()
        elif choice == 7 and arguments:
            clause[at] = random.choice(arguments)
        elif choice == 8:
            clause[at] = exchanged(terms, clause[at])
        elif choice > 8:
            clause[1:] = random.sample(clause[1:], len(clause) - 1)
    return clause


def opened(terms, literal):
    """Returns the pairs of a rule and a clause that it gives from the premise of this literal."""
    no = terms.negation
    head, arguments = terms.nodes[literal]
    is_negated = head == b"not"
    if is_negated:
        head, arguments = terms.nodes[arguments[0]]
    x, y = (*arguments, None, None)[:2]
    if head == b"and":
        return [(b"not_and", list(map(no, arguments)))] if is_negated else [(b"and", [random.choice(arguments)])]
    if head == b"or":
        return [(b"not_or", [no(random.choice(arguments))])] if is_negated else [(b"or", list(arguments))]
    if head == b"=>":
        return [(b"not_implies1", [x]), (b"not_implies2", [no(y)])] if is_negated else [(b"implies", [no(x), y])]
    if head == b"=":
        if is_negated:
            return [(b"not_equiv1", [x, y]), (b"not_equiv2", [no(x), no(y)])]
        return [(b"equiv1", [no(x), y]), (b"equiv2", [x, no(y)])]
    if head == b"xor":
        if is_negated:
            return [(b"not_xor1", [x, no(y)]), (b"not_xor2", [no(x), y])]
        return [(b"xor1", [x, y]), (b"xor2", [no(x), no(y)])]
    if head == b"ite":
        z = arguments[2]
        if is_negated:
            return [(b"not_ite1", [x, no(z)]), (b"not_ite2", [no(x), no(y)])]
        return [(b"ite1", [x, z]), (b"ite2", [no(x), y])]
    return []


def resolved(terms, clauses):
    """Returns what resolving the clauses in their order leaves, a pair of literals at most each time."""
    left = {}
    for clause in clauses:
        literals = {strip(terms, literal): literal for literal in clause}
        for inner, sign in list(literals):
            if (inner, not sign) in left:
                del left[(inner, not sign)]
                del literals[(inner, sign)]
                break
        left.update(literals)
    return list(left.values())


def negated_by_chance(terms, number, counts):
    """Negates a term as often as one of the counts says."""
    for _ in range(random.choice(counts)):
        number = terms.negation(number)
    return number


def single_step(terms, atom):
    """Returns a rule, clauses of premises and a clause, right or near to it, over formulas that `atom` gives."""

    def literal():
        return negated_by_chance(terms, atom(), [0, 0, 1, 1, 2, 3])

    choice = random.random()
    times = random.choice([0, 0, 0, 1, 1, 2])
    pool = [literal() for _ in range(3)]

    def some():
        return random.choice(pool) if random.random() < 0.6 else atom()

    if choice < 0.3:
        rule = random.choice(sorted(STATING))
        clause = changed_clause(terms, stated_clause(terms, rule, some), times)
        return random.choice([rule] * 6 + [random.choice(sorted(STATING))]), [], clause
    if choice < 0.55:
        rule = random.choice(sorted(PREMISED))
        first, *clause = stated_clause(terms, PREMISED[rule], some)
        head, arguments = terms.nodes[first]
        premise = arguments[0] if head == b"not" else terms.negation(first)
        premise = negated_by_chance(terms, premise, [0] * 9 + [1, 2])
        rule = random.choice([rule] * 6 + [random.choice(sorted(PREMISED))])
        premises = random.choice([[[premise]]] * 20 + [[], [[premise], [literal()]], [[premise, literal()]]])
        return rule, premises, changed_clause(terms, clause, times)
    if choice < 0.72:
        premise = [literal() for _ in range(random.randint(1, 4))]
        clause = changed_clause(terms, random.sample(premise, len(premise)), times)
        if choice < 0.64:
            return random.choice(SUBSET_RULES), [premise], clause
        head = random.choice([b"or"] * 9 + [b"and"])
        whole = negated_by_chance(terms, terms.make(head, premise), [0] * 12 + [2])
        return b"or", [random.choice([[whole]] * 12 + [premise])], clause
    atoms = [atom() for _ in range(random.randint(1, 4))]
    atoms += random.choice([[]] * 4 + [[terms.make(b"false")]])

    def of_atoms(counts):
        chosen = [random.choice(atoms) for _ in range(random.choice(counts))]
        return [negated_by_chance(terms, number, [0, 0, 0, 1, 1, 1, 2, 3]) for number in chosen]

    premises = [of_atoms([1, 1, 2, 2, 3]) for _ in range(random.randint(0, 5))]
    return random.choice(RESOLUTIONS), premises, of_atoms([0, 0, 1, 1, 2, 3])
