"""Makes steps by rules of equality by chance, right or near to it.

`some` gives a term of a sort, by number; clauses are lists of terms. Premises are mostly equalities of formulas.
"""

import random

from clauses import changed_clause
from equality_rules import CHOICES, EQUALITY_RULES, PREMISED_EQUALITIES, REFLEXIVE, sides
from terms import BOOL, REAL

ALL_EQUALITY_RULES = sorted(EQUALITY_RULES)
# Heads that may not stand before all arguments of their sorts: a product and a quotient have to stay linear.
NARROW = (b"*", b"/")


def equal(terms, one, other):
    """Returns an equality of two terms, in either direction."""
    return terms.make(b"=", random.choice([(one, other), (other, one)]))


def chain(terms, some, sort, most=4):
    """Returns equalities that lead from a term to another, and that of the two."""
    links = [some(sort) for _ in range(random.randint(2, most))]
    reasons = [equal(terms, one, other) for one, other in zip(links, links[1:])]
    return reasons, terms.make(b"=", (links[0], links[-1]))


def congruence(terms, some, whole):
    """Returns reasons for a term with other arguments to be equal to it, in any order, and this term."""
    head, given = terms.nodes[whole]
    others = [some(terms.sorts[t]) if random.random() < 0.7 else t for t in given]
    reasons = [equal(terms, t, u) for t, u in zip(given, others) if t != u or random.random() < 0.2]
    random.shuffle(reasons)
    return reasons, terms.make(head, others, terms.sorts[whole])


def with_arguments(terms, some, sort):
    """Returns a term with arguments, which others of their sorts may replace."""
    for _ in range(20):
        term = some(sort)
        head, given = terms.nodes[term]
        if given and head not in NARROW:
            return term
    return terms.negation(some(BOOL))


def right_step(terms, some, rule, sort):
    """Returns clauses of premises and a clause that the rule takes, or nearly all of them."""
    no = terms.negation
    if rule in REFLEXIVE:
        term = some(sort)
        return [], [terms.make(b"=", (term, term))]
    if rule in CHOICES:
        condition, one, other = some(BOOL), some(sort), some(sort)
        whole = terms.make(b"ite", (condition, one, other), sort)
        if rule == b"x_ite_then":
            return [], [no(condition), terms.make(b"=", (whole, one))]
        return [], [condition, terms.make(b"=", (whole, other))]
    if rule in (b"eq_transitive", b"trans", b"symm"):
        reasons, conclusion = chain(terms, some, sort, 2 if rule == b"symm" else 4)
    else:
        one = with_arguments(terms, some, BOOL if rule == b"eq_congruent_pred" else sort)
        reasons, other = congruence(terms, some, one)
        conclusion = terms.make(b"=", (one, other))
        if rule == b"eq_congruent_pred" and random.random() < 0.6:
            return [], [*map(no, reasons), no(one), other]
    if rule in PREMISED_EQUALITIES:
        return [[reason] for reason in reasons], [conclusion]
    return [], [*map(no, reasons), conclusion]


def near_clause(terms, some, clause):
    """Changes a clause as makes a step of equality wrong, or leaves it right."""
    clause = list(clause)
    at = random.randrange(len(clause))
    ends = sides(terms, clause[-1])
    choice = random.randrange(6)
    if choice == 0 and ends:
        clause[-1] = terms.make(b"=", ends[::-1])
    elif choice == 1:
        del clause[at]
    elif choice == 2:
        clause.insert(at, random.choice([some(BOOL), clause[at]]))
    elif choice == 3 and ends:
        other = random.choice([some(terms.sorts[ends[0]]), ends[0]])
        clause[-1] = terms.make(b"=", random.choice([(ends[0], other), (other, ends[1])]))
    elif choice == 4:
        random.shuffle(clause)
    else:
        return changed_clause(terms, clause)
    return clause


def near_premises(terms, some, premises):
    """Changes premises as makes a step of equality wrong, or leaves it right."""
    premises = list(premises)
    at = random.randrange(len(premises) + 1)
    choice = random.randrange(5)
    if choice == 0 or not premises:
        one = some(BOOL)
        premises.insert(at, [random.choice([equal(terms, one, some(BOOL)), one])])
    elif choice == 1:
        del premises[min(at, len(premises) - 1)]
    elif choice == 2:
        random.shuffle(premises)
    elif choice == 3:
        premises[min(at, len(premises) - 1)] = [*premises[min(at, len(premises) - 1)], some(BOOL)]
    else:
        number = premises[min(at, len(premises) - 1)][0]
        premises[min(at, len(premises) - 1)] = [terms.negation(number)]
    return premises


def equality_step(terms, some, sorts):
    """Returns a rule of equality, clauses of premises and a clause, right in about half of the cases."""
    rule = random.choice(ALL_EQUALITY_RULES)
    sort = BOOL if rule in (b"symm", b"trans") else random.choice([BOOL, REAL, *sorts])
    if rule == b"cong":
        sort = random.choice([BOOL, *sorts])
    if rule in CHOICES and random.random() < 0.9:
        sort = random.choice([REAL, *sorts])
    premises, clause = right_step(terms, some, rule, sort)
    for _ in range(random.choice([0, 0, 0, 1, 1, 2])):
        if random.random() < 0.6 or (rule not in PREMISED_EQUALITIES and random.random() < 0.9):
            clause = near_clause(terms, some, clause) if clause else clause
        else:
            premises = near_premises(terms, some, premises)
    return random.choice([rule] * 8 + [random.choice(ALL_EQUALITY_RULES)]), premises, clause


def equality_of_held(terms, some, held, sorts):
    """Returns a rule of equality, names of premises and a clause; `held` has clauses by name."""
    given = {name: sides(terms, clause[0]) for name, clause in held.items() if len(clause) == 1}
    given = {name: ends for name, ends in given.items() if ends}
    if not given or random.random() < 0.4:
        rule, premises, clause = equality_step(terms, some, sorts)
        return (rule, [], clause) if not premises else (b"refl", [], [terms.make(b"=", (some(BOOL),) * 2)])
    name, (one, other) = random.choice(sorted(given.items()))
    choice = random.random()
    if choice < 0.2:
        return b"symm", [name], [equal(terms, one, other)]
    if choice < 0.5:
        names, start, end = [name], one, other
        for further, ends in random.sample(sorted(given.items()), len(given)):
            if end in ends and random.random() < 0.8:
                names.append(further)
                end = ends[1] if ends[0] == end else ends[0]
        return b"trans", names, [terms.make(b"=", (start, end))]
    where = [(number, node) for number, node in enumerate(terms.nodes) if one in node[1] and node[0] not in NARROW]
    where = [(number, node) for number, node in where if terms.is_closed(number)]
    whole, (head, arguments) = random.choice(where)
    others = [other if t == one and random.random() < 0.8 else t for t in arguments]
    names = [name] if random.random() < 0.8 else random.sample(sorted(held), min(len(held), 3))
    return b"cong", names, [terms.make(b"=", (whole, terms.make(head, others, terms.sorts[whole])))]
