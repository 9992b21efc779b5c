"""Tells the unsat core of a check, and which of its literals are used, from the text of its proof."""

from judging import Assumed, Judge
from language import Reader
from reading import read_one


def label(item):
    """Returns the name of an assertion: the first that the attributes of its outermost `!` give, or None."""
    if item[0] != "list" or len(item[1]) < 3 or item[1][0][:2] != ("res", b"!"):
        return None
    names = Reader.names_given(item[1][2:], item[2])
    return names[0][1] if names else None


def assumed(check, proof):
    """Returns the terms that a printed proof assumes."""
    judge, terms = Judge(check), set()
    for item in read_one(proof, 0)[0][1]:
        command = judge.read(item)
        judge.learn(command)
        if isinstance(command, Assumed):
            terms.add(command.term)
    return terms


def first_of_each(pairs, terms):
    """Returns the first of each pair whose term is one of these and in no pair before."""
    seen, firsts = set(), []
    for first, term in pairs:
        if term in terms and term not in seen:
            firsts.append(first)
        seen.add(term)
    return firsts


def core(check, proof):
    """Returns the names of the assertions that the core of a check has."""
    labelled = [(label(item), term) for item, term in zip(check.stated, check.assertions)]
    unnamed = {term for name, term in labelled if name is None}
    return first_of_each([pair for pair in labelled if pair[0] is not None], assumed(check, proof) - unnamed)


def used(check, proof):
    """Returns the literals of a check, as items, that its proof uses."""
    count = len(check.stated)
    terms = assumed(check, proof) - set(check.assertions[:count])
    return first_of_each(list(zip(check.supposed, check.assertions[count:])), terms)
