"""Literals of terms by number."""


def strip(terms, term):
    """Returns the term under all its negations, and whether their number is even."""
    is_positive = True
    while terms.nodes[term][0] == b"not":
        term = terms.nodes[term][1][0]
        is_positive = not is_positive
    return term, is_positive
