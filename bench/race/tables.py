"""Tables as Markdown, and the cells that several races have."""

import math

# Times below these, of which the start of a process takes a good part, count as that long: in ratios of two programs, and of a
# program at two sizes.
SHORTEST = 0.001
SHORTEST_GROWN = 0.01


def row(cells):
    """Prints the cells of a row."""
    print("| " + " | ".join(cells) + " |", flush=True)


def head(cells):
    """Prints the head of a table."""
    row(cells)
    print("|---" * len(cells) + "|", flush=True)


def mean(ratios):
    """Returns the geometric mean as a cell."""
    return f"{math.exp(sum(map(math.log, ratios)) / len(ratios)):.2f}" if ratios else ""


def ratio(seconds, other):
    """Returns how many times as long one program took as another."""
    return max(seconds, SHORTEST) / max(other, SHORTEST)


def times_before(seconds, before):
    """Returns how many times as long a row took as the one before it, if there is one, as a cell."""
    return "" if before is None else f"{seconds / max(before, SHORTEST):.1f}"


def is_too_long(seconds, before, most):
    """Tells whether a row took more than so many times as long as the one before it, if there is one."""
    return before is not None and max(seconds, SHORTEST_GROWN) > most * max(before, SHORTEST_GROWN)
