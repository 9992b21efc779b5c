"""Judges the reasons that `certify` writes after `unknown`, as docs/FORMATS.md says.

The limit is that of the run, of the clauses that a check may learn. One that is None is not to be reached by what is
run. An operation on numbers has to leave 128 bits, and comes where there are numbers.
"""

from typing import NamedTuple

from printed_proofs import printed
from printed_values import Wrong, number_of, require
from reading import Fault, read_one
from values import Overflow, add, multiply

OPERATIONS = {b"add": (add, "Add"), b"sub": (add, "Sub"), b"mul": (multiply, "Mul"), b"div": (multiply, "Div")}


class Limits(NamedTuple):
    """How many conflicts a check may learn from; None where that may not be reached."""

    conflicts: int | None = None

    @property
    def words(self):
        """The words that tell the program these limits."""
        return [] if self.conflicts is None else ["--conflicts", str(self.conflicts)]


NONE = Limits()
# What the program takes where no option is given.
USUAL = Limits(1_000_000)


def leaves(name, left, right):
    """Tells whether an operation on two numbers leaves 128 bits."""
    operation, meant = OPERATIONS[name]
    require(meant != "Div" or right != 0, "a quotient by 0")
    try:
        operation(meant, left, right)
    except Overflow:
        return True
    return False


def require_reason(item, has_numbers, limits):
    """Raises what is wrong with a reason, under the limits of the run."""
    kind, parts, _ = item
    require(kind == "list" and parts and parts[0][0] == "sym", "no reason")
    word = parts[0][1]
    if word == b"overflow":
        require(has_numbers, "an overflow without numbers")
        require(len(parts) == 4 and parts[1][0] == "sym" and parts[1][1] in OPERATIONS, "no operation")
        require(leaves(parts[1][1], *map(number_of, parts[2:])), "an operation that does not leave 128 bits")
        return
    require(word == b"conflicts" and len(parts) == 2 and parts[1][0] == "num", "no reason")
    limit = limits.conflicts
    require(limit is not None and parts[1][1] == b"%d" % limit, f"not the limit {limit}")


def reason_end(check, output, at, limits):
    """Returns the offset behind the reason that starts at `at`, which has to stand on a line, and to be right."""
    try:
        found = read_one(output, at)
    except Fault as fault:
        raise Wrong(f"the reason is not readable: {fault.name!r}") from fault
    require(found is not None, "no reason starts here")
    line = printed(found[0]) + b"\n"
    require(output.startswith(line, at), "the reason is not printed on a line")
    require_reason(found[0], check.has_numbers, limits)
    return at + len(line)
