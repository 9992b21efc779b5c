"""Reads what is round the terms of a proof: the row of its commands, and the parts of a step."""

from reading import Fault, behind_blanks, read_one, token


def step_parts(parts, start):
    """Returns the attributes of a step by keyword, or raises the fault of its shape."""
    bad = Fault(start, b"BadShape")
    found = {}
    if len(parts) % 2 == 0:
        # The last keyword has no value, whatever the others are.
        raise bad
    for keyword, value in zip(parts[3::2], parts[4::2]):
        if keyword[0] != "kw" or keyword[1] in found:
            raise bad
        name = keyword[1]
        if name == b":rule":
            is_good = value[0] == "sym"
        elif name in (b":premises", b":discharge"):
            is_good = value[0] == "list" and all(item[0] == "sym" for item in value[1])
        else:
            is_good = name == b":args" and value[0] == "list"
        if not is_good:
            raise bad
        found[name] = value
    if b":rule" not in found:
        raise bad
    return found


def behind_unsat(proof):
    """Returns the offset behind the word `unsat`, or 0 where it does not come first."""
    first = token(proof, 0)
    return first[3] if first and first[:2] == ("sym", b"unsat") else 0


def list_start(proof):
    """Returns the offset of the parenthesis of the list that all commands stand in, or None where there is none."""
    first = token(proof, behind_unsat(proof))
    second = token(proof, first[3]) if first and first[0] == "(" else None
    return first[2] if second and second[0] in "()" else None


def take_row(take, proof):
    """Takes the commands of a proof that stand in no list."""
    at = behind_unsat(proof)
    while True:
        found = read_one(proof, at)
        if found is None:
            return
        take(found[0])
        at = found[1]


def take_list(take, proof, at):
    """Takes the commands of a proof that stand in a list, from behind its start on; returns the place of its end."""
    while True:
        following = token(proof, at)
        if following is None:
            raise Fault(len(proof), b"UnclosedList")
        if following[0] == ")":
            return following[2]
        item, at = read_one(proof, at)
        take(item)


def require_end(proof, at):
    """Raises that something stands behind the list of commands, where something does."""
    if read_one(proof, at) is not None:
        raise Fault(behind_blanks(proof, at), b"BadShape")


def take_all(take, proof):
    """Takes the commands of a proof, alone or in one list, behind the word `unsat` or without it."""
    start = list_start(proof)
    if start is None:
        take_row(take, proof)
    else:
        require_end(proof, take_list(take, proof, start + 1) + 1)
