"""Performs `define-fun`, of a script and of a proof."""

from language import Definition, Reader, is_name
from reading import Fault


def define_fun(state, parts, start):
    """Performs `define-fun`."""
    if len(parts) != 5 or not is_name(parts[1]) or parts[2][0] != "list" or not Reader.are_pairs(parts[2][1]):
        raise Fault(start, b"BadShape")
    name = state.new_function(parts[1])
    reader = state.reader(name)
    parameters = []
    for _, (parameter, sort), _ in parts[2][1]:
        new = reader.new_name(parameter, lambda n: n in [m for m, _ in parameters])
        parameters.append((new, state.sort(sort)))
    result = state.sort(parts[3])
    bound = {new: state.terms.make(("parameter", k, sort), (), sort) for k, (new, sort) in enumerate(parameters)}
    term = reader.term(bound, parts[4])
    if state.terms.sorts[term] != result:
        raise Fault(parts[4][2], b"WrongSort")
    made = {**reader.made, name: Definition(name, parameters, term)}
    state.require_room(start, len(made), [d.term for d in made.values()])
    state.functions.update(made)
    return "success"
