"""Reads scripts, command by command, as SMT-LIB 2.6 has them; terms are read by language.py."""

from defining import define_fun
from language import Check, State, is_name
from questions import QUESTIONS, Question
from reading import THEORY, Fault, error_line, read_one
from terms import BOOL

LOGICS = (b"QF_UFLRA", b"QF_UF", b"QF_LRA", b"QF_RDL", b"ALL")
MOST_LEVELS = 1_000_000
GREATEST_NUMBER = 2**64 - 1


def set_logic(state, parts, start):
    """Performs `set-logic`."""
    if len(parts) != 2 or not is_name(parts[1]):
        raise Fault(start, b"BadShape")
    kind, name, place = parts[1]
    if kind == "res":
        raise Fault(place, b"Reserved")
    if name not in LOGICS:
        raise Fault(place, b"UnknownLogic")
    if state.has_begun:
        raise Fault(start, b"WrongMode")
    return "success"


def set_option(state, parts, start):
    """Performs `set-option`."""
    if len(parts) != 3 or parts[1][0] != "kw":
        raise Fault(start, b"BadShape")
    if parts[1][1] not in state.options:
        return "unsupported"
    if parts[2][0] != "sym" or parts[2][1] not in (b"true", b"false"):
        raise Fault(start, b"BadShape")
    if parts[1][1] == b":global-declarations" and state.has_begun:
        raise Fault(start, b"WrongMode")
    state.options[parts[1][1]] = parts[2][1] == b"true"
    return "success"


def set_info(_state, parts, start):
    """Performs `set-info`."""
    if len(parts) not in (2, 3) or parts[1][0] != "kw":
        raise Fault(start, b"BadShape")
    return "success"


def declare_sort(state, parts, start):
    """Performs `declare-sort`."""
    if len(parts) != 3 or not is_name(parts[1]) or parts[2][:2] != ("num", b"0"):
        raise Fault(start, b"BadShape")
    name = state.new_sort(parts[1])
    state.require_room(start, 1)
    state.sorts[name] = (name, "declared")
    return "success"


def define_sort(state, parts, start):
    """Performs `define-sort`."""
    if len(parts) != 4 or not is_name(parts[1]) or parts[2][:2] != ("list", []):
        raise Fault(start, b"BadShape")
    name = state.new_sort(parts[1])
    sort = state.sort(parts[3])
    state.require_room(start, 1)
    state.sorts[name] = sort
    return "success"


def declare(state, parts, start):
    """Performs `declare-const` and `declare-fun`."""
    takes = parts[0][1] == b"declare-fun"
    if len(parts) != 3 + takes or not is_name(parts[1]) or (takes and parts[2][0] != "list"):
        raise Fault(start, b"BadShape")
    name = state.new_function(parts[1])
    sorts = [state.sort(item) for item in parts[2][1]] if takes else []
    result = state.sort(parts[-1])
    state.require_room(start, 1)
    state.functions[name] = (sorts, result)
    return "success"


def assert_term(state, parts, start):
    """Performs `assert`."""
    if len(parts) != 2:
        raise Fault(start, b"BadShape")
    reader = state.reader()
    term = reader.term({}, parts[1])
    if state.terms.sorts[term] != BOOL:
        raise Fault(parts[1][2], b"WrongSort")
    state.require_room(start, len(reader.made), [term])
    state.functions.update(reader.made)
    state.assertions.append(term)
    state.written.append(parts[1])
    return "success"


def levels_of(parts, start):
    """Returns the number of levels that `push` or `pop` has: 1 where none is written, and at most 2^64 - 1."""
    if len(parts) == 1:
        return 1
    if len(parts) != 2 or parts[1][0] != "num":
        raise Fault(start, b"BadShape")
    return min(int(parts[1][1]), GREATEST_NUMBER)


def push(state, parts, start):
    """Performs `push`."""
    count = levels_of(parts, start)
    if len(state.levels) + count > MOST_LEVELS:
        raise Fault(start, b"Full")
    state.open_levels(count)
    return "success"


def pop(state, parts, start):
    """Performs `pop`."""
    count = levels_of(parts, start)
    if count > len(state.levels):
        raise Fault(start, b"PopTooFar")
    state.close_levels(count)
    return "success"


def reset_assertions(state, parts, start):
    """Performs `reset-assertions`."""
    if len(parts) != 1:
        raise Fault(start, b"BadShape")
    state.forget_assertions()
    return "success"


def reset(state, parts, start):
    """Performs `reset`."""
    if len(parts) != 1:
        raise Fault(start, b"BadShape")
    state.forget_all()
    return "success"


def check_sat(state, parts, start):
    """Performs `check-sat`, which assumes nothing."""
    if len(parts) != 1:
        raise Fault(start, b"BadShape")
    state.literals = []
    return []


def literal(state, item):
    """Returns the term of a literal that a check assumes: a name of sort Bool without parameters, or its negation."""
    kind, value, start = item
    is_negated = kind == "list" and len(value) == 2 and value[0][:2] == ("sym", b"not")
    name_kind, name, place = value[1] if is_negated else item
    if name_kind != "sym" or name in THEORY:
        raise Fault(start, b"NotLiteral")
    if name not in state.functions:
        raise Fault(place, b"UnknownSymbol")
    if name not in state.propositions():
        raise Fault(start, b"NotLiteral")
    return state.reader().term({}, item)


def check_sat_assuming(state, parts, start):
    """Performs `check-sat-assuming`; returns the terms of its literals."""
    if len(parts) != 2 or parts[1][0] != "list":
        raise Fault(start, b"BadShape")
    assumed = [literal(state, item) for item in parts[1][1]]
    state.require_room(start, 0, assumed)
    state.literals = parts[1][1]
    return assumed


def echo(_state, parts, start):
    """Performs `echo`."""
    if len(parts) != 2 or parts[1][0] != "str":
        raise Fault(start, b"BadShape")
    return parts[1][1] + b"\n"


def leave(_state, parts, start):
    """Performs `exit`."""
    if len(parts) != 1:
        raise Fault(start, b"BadShape")
    return "exit"


# Commands that leave the start as it is, and those that end it.
SETTINGS = {
    b"set-option": set_option,
    b"set-info": set_info,
    b"reset-assertions": reset_assertions,
    b"reset": reset,
    b"echo": echo,
    b"exit": leave,
    **QUESTIONS,
}
STATEMENTS = {
    b"set-logic": set_logic,
    b"declare-sort": declare_sort,
    b"define-sort": define_sort,
    b"declare-const": declare,
    b"declare-fun": declare,
    b"define-fun": define_fun,
    b"assert": assert_term,
    b"push": push,
    b"pop": pop,
    b"check-sat": check_sat,
    b"check-sat-assuming": check_sat_assuming,
}


def perform(state, item):
    """Performs a command, or raises its first fault.

    It returns `success`, `unsupported`, `exit`, a line or a question, and of a check the terms that it assumes.
    """
    kind, parts, start = item
    if kind != "list" or not parts:
        raise Fault(start, b"BadShape")
    verb_kind, verb, verb_start = parts[0]
    if verb_kind == "res" and verb in SETTINGS:
        return SETTINGS[verb](state, parts, start)
    if verb_kind == "res" and verb in STATEMENTS:
        answer = STATEMENTS[verb](state, parts, start)
        state.has_begun = True
        state.asked = state.at_check(answer) if isinstance(answer, list) else None
        return answer
    raise Fault(verb_start, b"UnknownCommand")


def answer_to(state, text, item):
    """Performs a command of a text; returns what is answered, None where nothing is, and whether the script ends there.

    An answer is a line, or of a check what is current there, or a question about that.
    """
    try:
        answer = perform(state, item)
    except Fault as fault:
        return error_line(text, fault), False
    if answer == "unsupported":
        return b"unsupported\n", False
    if isinstance(answer, list):
        return state.asked, False
    if isinstance(answer, (bytes, Question)):
        return answer, False
    return b"success\n" if state.options[b":print-success"] else None, answer == "exit"


def read_script(text, limit=2**24):
    """Returns what each command of a script is answered, up to its end or `exit`, and what it stated."""
    state, answers, at, is_over = State(limit), [], 0, False
    while not is_over:
        try:
            found = read_one(text, at)
        except Fault as fault:
            return [*answers, error_line(text, fault)], state
        if found is None:
            break
        item, at = found
        answer, is_over = answer_to(state, text, item)
        if answer is not None:
            answers.append(answer)
    return answers, state


def checks_of(answers):
    """Returns the checks among the answers of a script."""
    return [answer for answer in answers if isinstance(answer, Check)]
