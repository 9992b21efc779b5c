"""Foretells what `solve` writes for a script, and judges what `certify` writes.

It follows docs/FORMATS.md. Assertions over constants of sort Bool and theory Core alone are decided by truth tables.
Others without numbers are decided by trying values of symbols, up to a bound. Where that is too much, and where there
are numbers, either answer may come, and what `certify` shows has to bear it out. What is left is foretold to the byte.

With numbers `unknown` may come too, and under limits that are given: reasons.py judges the reason that `certify` shows.

What is asked about a check is foretold by the model, the proof or the reason that `certify` shows for it. Where `solve`
alone was run, what comes first of these is judged, and foretells what follows.
"""

from functools import cached_property, lru_cache

from commands import read_script
from judging import Judge
from language import Check
from printed_proofs import printed, proof_end
from printed_values import Wrong, require, value_of
from questions import SAT, UNKNOWN, UNSAT, Question, shown_value
from reading import Fault, error_line, printed_name, read_one
from reasons import NONE, reason_end
from values import Exact

# The lines that answer a check by what is known of it: that there is a model, or none, or nothing.
ANSWERS = {True: (SAT,), False: (UNSAT,), None: (SAT, UNSAT)}
REFUSAL = b'(error "'


class Found:
    """What is found at a check: the line that answers it, and the text that shows it, where that is known."""

    def __init__(self, check, line, text=None):
        self.check = check
        self.line = line
        self.text = text

    @cached_property
    def tables(self):
        """The tables of the model, which has to be right."""
        return model_at(self.check, self.text, 0)[0]


def is_refusal(answer):
    """Tells whether an answer is known to be that of a command that is refused."""
    return isinstance(answer, bytes) and answer.startswith(REFUSAL)


def is_open(answer):
    """Tells whether an answer waits for what is found at a check, or is such a check."""
    return isinstance(answer, Question) or (isinstance(answer, Check) and answer.is_open)


@lru_cache(maxsize=8)
def run_script(text, limit=2**24):
    """Returns the answers of a script, and the status of the run where each question is answered.

    An answer is a line, what is current at a check, or a question about that.
    """
    answers, _ = read_script(text, limit)
    return answers, int(any(map(is_refusal, answers)))


def lines_of(answer):
    """Returns the lines of which one has to be written for an answer: one alone, but where a model is open."""
    return ANSWERS[answer.is_satisfiable] if isinstance(answer, Check) else (answer,)


def predict_solve(text, limit=2**24):
    """Returns what `solve` is to print for a script of which no check is open, and its status."""
    answers, status = run_script(text, limit)
    if any(map(is_open, answers)):
        raise ValueError("a check of the script is open")
    return b"".join(lines_of(answer)[0] for answer in answers), status


def line_at(answer, output, at, limits=NONE):
    """Returns the line of an answer that stands in the output at `at`, or raises that there is none.

    A check may be answered `unknown` where it has numbers, or where a limit on conflicts is given.
    """
    choices = lines_of(answer)
    if isinstance(answer, Check) and (answer.has_numbers or limits.conflicts is not None):
        choices += (UNKNOWN,)
    for line in choices:
        if output.startswith(line, at):
            return line
    raise Wrong(f"expected one of {choices!r} at {at}, got {output[at : at + 60]!r}")


def require_end(output, at, status, wanted_status):
    """Raises that an output goes on, or that the status is another one."""
    require(at == len(output), f"more output: {output[at : at + 80]!r}")
    require(status == wanted_status, f"status {status}, expected {wanted_status}")


def row_of(item, sorts):
    """Returns the values at which the condition of a row of a table holds."""
    kind, parts, _ = item
    if len(sorts) > 1:
        require(kind == "list" and len(parts) == len(sorts) + 1 and parts[0][:2] == ("sym", b"and"), "no row")
        equalities = parts[1:]
    else:
        equalities = [item]
    values = []
    for number, (equality, sort) in enumerate(zip(equalities, sorts)):
        wanted = [("sym", b"="), ("sym", b"@x%d" % number)]
        require(equality[0] == "list" and len(equality[1]) == 3, "no equality")
        require([part[:2] for part in equality[1][:2]] == wanted, "no equality of a parameter")
        values.append(value_of(equality[1][2], sort))
    return tuple(values)


def table_of(item, name, sorts, result):
    """Returns the table that a definition of a model gives a symbol: its rows and its default."""
    kind, parts, _ = item
    require(kind == "list" and len(parts) == 5 and parts[0][:2] == ("res", b"define-fun"), "no definition")
    require(parts[1][:2] == ("sym", name) and parts[3][:2] == ("sym", result[0]), f"no definition of {name!r}")
    listed = b"(" + b" ".join(b"(@x%d %s)" % (n, printed_name(s[0])) for n, s in enumerate(sorts)) + b")"
    require(printed(parts[2]) == listed, f"other parameters of {name!r}")
    rows, body = {}, parts[4]
    while sorts and body[0] == "list" and body[1] and body[1][0][:2] == ("sym", b"ite"):
        require(len(body[1]) == 4, "no choice")
        rows.setdefault(row_of(body[1][1], sorts), value_of(body[1][2], result))
        body = body[1][3]
    return rows, value_of(body, result)


def model_at(check, output, at):
    """Returns the tables of the model that starts at `at`, which has to make all assertions true, and the offset behind."""
    try:
        found = read_one(output, at)
    except Fault as fault:
        raise Wrong(f"the model is not readable: {fault.name!r}") from fault
    require(found is not None and found[0][0] == "list", "no model starts here")
    items = found[0][1]
    wanted = b"(\n" + b"".join(b"  " + printed(item) + b"\n" for item in items) + b")\n"
    require(output.startswith(wanted, at), "the model is not printed a definition a line")
    require(len(items) == len(check.order), "not one definition for each symbol")
    tables = {name: table_of(item, name, *check.functions[name]) for item, name in zip(items, check.order)}
    require(all(Exact(check.terms, tables).all(check.assertions)), "the model makes an assertion false")
    return tables, at + len(wanted)


def evidence_end(check, line, output, at, limits):
    """Returns the offset behind the model, proof or reason that follows a check's line, which has to be right."""
    if line == SAT:
        return model_at(check, output, at)[1]
    if line == UNSAT:
        return proof_end(Judge(check), output, at)
    return reason_end(check, output, at, limits)


def shown_end(_check, line, output, at, _limits):
    """Returns the offset behind the text that follows a check's line, which is not judged."""
    behind = b"\n" if line == UNKNOWN else b"\n)\n"
    end = output.find(behind, at)
    require(end >= 0, "nothing is shown")
    return end + len(behind)


def values_end(question, script, output, at):
    """Returns the offset behind the answer to `get-value`, of which the terms and the sorts of the values are known."""
    for item in question.items:
        line = error_line(script, Fault(item[2], b"ValueWide"))
        if output.startswith(line, at):
            return at + len(line)
    try:
        found = read_one(output, at)
    except Fault as fault:
        raise Wrong(f"the values are not readable: {fault.name!r}") from fault
    require(found is not None and found[0][0] == "list" and len(found[0][1]) == len(question.items), "no values")
    pairs = []
    for item, term, (kind, parts, _) in zip(question.items, question.terms, found[0][1]):
        require(kind == "list" and len(parts) == 2, "no term with its value")
        pairs.append(b"(" + printed(item) + b" " + shown_value(value_of(parts[1], question.check.terms.sorts[term])) + b")")
    line = b"(" + b" ".join(pairs) + b")\n"
    require(output.startswith(line, at), f"the values are not printed so: {line!r}")
    return at + len(line)


def question_end(question, found, script, output, at, limits):
    """Returns the offset behind the answer to a question; what it shows of the check is known from there on."""
    try:
        line = question.answer(found)
    except Fault as fault:
        line = error_line(script, fault)
    if line is not None:
        require(output.startswith(line, at), f"expected {line!r} at {at}, got {output[at : at + len(line) + 20]!r}")
        return at + len(line)
    if question.word == b"get-value":
        return values_end(question, script, output, at)
    if question.word == b"get-info":
        found.text, end = reason_asked(found.check, output, at, limits)
        return end
    end = evidence_end(found.check, found.line, output, at, limits)
    found.text = output[at:end]
    return end


def reason_asked(check, output, at, limits):
    """Returns the reason that is answered at `at`, as a line, which has to be right, and the offset behind."""
    front, behind = b"(:reason-unknown ", b")\n"
    end = output.find(b"\n", at) + 1
    require(output.startswith(front, at) and output.endswith(behind, at, end), "no reason")
    text = output[at + len(front) : end - len(behind)] + b"\n"
    require(reason_end(check, text, 0, limits) == len(text), "more than a reason")
    return text, end


def judge(script, output, status, limits=NONE, shows=None, known=None, is_foretold=True, starts=None):
    """Returns what is wrong with an output and its status, or nothing, and what was found at each check.

    Where `shows` is given, each answer to a check is followed by what shows it, of which this is the end; else what is
    shown of it may be known before. Where answers are not foretold, their models and proofs alone decide: to foretell
    them may take time exponential in the script. To `starts` the offset of each answer is added.
    """
    answers, wanted_status = run_script(script)
    founds, at, starts = [], 0, [] if starts is None else starts
    try:
        for answer in answers:
            start = at
            starts.append(start)
            if isinstance(answer, Question):
                at = question_end(answer, founds[-1], script, output, at, limits)
                wanted_status = max(wanted_status, int(output.startswith(REFUSAL, start)))
                continue
            if isinstance(answer, Check) and not is_foretold:
                answer.is_satisfiable = None
            line = line_at(answer, output, at, limits)
            at += len(line)
            if isinstance(answer, Check):
                end = shows(answer, line, output, at, limits) if shows else at
                founds.append(known[len(founds)] if known else Found(answer, line, output[at:end] if shows else None))
                require(founds[-1].line == line, f"another answer than before: {line!r}")
                at = end
        require_end(output, at, status, wanted_status)
    except Wrong as wrong:
        return str(wrong), founds
    return None, founds


def judge_solve(script, output, status, limits=NONE, known=None):
    """Returns what is wrong with what `solve` printed for a script and with its status, or None.

    What is known of its checks comes from `certify`, or is nothing.
    """
    return judge(script, output, status, limits, known=known)[0]


def judge_certify(script, output, status, limits=NONE, is_foretold=True):
    """Returns what is wrong with an output, or None, and its right proofs: pairs of a check's number and a text.

    The limits are those that the program was given.
    """
    wrong, founds = judge(script, output, status, limits, evidence_end, None, is_foretold)
    return wrong, [(number, found.text) for number, found in enumerate(founds, 1) if found.line == UNSAT]
