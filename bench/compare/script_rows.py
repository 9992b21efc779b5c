"""States of scripts by chance what the independent reading foretells, for the prover to compute."""

import random
import re

import faulty
from antt import declared, lines_written, listed, outcome_written, read, term_written, world_written
from commands import checks_of, read_script
from scripts import a_script, an_arithmetic_script
from values import Values, some_tables

USUAL = {"BadShape", "Reserved", "Twice", "UnknownSort", "UnknownCommand"}
LONGEST = 800
OF_VALUES = "bounded_value folded added subtracted multiplied divided is_small fits sum_fits"
OF_VALUES += " gcd plus opposite times inverse compare ◌>>=◌"
FAULT = re.compile(rb'\(error "(\d+):(\d+): (\w+)"\)')
HEAD = read("ScriptRows.antt.txt")


def terms_row(seed, state, lines):
    """Returns the statements of the terms that a script's assertions are read as, and of their values."""
    functions = declared(state.functions)
    terms = listed(term_written(state.terms, t, functions) for t in state.assertions)
    tables = some_tables(functions)
    values = Values(state.terms, tables)
    outcomes = listed(outcome_written(values, t) for t in state.assertions)
    return f"""
-- the terms of the script of seed {seed}, and their values
pub t{seed} : terms_asserted (assertions_of (stack_after empty_stack (trees_in ({lines})))) ≡ {terms}
unfolding commands_on_literals stack_after
t{seed} = refl

pub v{seed} : map (bounded_value {world_written(tables)} []) {terms} ≡ {outcomes}
unfolding {OF_VALUES}
v{seed} = refl
"""


def asked_row(seed, number, check, lines):
    """Returns the statement of the terms that a check asks about, those that it assumes after the others."""
    functions = declared(check.functions)
    terms = listed(term_written(check.terms, t, functions) for t in check.assertions)
    return f"""
-- what check {number} of the script of seed {seed} asks about
pub c{seed}_{number} : asked_at {number} ({lines}) ≡ Some {terms}
unfolding commands_on_literals
c{seed}_{number} = refl
"""


def faults_in(answers):
    """Returns the line, the column and the name of each fault of a command; a check has none."""
    return FAULT.findall(b"".join(answer for answer in answers if isinstance(answer, bytes)))


def row_of(seed):
    """Returns the statements of a seed's script, and counts; or nothing where it is too long or shows too little."""
    random.seed(seed)
    is_arithmetic = random.random() < 0.3
    script = an_arithmetic_script() if is_arithmetic else a_script(random.choice([0.1, 0.2, 0.3, 0.5]))
    script = faulty.a_script() if random.random() < 0.4 else script
    limit = 100 if is_arithmetic else random.choice([100, 100, 100, 9, 14])
    answers, state = read_script(script, limit)
    faults = [(int(line), int(column), name.decode()) for line, column, name in faults_in(answers)]
    is_usual = {name for _, _, name in faults} <= USUAL
    if len(script) > LONGEST or b"(get-" in script or (is_usual and not is_arithmetic and random.random() < 0.8):
        return None
    lines = lines_written(script)
    wanted = "".join("(%d, %d, %s) ∷ " % fault for fault in faults)
    text = f"""
-- the faults of the script of seed {seed}
pub s{seed} : faults_of {limit} ({lines}) ≡ {wanted}[]
unfolding commands_on_literals faults_after
s{seed} = refl
"""
    counts = {"scripts": 1, "faults": len(faults)}
    if limit == 100:
        checks = checks_of(answers)
        text += terms_row(seed, state, lines) if state.assertions else ""
        text += "".join(asked_row(seed, number, check, lines) for number, check in enumerate(checks, 1))
        counts |= {"terms": len(state.assertions), "checks": len(checks)}
    return text, counts
