"""States of scripts by chance what is written for them, for the prover to compute."""

import random

from antt import listed, lines_written, read, world_written, written
from language import Check
from model_rows import definition_text
from models import find_model, tables_of
from scripts import a_session
from sessions import lines_of, run_script
from values import some_tables

LONGEST = 700
MOST_NODES = 10**6
HEAD = read("SessionRows.antt.txt")
PROOFS = [b"(\n)\n", b"(\n(assume h1 false)\n)\n", b""]


def model_of(check):
    """Returns tables for the symbols of a check, under which its assertions are true."""
    tables = some_tables({name: check.functions[name] for name in check.order})
    return tables_of(find_model(check.terms, check.assertions, MOST_NODES), tables)


def found_and_shown(check):
    """Returns what is found at a check, and the text that shows it."""
    if not check.is_satisfiable:
        text = random.choice(PROOFS)
        return f"proof ({written_text(text)})", text
    tables = model_of(check)
    lines = [b"  " + definition_text(name, *check.functions[name], tables[name]) for name in check.order]
    return f"model {world_written(tables)}", b"\n".join([b"(", *lines, b")", b""])


def written_text(text):
    """Writes a text of lines."""
    return lines_written(text) if text else written(text)


def row_of(seed):
    """Returns the statements of what both modes write for a script, with counts.

    It returns nothing where the script is too long, or has a check that is open.
    """
    random.seed(seed)
    script = a_session(random.choice([0, 0.1, 0.3]))
    if len(script) > LONGEST or b"(get-" in script:
        return None
    answers, _ = run_script(script)
    if any(isinstance(answer, Check) and answer.is_open for answer in answers):
        return None
    founds, solved, certified = [], b"", b""
    for answer in answers:
        is_check = isinstance(answer, Check)
        line = lines_of(answer)[0]
        found, shown = found_and_shown(answer) if is_check else (None, b"")
        founds += [found] if is_check else []
        solved += line
        certified += line + shown
    given = f"(answers_of limits empty_stack (trees_in o{seed}_script) o{seed}_found)"
    rows = "".join(
        f"""
pub o{seed}_{mode} : answers_text {mode} o{seed}_script {given} ≡ {written_text(text)}
unfolding commands_on_literals answers_of numeral digits
o{seed}_{mode} = refl
"""
        for mode, text in (("solve", solved), ("certify", certified))
    )
    text = f"""
abbrev o{seed}_script : List ℕ
o{seed}_script = {lines_written(script)}

abbrev o{seed}_found : List Found
o{seed}_found = {listed(founds)}
"""
    return text + rows, {"scripts": 1, "answers": len(answers), "checks": len(founds)}
