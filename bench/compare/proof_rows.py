"""States of proofs by chance what the independent judge foretells, for the prover to compute."""

import os
import random

from antt import declared, lines_written, listed, read, term_written, written
from commands import checks_of, read_script
from judging import Assumed, Defined, Judge, first_fault
from proof_texts import list_start, take_list, take_row
from proofs import a_proof
from reading import Fault, place_of, read_one

LONGEST = 900
LONGEST_PROOF = 600
USUAL = 2**24
LEXICAL = {b"BadChar", b"UnclosedString", b"UnclosedQuote", b"UnclosedList", b"StrayClose"}
OWN_KINDS = set(b"BadShape TwiceName UnknownPremise UnknownRule NotAsserted RuleFails NoEmptyClause".split())
HEAD = read("ProofRows.antt.txt")
OF_EQUALITY = ("Taking", "Verdicts")


class Cut:
    """A proof that is cut into its commands: where their list begins and ends, what stands behind, and its fault."""

    def __init__(self, proof):
        self.items = []
        self.start = self.end = self.behind = self.fault = None
        try:
            self.start = list_start(proof)
            if self.start is None:
                take_row(self.items.append, proof)
            else:
                self.end = take_list(self.items.append, proof, self.start + 1)
                found = read_one(proof, self.end + 1)
                self.behind = found and found[0]
            if self.behind:
                self.fault = Fault(self.behind[2], b"BadShape")
        except Fault as fault:
            self.fault = fault


def read_all(judge, items):
    """Returns the commands that can be read, right or not, and the fault of the first that cannot."""
    commands = []
    for item in items:
        try:
            command = judge.read(item)
        except Fault as fault:
            return commands, fault
        judge.learn(command)
        commands.append(command)
    return commands, None


def command_written(judge, functions, command):
    """Writes a command as the rows tell it."""

    def clause_written(clause):
        return listed(term_written(judge.terms, term, functions) for term in clause)

    if isinstance(command, Assumed):
        return f"({command.start}, {written(command.name)}, {clause_written([command.term])}, [], [])"
    if isinstance(command, Defined):
        term = judge.names.functions[command.name].term
        return f"({command.start}, [], {clause_written([term])}, [], [])"
    premises = listed(map(clause_written, command.premises))
    parts = written(command.name), clause_written(command.clause), written(command.rule), premises
    return f"({command.start}, {', '.join(parts)})"


def kind_written(fault):
    """Writes what is wrong."""
    name = fault.name.decode()
    if fault.name in OWN_KINDS:
        return name
    return f"(lexical faults.{name})" if fault.name in LEXICAL else f"(term_kind faults.{name})"


def fault_written(proof, fault):
    """Writes a fault with its line and column, or that there is none."""
    if fault is None:
        return "None"
    line, column = place_of(proof, fault.offset)
    return f"Some ({line}, {column}, {kind_written(fault)})"


def ending_written(cut):
    """Writes what comes after the commands of a proof."""
    if cut.fault is None:
        return "complete"
    if cut.fault.name == b"BadShape":
        return f"left_over {cut.fault.offset}"
    return f"broken (record {{ offset = {cut.fault.offset}; fault = faults.{cut.fault.name.decode()} }})"


def lexemes_in(item):
    """Returns how many lexemes an item has."""
    return 2 + sum(map(lexemes_in, item[1])) if item[0] == "list" else 1


def reading(name, cut):
    """Writes why the text of a proof is its commands with its ending."""
    xs, ending = f"(proof_lexemes {name}_proof)", f"({ending_written(cut)})"
    end, rest = f"(length (kept {name}_proof))", f"{name}_rest"
    fault = ending_written(cut).removeprefix("broken ")
    count = sum(map(lexemes_in, cut.items))
    if cut.start is None:
        trees = f"split_at {count} {xs} {name}_trees refl"
        ends = f"broken_outside {end} {rest} {fault} refl refl" if cut.fault else "refl"
        return f"({rest}, {trees}, {ends})"
    if cut.end is None:
        ends = f"inr ({fault}, broken_inside {end} {rest} {fault} refl refl refl, refl)"
    else:
        behind = "refl"
        if cut.behind:
            after = f"(tail {rest})"
            one = f"(more (first_tree {after}) none)"
            trees = f"split_at {lexemes_in(cut.behind)} {after} {one} refl"
            behind = f"(first_tree {after}, drop {lexemes_in(cut.behind)} {after}, {trees}, refl)"
        elif cut.fault:
            behind = f"broken_outside {end} (tail {rest}) {fault} refl refl"
        ends = f"closed_by {end} {rest} {ending} refl ({behind})"
    trees = f"split_at {count} (tail {xs}) {name}_trees refl"
    return f"in_a_list {end} {xs} {rest} {name}_trees {ending} refl ({trees}) ({ends})"


def first(name, limit, number, fault, ending):
    """Returns the statement of the first fault of a proof, or that there is none."""
    found = f"Some (fault_at {fault.offset} {kind_written(fault)})" if fault else "None"
    places = f"(trees_in {name}_script) (cut {name}_proof {name}_trees ({ending}))"
    check = f"(current_at {limit} empty_stack {number} (trees_in {name}_script))"
    text = f"""
{name}_decided : decided_at {limit} {check} (cut {name}_proof {name}_trees ({ending})) ≡ Some ({found})
unfolding proofs_on_literals built literal_of sort_of second_sort gained pass passes_of literals_held decided
{name}_decided = refl

pub {name}_first : IsFirst {limit} {number} {places} ({found})
{name}_first = by_deciding {limit} {number} {places} ({found}) {name}_decided
"""
    return text, found


def verdict(name, number, cut, found):
    """Returns the statement of the verdict on a proof, whose limit is the usual one."""
    ending = ending_written(cut)
    parts = f"{name}_script {number} {name}_proof {name}_trees ({ending}) ({found})"
    count = sum(map(lexemes_in, cut.items))
    inner = f"{'' if cut.start is None else 'tail '}(proof_lexemes {name}_proof)"
    return f"""
abbrev {name}_rest : List (ℕ × Lexeme)
{name}_rest = drop {count} ({inner})

{name}_proof_read : IsProofText {name}_proof {name}_trees ({ending})
unfolding lexemes first_piece string_body built first_fault finds_tree
{name}_proof_read = {reading(name, cut)}

pub {name}_verdict : IsVerdict {name}_script {number} {name}_proof ({found})
{name}_verdict = verdict_by {parts} {name}_script_read {name}_proof_read refl {name}_first
"""


def no_check(name, number):
    """Returns the statement that the script has no check of this number, which is the verdict on every proof."""
    return f"""
{name}_none : current_at {USUAL} empty_stack {number} (trees_in {name}_script) ≡ None
unfolding proofs_on_literals built
{name}_none = refl

pub {name}_verdict : IsVerdict {name}_script {number} {name}_proof (Some no_such_check)
{name}_verdict = no_check_by {name}_script {number} {name}_proof {name}_script_read {name}_none
"""


def texts(name, script, proof, count):
    """Returns the definitions of both texts and of so many commands, and that the script is read to its end."""
    return f"""
abbrev {name}_script : List ℕ
{name}_script = {lines_written(script)}

abbrev {name}_proof : List ℕ
{name}_proof = {lines_written(proof)}

abbrev {name}_trees : Trees
{name}_trees = commands_of {count} {name}_proof

{name}_script_read : IsReadUpTo {name}_script (trees_in {name}_script) None
unfolding lexemes first_piece string_body built
{name}_script_read = record {{ rest = []; trees = refl; stop = None; stops = refl; is = refl }}
"""


def statement(name, script, limit, number, proof):
    """Returns the statements of a proof, with counts, or nothing where there is no check and the limit is a low one.

    Rules of arithmetic are not decided by what the rows are computed with: a proof that names one is left out.
    """
    if b"la_" in proof:
        return None
    cut = Cut(proof)
    text = texts(name, script, proof, len(cut.items))
    checks = checks_of(read_script(script, limit)[0])
    if len(checks) < number:
        return (text + no_check(name, number), {"proofs": 1, "verdicts": 1}) if limit == USUAL else None
    judge = Judge(checks[number - 1])
    functions = declared(judge.names.functions)
    commands, fault = read_all(judge, cut.items)
    told = listed(command_written(judge, functions, command) for command in commands)
    wanted = f"Some ({told}, {fault_written(proof, fault)})"
    text += f"""
pub {name}_told : told_within {limit} {number} {name}_script {name}_proof {name}_trees ≡ {wanted}
unfolding proofs_on_literals read_commands built
{name}_told = refl
"""
    fault = first_fault(checks[number - 1], proof)
    statement_of_first, found = first(name, limit, number, fault, ending_written(cut))
    text += statement_of_first
    text += verdict(name, number, cut, found) if limit == USUAL else ""
    counts = {"proofs": 1, "commands": len(commands), "faults": int(fault is not None), "verdicts": int(limit == USUAL)}
    return text, counts


def modules():
    """Returns the modules that the rows need, by their names."""
    crates = os.path.join("..", "..", "crates")
    given = read(os.path.join(crates, "spec_rules", "proofs", "Given.antt"))
    for name in ("is_by", "test_by"):
        given = given.replace(f"\n{name} :", f"\npub {name} :")
    taking, verdicts = (read(os.path.join(crates, "spec_equality", "proofs", f"{name}.antt")) for name in OF_EQUALITY)
    verdicts = verdicts.replace("spec_equality.proofs.Taking", "compared.specs.Taking")
    verdicts = verdicts.replace("\ntakes_decides :", "\npub takes_decides :")
    made = {"Given": given, "Taking": taking, "Verdicts": verdicts}
    return {**made, "Deciding": read("Deciding.antt.txt"), "Breaking": read("Breaking.antt.txt")}


def row_of(seed):
    """Returns the statement of a seed's proof, with counts; or nothing where a text is too long or shows too little."""
    random.seed(seed)
    script, limit, proof = a_proof()
    if len(script.text) > LONGEST or len(proof) > LONGEST_PROOF:
        return None
    row = statement(f"p{seed}", script.text, limit, script.number, proof)
    return None if row and len(row[1]) == 2 and random.random() < 0.8 else row
