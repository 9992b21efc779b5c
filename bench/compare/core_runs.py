"""Runs of the program on scripts with named assertions and assumed literals: what its cores leave of them is unsat, too."""

import random

from cores import label
from level_scripts import MAKERS, a_level_script, commands_of, single_checks
from others import answers_in
from printed_proofs import printed
from reading import read_one

OPTIONS = (b":produce-unsat-cores", b":produce-unsat-assumptions")
# The shares of assertions that have a name, and that are assumed as a literal; and of cores that other solvers check.
NAMED_SHARE = 0.7
ASSUMED_SHARE = 0.15
ASKED_SHARE = 0.3


def with_names(single):
    """Returns the commands of a script with one check, of which some assertions are named or assumed; and these names."""
    texts, named, assumed = [], [], []
    for number, (word, text) in enumerate(commands_of(single)):
        name = b"core%d" % number
        item = read_one(text, 0)[0][1][1] if word == b"assert" else None
        term = printed(item) if item else b""
        choice = random.random()
        if term and choice < ASSUMED_SHARE and b":named" not in term:
            texts.append(b"(define-fun " + name + b" () Bool " + term + b")")
            assumed.append(name)
        elif term and choice < ASSUMED_SHARE + NAMED_SHARE:
            texts.append(b"(assert (! " + term + b" :named " + name + b"))")
            named.append(name)
        elif word != b"check-sat":
            texts.append(text)
            named += [label(item)] if item and label(item) else []
    return texts, named, assumed


def check_of(literals):
    """Returns a check that assumes literals."""
    return b"(check-sat-assuming (" + b" ".join(literals) + b"))"


def names_in(text):
    """Returns the names that a printed list has."""
    return [item[1] for item in read_one(text, 0)[0][1]]


def without(text, names):
    """Returns an assertion as one that always holds, where its name is one of these; names in it stay."""
    return text.replace(b"(assert ", b"(assert (or true ", 1) + b")" if any(b" :named %s))" % name in text for name in names) else text


def cores(comparison):
    """Runs a script's checks, with names; where one is unsat, runs what its core leaves."""
    for single in single_checks(random.choice([a_level_script, *MAKERS])())[:4]:
        texts, named, assumed = with_names(single)
        options = [b"(set-option " + option + b" true)" for option in OPTIONS]
        script = b"\n".join([*options, *texts, check_of(assumed), b"(get-unsat-core)", b"(get-unsat-assumptions)\n"])
        comparison.scripts += 1
        lines = [line for line in comparison.run(["solve"], script)[0].split(b"\n") if line != b"success"]
        comparison.answers[lines[0]] += 1
        if lines[0] != b"unsat":
            continue
        core, used = names_in(lines[1]), names_in(lines[2])
        if not set(core) <= set(named) or not set(used) <= set(assumed):
            comparison.tell(f"the core {core!r}, and of the literals {used!r}", script)
            continue
        comparison.answers[b"core of fewer" if len(core) < len(named) else b"core of all"] += 1
        others = set(named) - set(core)
        alone = b"\n".join([*(without(text, others) for text in texts), check_of(used), b""])
        if answers_in(comparison.run(["solve"], alone)[0]) != [b"unsat"]:
            comparison.tell("what the core leaves is not unsat", alone)
        elif random.random() < ASKED_SHARE:
            comparison.ask_others(alone)
