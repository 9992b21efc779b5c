"""Runs of `validate` on models that `certify` prints, and on such models with something changed."""

import random
import re

from assuming_scripts import with_assumptions
from layout import damaged
from level_scripts import MAKERS, a_level_script
from model_files import predict_validate
from sessions import SAT, evidence_end, judge
from terms import GREATEST

# The values in a text: elements, truth values and numerals.
VALUES = re.compile(rb"@e\d+|(?<![\w@.|])(?:true|false|\d+)(?![\w.|])")
NUMBERS = b"0 1 2 3 7 0.5 1.25 (-~1) (-~0.5) (/~1~2) (/~1~3) (/~(-~2)~3) true (/~1~0)".split(b" ")
NUMBERS = [number.replace(b"~", b" ") for number in NUMBERS] + [b"%d" % (GREATEST + more) for more in (0, 0, 1)]
ELEMENTS = (0, 1, 2, 7, 2**64 - 1, 2**64)
VALID = (b"valid\n", 0, b"")


def other_value(text):
    """Returns another value than this one, in most cases of its sort."""
    if text in (b"true", b"false"):
        return random.choice([b"true", b"false"] + [b"false" if text == b"true" else b"true"] * 6 + [b"0"])
    if text.startswith(b"@e"):
        number = int(text[2:])
        return b"@e%d" % random.choice([number + 1, max(number - 1, 0), *ELEMENTS])
    return random.choice([b"%d" % (int(text) + 1), b"(- %s)" % text, *NUMBERS])


def with_another_value(model):
    """Returns a model file with one value changed, where it has one."""
    found = list(VALUES.finditer(model))
    if not found:
        return model
    start, end = random.choice(found).span()
    return model[:start] + other_value(model[start:end]) + model[end:]


def with_other_definitions(model):
    """Returns a model file with one definition less or more, in another order, or with other names of parameters."""
    front, *definitions, end = model.splitlines(keepends=True)
    way = random.randrange(4)
    if way == 0 and definitions:
        definitions.remove(random.choice(definitions))
    elif way == 1 and definitions:
        definitions.insert(random.randint(0, len(definitions)), random.choice(definitions))
    elif way == 2:
        random.shuffle(definitions)
    else:
        name = random.choice([b"true", b"x", b"|a b|", b"@x1", b"f", b"ite"])
        definitions = [line.replace(b"@x0", name) for line in definitions]
    return random.choice([front, front, b"sat\n(", b"|sat| ;c\n("]) + b"".join(definitions) + end


def judge_model(comparison, script, number, model, is_printed=False):
    """Compares `validate` on a script and a model file."""
    wanted, status = predict_validate(script, number, model)
    got = comparison.judge("validate", script, number, model)
    if got != (wanted, status, b""):
        comparison.tell(f"at {number}, wanted {wanted!r} and {status}, got {got!r}", script, model)
    elif is_printed and got != VALID and b"ValueWide" not in wanted:
        comparison.tell(f"at {number}, the model is printed, and got {got!r}", script, model)


def validate(comparison):
    """Runs a script, and judges each model that is printed for it, and changed ones."""
    script = random.choice([a_level_script, *MAKERS, *MAKERS, lambda: with_assumptions(random.choice(MAKERS)())])()
    if random.random() < 0.1:
        script = damaged(script)
    output, status, errors = comparison.run(["certify"], script)
    wrong, founds = judge(script, output, status, shows=evidence_end, is_foretold=False)
    if wrong or errors:
        comparison.tell(f"{wrong} {errors!r}", script)
    models = [(number, found.text) for number, found in enumerate(founds, 1) if found.line == SAT]
    for number, model in random.sample(models, min(len(models), 3)):
        judge_model(comparison, script, number, random.choice([b"", b"sat\n"]) + model, True)
        judge_model(comparison, script, number, with_another_value(model))
        change = random.random()
        if change < 0.3:
            judge_model(comparison, script, number, with_another_value(with_another_value(model)))
        elif change < 0.6:
            judge_model(comparison, script, number, with_other_definitions(model))
        elif change < 0.8:
            judge_model(comparison, script, number, damaged(model))
        else:
            judge_model(comparison, script, random.randint(1, len(founds) + 1), model)
