"""Runs of the program on scripts with several checks: over levels, with assumptions, and with `reset` between them."""

import random

from assuming_scripts import with_assumptions
from commands import checks_of, read_script
from level_scripts import MAKERS, a_level_script, several_scripts, single_checks
from others import answers_in, are_at_odds

# The shares of the scripts that are put to the other solvers, where nothing is refused.
LEVELS_ASKED = 0.1
ASSUMING_ASKED = 0.4


def judge_checks(comparison, script, asked_share):
    """Judges all checks of a script, each beside a script of its own; returns its proofs."""
    comparison.count(script)
    proofs = comparison.certify(script)
    for number, proof in proofs:
        comparison.accept(script, number, proof)
    output = comparison.run(["solve"], script)[0]
    own = answers_in(output)
    alone = [answer for single in single_checks(script) for answer in answers_in(comparison.run(["solve"], single)[0])]
    if are_at_odds(own, alone):
        comparison.tell(f"together {own!r}, and alone {alone!r}", script)
    if b"(error " not in output and random.random() < asked_share:
        comparison.ask_others(script)
    return proofs


def levels(comparison):
    """Runs a script with levels."""
    judge_checks(comparison, a_level_script(), LEVELS_ASKED)


def assuming(comparison):
    """Runs a script whose checks assume literals, with levels in most cases; puts its proofs to other checks too."""
    script = with_assumptions(random.choice([a_level_script, a_level_script, *MAKERS])())
    count = len(checks_of(read_script(script)[0]))
    for _, proof in judge_checks(comparison, script, ASSUMING_ASKED)[:2]:
        comparison.check(script, random.randint(1, count + 1), proof)


def resets(comparison):
    """Runs several scripts in one text, and each of them alone."""
    texts = several_scripts(MAKERS)
    joined = b"(reset)\n".join(texts)
    word = random.choice(["solve", "certify"])
    outputs, line = [], 0
    for text in texts:
        outputs.append(comparison.run([word], b"\n" * line + text)[0])
        line += text.count(b"\n") + 1
    output, _, errors = comparison.run([word], joined)
    if output != b"success\n".join(outputs) or errors:
        comparison.tell(f"{word} of all answers {output!r}, and of each {outputs!r}", joined)
