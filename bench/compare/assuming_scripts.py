"""Turns the checks of other scripts into checks that assume literals, by chance.

Most checks of a script become such that assume names of sort Bool that are known there, or their negations. Some
assertions become definitions before that, so that their terms can be assumed.
"""

import random

from assumed import a_check
from commands import perform
from language import State
from level_scripts import commands_of
from reading import Fault, printed_name, read_one

DEFINED_SHARE = 0.3
ASSUMING_SHARE = 0.7
ODD_SHARES = (0, 0, 0.06, 0.3)


def with_assumptions(script):
    """Returns a script of which most checks assume literals, and some assertions are definitions."""
    state, texts, number = State(2**24), [], 0
    share = random.choice(ODD_SHARES)
    for word, text in commands_of(script):
        _, parts, _ = read_one(text, 0)[0]
        if word == b"assert" and len(parts) == 2 and random.random() < DEFINED_SHARE:
            text = b"(define-fun p%d () Bool " % number + text[parts[1][2] :]
            number += 1
        if word == b"check-sat" and len(parts) == 1 and random.random() < ASSUMING_SHARE:
            text = a_check([printed_name(name) for name in state.propositions()], share)
        texts.append(text)
        try:
            perform(state, read_one(text, 0)[0])
        except Fault:
            continue
    return b"\n".join(texts) + b"\n"
