"""Makes scripts with `push`, `pop`, `reset-assertions` and `reset` by chance, and the scripts of their single checks.

The commands come from the other makers. Between them levels are opened and closed. What a closed level had declared is
declared again in most cases, so that later commands can be taken; in the others they are refused. In some scripts
declarations are global.
"""

import random

from commands import perform
from function_scripts import a_function_script
from language import State
from mixed_scripts import a_mixed_script
from number_scripts import a_number_script
from printed_proofs import printed
from reading import Fault, read_one
from scripts import a_session

MAKERS = (a_function_script, a_number_script, a_mixed_script, lambda: a_session(0), lambda: a_session(0.2))
DECLARING = (b"declare-sort", b"define-sort", b"declare-const", b"declare-fun", b"define-fun")
ENDING = (b"exit",)
GLOBAL = b"(set-option :global-declarations true)"
ODD = (
    *(b"(push 0)", b"(pop 0)", b"(pop 9)", b"(push x)", b"(pop 18446744073709551616)", b"(push 1 1)", b"(pop (1))"),
    *(GLOBAL, b"(set-option :global-declarations false)", b"(set-option :global-declarations 1)"),
)


def commands_of(script):
    """Returns the words and texts of the commands of a script, without `exit` and what cannot be read."""
    found, at = [], 0
    while True:
        try:
            item = read_one(script, at)
        except Fault:
            return found
        if item is None:
            return found
        (kind, parts, start), at = item
        word = parts[0][1] if kind == "list" and parts else b""
        if word not in ENDING:
            found.append((word, script[start:at]))


class Levels:
    """The texts of the commands that count, by level, while a script is made."""

    def __init__(self, is_global):
        self.open = [[]]
        self.is_global = is_global

    def add(self, word, text):
        """Notes a command that counts: a declaration or an assertion."""
        if word in DECLARING or word == b"assert":
            self.open[-1].append((word, text))

    def close(self, count):
        """Closes so many levels; returns what was declared at them and is not global."""
        gone = [command for level in self.open[-count:] for command in level if command[0] in DECLARING] if count else []
        del self.open[len(self.open) - count :]
        if self.is_global:
            self.open[-1] += gone
            return []
        return gone

    def reset(self, is_whole):
        """Takes all back; returns what was declared and is gone."""
        declared = [command for level in self.open for command in level if command[0] in DECLARING]
        self.is_global = self.is_global and not is_whole
        self.open = [declared if self.is_global else []]
        return [] if self.is_global else declared


def a_level_command(levels):
    """Returns the texts of a change of levels, and of declarations that are made again after it."""
    choice = random.random()
    if choice < 0.45:
        count = random.choice([1, 1, 1, 2, 3])
        levels.open += [[] for _ in range(count)]
        return [b"(push)" if count == 1 and random.random() < 0.3 else b"(push %d)" % count]
    if choice < 0.88 and len(levels.open) > 1:
        count = random.randint(1, min(2, len(levels.open) - 1))
        gone = levels.close(count)
        texts = [b"(pop)" if count == 1 and random.random() < 0.3 else b"(pop %d)" % count]
    elif choice < 0.94:
        return [random.choice(ODD)]
    else:
        texts = [random.choice([b"(reset)", b"(reset-assertions)"])]
        gone = levels.reset(texts == [b"(reset)"])
    if random.random() < 0.85:
        for word, text in gone:
            levels.add(word, text)
            texts.append(text)
    return texts


def a_level_script():
    """Makes a script with changes of levels, and several checks."""
    levels = Levels(random.random() < 0.3)
    texts = [GLOBAL] if levels.is_global else []
    for word, text in commands_of(random.choice(MAKERS)()):
        while random.random() < 0.3:
            texts += a_level_command(levels)
        levels.add(word, text)
        texts.append(text)
        if word == b"assert" and random.random() < 0.25:
            texts.append(b"(check-sat)")
    texts += [b"(check-sat)"]
    for _ in range(random.randint(0, 4)):
        texts += [*a_level_command(levels), b"(check-sat)"]
    return b"\n".join(texts) + b"\n"


def assumed_by(word, text):
    """Returns assertions of the literals that a check assumes."""
    if word != b"check-sat-assuming":
        return []
    _, parts, _ = read_one(text, 0)[0]
    return [b"(assert " + printed(literal) + b")" for literal in parts[1][1]]


def names_alone(levels):
    """Returns commands that make no more than the names of levels: where these are global, they outlive what was asserted."""
    commands = [command for level in levels for command in level]
    return [(word, text if word in DECLARING else b"(push)" + text + b"(pop)") for word, text in commands]


def single_checks(script, limit=2**24):
    """Returns for each check of a script a script of its own: the commands that count there, and the check.

    What a check assumes is asserted there.
    """
    state, open_levels, singles = State(limit), [[]], []
    for word, text in commands_of(script):
        before = len(state.levels)
        try:
            answer = perform(state, read_one(text, 0)[0])
        except Fault:
            continue
        is_global = state.options[b":global-declarations"]
        if word in (b"reset", b"reset-assertions"):
            open_levels = [names_alone(open_levels) if is_global else []]
        elif len(state.levels) < before:
            open_levels, gone = open_levels[: len(state.levels) + 1], open_levels[len(state.levels) + 1 :]
            open_levels[-1] += names_alone(gone) if is_global else []
        open_levels += [[] for _ in range(len(state.levels) - before)]
        if word in DECLARING or word == b"assert":
            open_levels[-1].append((word, text))
        if isinstance(answer, list):
            live = [text for level in open_levels for _, text in level] + assumed_by(word, text)
            options = [b"(set-option :print-success false)", *[GLOBAL] * is_global]
            singles.append(b"\n".join([*options, *live, b"(check-sat)\n"]))
    return singles


def several_scripts(makers):
    """Makes scripts that can be run one after the other in one text, `reset` between them, each from a new line on."""
    texts = []
    for _ in range(random.randint(2, 4)):
        commands = [text for _, text in commands_of(random.choice(makers)())]
        texts.append(b"\n".join(commands) + b"\n")
    return texts
