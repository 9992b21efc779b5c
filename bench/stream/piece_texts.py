"""Texts by chance that come in pieces: soups of tokens and bytes, sessions, and what is left of scripts of others."""

import glob
import os
import random

from against_program import a_script
from layout import damaged
from question_scripts import a_questioning_script

# What a soup is made of, and how often: what is whole, what is begun and goes on, and stray bytes.
COMMANDS = b"""(check-sat)
(push)
(pop)
(push 1)
(pop 2)
(reset)
(exit)
(assert true)
(assert p)
(assert(not|p|))
(declare-const p Bool)
(echo "a")
(echo "a""b")
(|echo| "a")
(set-info :a)
(set-info :a |b|)
(set-logic ALL)
(set-option :print-success true)
(set-option :print-success false)
(get-option :print-success)
(get-info :name)
(get-model)
(zz)
()
(())
((p))""".split(b"\n")
WORDS = b"""p q ab |p| || |a;b| |(| "" "a" "a""b" ";" ")" 0 1 10 1.5 0.0 1.50 :k :kk :a.b : 1. 00 0a 1.5a . .5 + <= @a .a
let assert check-sat exit ! _ a|b| a"b" "a"b |a|b ab:k :k:l 0:k""".split()
MARKS = [b"(", b"(", b")", b")", b'"', b"|", b";", b" ", b"\n", b"\t", b"\r", b"; c\n", b";\r", b"; (\n"]
STRAY = [b"\0", b"\\", b"{", b"\x0b", b"\x7f", b"\x80", b"\xff", b"'", b"#", b","]
BLANKS = [b" ", b" ", b"\n", b"\r\n", b"\t", b";c\n", b"", b""]
SMALL = b'()|";: a0.\n\\'


def a_part():
    """Makes a part of a soup, mostly one after which the text can be read on."""
    choice = random.random()
    if choice < 0.4:
        return random.choice(COMMANDS) + random.choice(BLANKS)
    if choice < 0.65:
        return random.choice(WORDS) + random.choice(BLANKS)
    if choice < 0.75:
        return b"(" + b" ".join(random.choices(WORDS, k=random.randint(0, 4))) + b")"
    if choice < 0.97:
        return random.choice(MARKS)
    return random.choice(STRAY)


def a_soup():
    """Makes a text of parts, or of bytes alone."""
    choice = random.random()
    if choice < 0.15:
        return bytes(random.choices(SMALL, k=random.randint(1, 30)))
    if choice < 0.2:
        return random.randbytes(random.randint(1, 8))
    if choice < 0.21:
        return b"(" * random.choice([3, 60, 1_000]) + a_part() + b")" * random.randint(0, 1_001)
    return b"".join(a_part() for _ in range(random.randint(1, 14)))


def a_session():
    """Makes a script by chance, with questions in half of them, damaged in some."""
    script = a_questioning_script() if random.random() < 0.5 else a_script(random.choice([0, 0, 0.2]))
    return damaged(script) if random.random() < 0.2 else script


def scripts_in(folder):
    """Returns the texts of the scripts of a folder."""
    texts = []
    for path in sorted(glob.glob(os.path.join(folder, "*.smt2"))):
        with open(path, "rb") as text:
            texts.append(text.read())
    return texts


def cut(text):
    """Cuts a text into pieces by chance: single bytes, some places, or short pieces."""
    choice = random.random()
    if choice < 0.3 and len(text) < 400:
        return [text[at : at + 1] for at in range(len(text))]
    if choice < 0.7:
        places = sorted(random.choices(range(len(text) + 1), k=random.randint(1, 8)))
    else:
        places, at = [], 0
        longest = random.choice([3, 10, 40, 40 + len(text) // 20])
        while at < len(text):
            at += random.randint(1, longest)
            places.append(min(at, len(text)))
    pieces = [text[start:end] for start, end in zip([0, *places], [*places, len(text)])]
    return [piece for piece in pieces if piece]
