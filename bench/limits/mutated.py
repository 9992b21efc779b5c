"""Mutated scripts and proofs, each run once with one allocation refused, at a place by chance."""

import os
import random
import re
import tempfile
from collections import Counter
from concurrent.futures import ThreadPoolExecutor

from refused import Refusal, outcome

EXAMPLES = os.path.join(os.path.dirname(os.path.abspath(__file__)), "..", "..", "examples")
# How many bytes a text has at most, how many seconds a run takes at most, and how many runs go at a time.
LONGEST, SECONDS, LANES = 20_000, 20, 2
COMMANDS = [["solve"], ["certify", "--conflicts", "300"], ["solve", "--conflicts", "20"]]
TOKEN = re.compile(rb'\(|\)|"[^"]*"|\|[^|]*\||[^\s()]+|\s+')
POOL = [b"(", b")", b"|", b'"', b"\0", b"\xff", b"0", b"-1", b"170141183460469231731687303715884105728", b"1.5", b"(- 2)", b"true"]
POOL += [b"(push 3)", b"(pop 1)", b"(reset)", b"(reset-assertions)", b"(check-sat)", b"(get-model)", b"(get-proof)", b"(exit)", b"let"]
POOL += [b"(set-option :produce-models true)", b"(set-option :global-declarations true)", b"distinct", b"not", b"(cl)", b":premises"]


def rows_of(path):
    """Gives the scripts of a file of rows, each with its proof, or nothing."""
    with open(path, "rb") as file:
        text = file.read()
    rows, script, proof = [], b"", None
    for row in text.split(b"\n====\n"):
        parts = row.split(b"\n----\n")
        if len(parts) < 3:
            continue
        script = script if parts[1] == b"=" else parts[1]
        proof = (proof if parts[2] == b"=" else parts[2]) if len(parts) > 3 else None
        rows.append((script, proof))
    return rows


def texts_of(folder):
    """Gives the scripts in a folder, each with each of its proofs, or nothing."""
    texts = {name: os.path.join(folder, name) for name in sorted(os.listdir(folder))}
    read = {name: open(path, "rb").read() for name, path in texts.items() if name.endswith((".smt2", ".alethe"))}
    scripts = [(text, None) for name, text in read.items() if name.endswith(".smt2")]
    first = next((text for text, _ in scripts), b"")
    return scripts + [(read.get(name[:-6] + "smt2", first), text) for name, text in read.items() if name.endswith(".alethe")]


def sources(folders):
    """Gives all short scripts, with a proof or nothing, of the examples and of other folders."""
    runs = os.path.join(EXAMPLES, "runs")
    found = [row for name in sorted(os.listdir(runs)) for row in rows_of(os.path.join(runs, name)) if name.endswith(".rows")]
    for folder in [*(os.path.join(EXAMPLES, name) for name in ("answers", "proofs", "rules")), *folders]:
        found += texts_of(folder)
    return [(script, proof) for script, proof in found if len(script) <= LONGEST and len(proof or b"") <= LONGEST]


def mutated(chance, text, others):
    """Gives a text with one to four changes: of tokens, of bytes, of its end, or with a part of another text."""
    for _ in range(chance.randint(1, 4)):
        tokens = TOKEN.findall(text) or [b""]
        at, other = chance.randrange(len(tokens)), chance.randrange(len(tokens))
        what = chance.randrange(8)
        if what == 0:
            del tokens[at]
        elif what == 1:
            tokens.insert(at, tokens[other])
        elif what == 2:
            tokens[at], tokens[other] = tokens[other], tokens[at]
        elif what == 3:
            tokens[at] = chance.choice(POOL)
        elif what == 4:
            tokens.insert(at, b" " + chance.choice(POOL) + b" ")
        elif what == 5 and chance.random() < 0.3:
            del tokens[at:]
        elif what == 6:
            lines = chance.choice(others).splitlines(keepends=True) or [b""]
            tokens.insert(at, chance.choice(lines))
        text = b"".join(tokens)
        if what == 7 and text:
            place = chance.randrange(len(text))
            text = text[:place] + bytes([chance.randrange(256)]) + text[place + 1 :]
    return text


def one_case(chance, found, scripts, proofs):
    """Gives the arguments before the names, a script, and a proof or nothing, of which one at least is mutated."""
    script, proof = chance.choice(found)
    if proof is None:
        return chance.choice(COMMANDS), mutated(chance, script, scripts), None
    if chance.random() < 0.2:
        script = mutated(chance, script, scripts)
    return ["check"], script, mutated(chance, proof, proofs)


def run_case(program, refusal, number, case, place):
    """Runs a case with no allocation refused and with one; gives what came, and the text that says what is wrong."""
    words, script, proof = case
    names = [os.path.join(refusal.folder, f"{number}.{kind}") for kind in ("smt2", "alethe")][: 1 if proof is None else 2]
    for name, text in zip(names, (script, proof)):
        with open(name, "wb") as file:
            file.write(text)
    command = [program, *words, *names]
    whole = refusal.ran(command, seconds=SECONDS, COUNT="1")
    if whole is None:
        what, wrong = "too long", None
    else:
        refused = 1 + int(place * int(whole.stderr.split()[-1]))
        done = refusal.ran(command, seconds=SECONDS, REFUSE=str(refused))
        what = "wrong" if done is None else outcome(done, whole, words[0])
        wrong = f"case {number}, {' '.join(words)}, allocation {refused} refused:\n{script!r}\n{proof!r}\n{done}"
    for name in names:
        os.remove(name)
    return what, wrong


def run_all(program, count, seed, *folders):
    """Runs so many cases; prints how many ended in which way, and returns what is wrong, as texts."""
    chance, found = random.Random(int(seed)), sources(folders)
    scripts = [script for script, _ in found]
    proofs = [proof for _, proof in found if proof is not None]
    cases = [(one_case(chance, found, scripts, proofs), chance.random()) for _ in range(int(count))]
    counts, wrong = Counter(), []
    with tempfile.TemporaryDirectory() as folder, ThreadPoolExecutor(LANES) as lanes:
        refusal = Refusal(folder)
        ended = [lanes.submit(run_case, program, refusal, n, case, place) for n, (case, place) in enumerate(cases)]
        for (case, _), done in zip(cases, ended):
            what, text = done.result()
            counts[case[0][0], what] += 1
            if what == "wrong":
                wrong.append(text)
    print(f"{count} runs over {len(found)} texts, seed {seed}")
    for command in ("solve", "certify", "check"):
        came = ", ".join(f"{n} {what}" for (word, what), n in sorted(counts.items()) if word == command)
        print(f"{command}: {came}")
    return wrong
