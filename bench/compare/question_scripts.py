"""Puts questions into other scripts by chance: `get-` commands of all kinds, in all modes, and options that they need.

The terms of `get-value` are over the names that are known where it stands, and seldom odd. Most scripts turn on all
options first; between commands they are turned on and off.
"""

import random

from assuming_scripts import with_assumptions
from commands import perform
from language import Definition, State
from layout import laid_out
from level_scripts import MAKERS, a_level_script, commands_of
from reading import Fault, printed_name, read_one
from scripts import NAMES, Maker

OPTIONS = (
    b":produce-models",
    b":produce-proofs",
    b":produce-assertions",
    b":produce-unsat-cores",
    b":produce-unsat-assumptions",
    b":print-success",
    b":global-declarations",
)
KEYS = (b":name", b":version", b":authors", b":error-behavior", b":reason-unknown", b":assertion-stack-levels")
ODD_KEYS = (*OPTIONS, b":all-statistics", b":Name", b":x", b":name.", b":named", b":produce-assignments")
ODD = b"""(get-model 1)
(get-model ())
(get-model :a)
(|get-model|)
(get-value)
(get-value ())
(get-value p)
(get-value (p) (q))
(get-value (p) 5)
(get-value 5 (zz))
(get-value ((! true :named n9)))
(get-value ((! zz :named n9)))
(get-value ((! true :named true)))
(get-value ((! true :named let)))
(get-value ((! true :named @n)))
(get-value ((! true :a 1 :b "c" :d |e f|)))
(get-value (zz ()))
(get-value (() zz))
(get-value (true (not)))
(get-value (let))
(get-value ("s"))
(get-value (:k))
(get-value ((as @e0 U)))
(get-value (and))
(get-value ((+ 1 true)))
(get-value (1.50 0 000))
(get-value (1.50 0 (/ 1 2) (- 0) (- 0.25) (/ 6 (- 4))))
(get-value (170141183460469231731687303715884105727 170141183460469231731687303715884105728))
(get-value ((* 2 170141183460469231731687303715884105727)))
(get-value (true (< 1 (* 2 170141183460469231731687303715884105727)) zz))
(get-value ((ite true 1 (+ 1 170141183460469231731687303715884105727)) 2))
(get-value (1 (+ 1 170141183460469231731687303715884105727) (* 2 170141183460469231731687303715884105727)))
(get-value ((let ((z 1) (y 2)) (+ z y)) |true| (|not| |false|) ))
(get-value ((let ((true 1)) 2)))
(get-value ((< 1 2 3) (distinct 1 2 1) (= 1 1.0 1.00) (xor true true true) (=> true false true) (- 8 4 2) (/ 8 4 2)))
(get-value ( ; a term
  true(not true)|false|))
(get-proof 1)
(get-proof ())
(|get-proof|)
(get-assertions 1)
(get-assertions ())
(get-option)
(get-option x)
(get-option ":print-success")
(get-option :print-success true)
(get-option (:print-success))
(get-option true)
(get-info)
(get-info name)
(get-info ":name")
(get-info :name :name)
(get-info (:name))
(get-info let)
(get-unsat-core ())
(get-unsat-assumptions 1)
(|get-unsat-core|)
(get-assignment)
(set-option :produce-models 1)
(set-option :produce-proofs True)
(set-option :global-declarations true)
(set-option :produce-unsat-cores 1)
(set-option :produce-assignments true)
(set-info :status unknown)
(echo "(get-model) ""x"" y")
(assert zz)
(assert 5)
(push 0)
(pop 0)
(pop 100)
(push x)
(set-logic QF_UF)
(check-sat 1)
(check-sat-assuming (zz))
(check-sat-assuming (5))
(declare-const true Bool)
(reset-assertions 1)
(reset 1)""".split(b"\n")
# One of them has two lines.
ODD[ODD.index(b"(get-value ( ; a term")] += b"\n" + ODD.pop(ODD.index(b"(get-value ( ; a term") + 1)
COMMENTED = (
    b'(assert (! true :a "b ""c""" :d |e f|)) ; (a note)',
    b"(assert(or true;\n|false|))",
    b"(assert (= 1.50 1.5 |a b|))",
)


def maker_of(state, share):
    """Returns a maker of terms over the names that are known."""
    maker = Maker(share)
    for name, known in state.functions.items():
        sorts, result = known if not isinstance(known, Definition) else (
            [sort for _, sort in known.parameters],
            state.terms.sorts[known.term],
        )
        maker.functions[printed_name(name)] = [printed_name(sort[0]) for sort in sorts], printed_name(result[0])
    maker.sorts = [printed_name(name) for name, sort in state.sorts.items() if sort[0] == name]
    return maker


def a_value_question(state, share):
    """Makes a `get-value` of one or several terms."""
    maker = maker_of(state, share)
    sorts = {result for given, result in maker.functions.values() if not given} | {b"Bool", b"Real"}
    terms = []
    for _ in range(random.choice([1, 1, 2, 3, 5])):
        sort, size = random.choice(sorted(sorts)), random.choice([1, 1, 2, 4, 7, 12])
        applied = [name for name, (given, result) in maker.functions.items() if given and result == sort]
        if applied and random.random() < 0.4:
            name = random.choice(applied)
            terms.append(maker.list(name, maker.functions[name][0], size, {}))
        else:
            terms.append(maker.of_sort(sort, size, {}))
    return b"(get-value (" + b" ".join(terms) + b"))"


def a_question(state, share):
    """Makes a question, or what is asked about, by chance."""
    choice = random.random()
    if choice < 0.4:
        return a_value_question(state, share)
    if choice < 0.7:
        return random.choice(
            [b"(get-model)", b"(get-proof)", b"(get-unsat-core)", b"(get-unsat-assumptions)", b"(get-assertions)"]
        )
    if choice < 0.77:
        return b"(get-info " + random.choice(KEYS + (b":reason-unknown",) * 4) + b")"
    if choice < 0.81:
        return random.choice([b"(get-option ", b"(get-info "]) + random.choice(OPTIONS + ODD_KEYS) + b")"
    if choice < 0.9:
        return b"(set-option " + random.choice(OPTIONS) + b" " + random.choice([b"true", b"true", b"false"]) + b")"
    return random.choice([b'(echo "a ""b""")', *ODD] if choice < 0.98 else [*COMMENTED, b"(push)", b"(pop)"])


def with_questions(script):
    """Returns a script with questions between its commands, most of them after checks."""
    share = random.choice([0, 0, 0, 0.1, 0.5])
    texts = [b"(set-option :print-success false)"] if random.random() < 0.6 else []
    if random.random() < 0.8:
        texts += [b"(set-option " + option + b" true)" for option in OPTIONS[:5]]
    state = State(2**24)
    for text in texts:
        perform(state, read_one(text, 0)[0])
    waiting = [text for _, text in commands_of(script)]
    waiting.reverse()
    while waiting:
        text = waiting.pop()
        texts.append(text)
        try:
            perform(state, read_one(text, 0)[0])
        except Fault:
            pass
        if random.random() < (0.6 if state.asked else 0.12):
            waiting.append(a_question(state, share))
    return b"\n".join(texts) + b"\n"


def a_questioning_script():
    """Makes a script with questions, over all sorts, with levels and assumptions in some."""
    script = random.choice([a_level_script, *MAKERS])()
    if random.random() < 0.4:
        script = with_assumptions(script)
    script = with_questions(script)
    return laid_out(script, NAMES) if random.random() < 0.2 else script


def without_questions(script):
    """Returns a script without questions, options and what is refused: other solvers answer these otherwise."""
    state, texts = State(2**24), []
    for word, text in commands_of(script):
        try:
            perform(state, read_one(text, 0)[0])
        except Fault:
            continue
        if word[:4] != b"get-" and (word != b"set-option" or b":global-declarations" in text):
            texts.append(text)
    return b"\n".join([*texts, b""])
