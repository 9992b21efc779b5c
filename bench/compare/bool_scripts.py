"""Makes scripts over constants of sort Bool by chance, with odd names, commands and layouts, and ill-formed parts.

What is made is first a tree, as layout.py has them. The caller seeds `random`.
"""

import random

from layout import ODD_NAMES, raw, row, seldom_separator, separator, symbol, written
from reading import RESERVED

HEADS = b"not and or xor => = distinct ite".split()
RESERVED_WORDS = sorted(RESERVED)
PLAIN_NAMES = b"p q r s t".split()
BAD_NAMES = b"@p1 .x @ . and true false not = + - * / < <= > >= ite distinct xor => or".split()
LITERAL_TEXTS = b'5 0 1.5 "s" "a""b" :kw 0.0 12345678901234567890123456789012345678901234567890'.split()
BAD_SORTS = b'Real Int 5 "s" :k 1.5 () (Bool) let _ |Bool| bool ||'.split() + [b"(_ Bool 1)"]
OTHER_COMMANDS = b"""(set-logic QF_UF)
(declare-fun f () Bool)
(define-fun f () Bool true)
(echo "a""b")
(set-info :status sat)
(get-info :name)
(get-model)
(get-proof)
(reset)
(push)
(pop)
(get-assertions)
(reset-assertions)
(get-unsat-core)
(set-option)
(set-option :print-success)
(set-option print-success true)
(set-option :print-success true true)
(set-option :foo)
(set-option ":print-success" true)
(set-option :x a b)
(set-option :print-success 5)
(set-option :print-success "true")
(set-option :print-success (true))
(set-option :print-success let)
(set-option :print-success :true)
(set-option :print-success True)
(set-option :print-success |true|)
(set-option :print-success |false|)
(set-option :produce-models true)
(set-option :foo 5)
(set-option :print-successs "x")
(set-option :0 (a let))
(set-option :. let)
(set-option :produce-unsat-cores ())
(set-option :global-declarations :k)""".split(b"\n")
STRAY_TEXTS = b"""5 "s" :k check-sat p () 1.25 || ) "open |open |a\\b| 1. 00 1a 1.5.2 : #x1 \\ { ( |a\\ "a"" (assert
0. 1|a| 1"s" 1:k""".split()
HEADS_OF_LISTS = b'assert check-sat exit |assert| |check-sat| foo 5 "s" :k (check-sat) ()'.split()


def leaf(names):
    """Makes a constant, or seldom a truth value."""
    if names and random.random() < 0.9:
        return symbol(random.choice(names))
    return symbol(random.choice([b"true", b"false"]))


def a_term(names, size, pool):
    """Makes a term of about this size; terms of the pool come again."""
    if pool and random.random() < 0.2:
        return random.choice(pool)
    if size <= 1 or random.random() < 0.15:
        return leaf(names)
    head = random.choice(HEADS + [b"not", b"and", b"or", b"or", b"and"])
    if head in (b"not", b"ite"):
        count = 1 if head == b"not" else 3
    else:
        count = random.choice([1, 2, 2, 3, 3, 4, 7] if head in (b"and", b"or") else [2, 2, 2, 3, 4, 5])
    made = row(symbol(head), *(a_term(names, size // count, pool) for _ in range(count)))
    pool.append(made)
    if len(pool) > 12:
        pool.pop(random.randrange(12))
    return made


def deep_term(names, depth):
    """Makes a term that is nested so deep, in one argument each."""
    made = leaf(names)
    for _ in range(depth):
        head = random.choice(HEADS)
        given = [leaf(names) for _ in range({b"not": 0, b"ite": 2}.get(head, 1))]
        given.insert(random.randint(0, len(given)), made)
        made = row(symbol(head), *given)
    return made


def a_clause(names):
    """Makes a disjunction of at most three literals."""
    chosen = random.sample(names, random.randint(1, min(3, len(names))))
    return row(
        symbol(b"or"),
        *(symbol(name) if random.random() < 0.5 else row(symbol(b"not"), symbol(name)) for name in chosen),
    )


def bad_term(names):
    """Makes a term that is ill-formed somewhere."""

    def good():
        return a_term(names, 3, [])

    def chosen(words):
        return symbol(random.choice(words))

    reserved = raw(random.choice(RESERVED_WORDS))
    kinds = [
        lambda: raw(random.choice(LITERAL_TEXTS)),
        lambda: row(),
        lambda: row(good()),
        lambda: row(reserved, good()),
        lambda: reserved,
        lambda: row(reserved),
        lambda: row(raw(random.choice([b"5", b'"s"', b":k", b"1.0"])), good()),
        lambda: row(row(symbol(b"not"), good()), good()),
        lambda: row(chosen([b"true", b"false", *names]), good()),
        lambda: row(chosen([b"zz", b"f", b"+", b"<", b"Int", b"@a", b".b"]), good(), good()),
        lambda: chosen(HEADS),
        lambda: chosen([b"+", b"-", b"<=", b"zz", b"@p1", b""]),
        lambda: row(symbol(b"not"), good(), good()),
        lambda: row(chosen([b"xor", b"=>", b"=", b"distinct"]), good()),
        lambda: row(symbol(b"ite"), *(good() for _ in range(random.choice([1, 2, 4, 5])))),
        lambda: row(raw(b"let"), row(row(symbol(b"x"), good())), good()),
        lambda: row(raw(b"!"), good(), raw(b":named"), symbol(b"n")),
        lambda: row(raw(b"forall"), row(row(symbol(b"x"), symbol(b"Bool"))), good()),
        lambda: row(chosen(HEADS), row(), bad_term(names)),
        lambda: row(symbol(b"zz"), bad_term(names)),
        lambda: row(symbol(b"and"), good(), bad_term(names)),
        lambda: row(chosen(HEADS), good(), bad_term(names), bad_term(names)),
    ]
    return random.choice(kinds)()


def bad_declaration(names):
    """Makes a declaration with a wrong name, a wrong sort, or a wrong number of parts."""
    known = random.choice([symbol(random.choice(BAD_NAMES + names)), raw(random.choice(RESERVED_WORDS))])
    kinds = [
        row(raw(b"declare-const"), known, raw(random.choice([b"Bool", b"Real", b"5"]))),
        row(raw(b"declare-const"), symbol(random.choice(ODD_NAMES + names)), raw(random.choice(BAD_SORTS))),
        row(
            raw(b"declare-const"),
            raw(random.choice([b"5", b'"s"', b":k", b"()", b"zz"])),
            *[symbol(b"Bool")] * random.randint(0, 2),
        ),
    ]
    return random.choice(kinds)


def bad_command(names):
    """Makes a command that is ill-formed, mostly, or ends the script."""

    def several(counts):
        return [a_term(names, 3, []) for _ in range(random.choice(counts))]

    choice = random.randrange(24)
    if choice < 8:
        return row(raw(b"assert"), bad_term(names))
    if choice < 11:
        return bad_declaration(names)
    if choice < 13:
        return row(raw(random.choice(RESERVED_WORDS)), *several([0, 1, 2, 3]))
    if choice == 13:
        return row(raw(random.choice(HEADS_OF_LISTS)), *several([0, 1, 2]))
    if choice == 14:
        return row(raw(b"check-sat"), *several([1, 2]))
    if choice == 15:
        return row(raw(b"assert"), *several([0, 2, 3]))
    if choice == 16:
        return row(raw(b"exit"), *several([0, 1]))
    if choice < 22:
        return raw(random.choice(OTHER_COMMANDS))
    return raw(random.choice(STRAY_TEXTS))


def declaration(name):
    """Makes the declaration of a constant."""
    return row(raw(b"declare-const"), symbol(name), symbol(b"Bool"))


def print_success(words):
    """Makes the option that turns the answer `success` on or off."""
    return row(raw(b"set-option"), raw(b":print-success"), symbol(random.choice(words)))


def a_check(names):
    """Makes a check, which assumes literals in some cases."""
    if random.random() < 0.7:
        return row(raw(b"check-sat"))
    literals = [symbol(random.choice(names)) for _ in range(random.randint(0, 3) if names else 0)]
    literals = [random.choice([literal, row(symbol(b"not"), literal)]) for literal in literals]
    return row(raw(b"check-sat-assuming"), row(*literals))


def an_assertion(names, mode, pool):
    """Makes an assertion: of a clause, of a deep term, or of any term."""
    if mode < 0.3 and names:
        asserted = a_clause(names)
    elif mode < 0.36:
        asserted = deep_term(names, random.randint(1, 60))
    else:
        asserted = a_term(names, random.choice([1, 2, 4, 8, 16, 30]), pool)
    return row(raw(b"assert"), asserted)


def a_script(bad_share):
    """Makes a script in which about this share of the commands is ill-formed."""
    count = random.randint(1, 5)
    undeclared = random.sample(ODD_NAMES, count) if random.random() < 0.6 else PLAIN_NAMES[:count]
    names = []
    commands = []
    pool = []
    mode = random.random()
    if random.random() < 0.6:
        commands.append(print_success([b"true", b"false", b"false"]))
    if random.random() < 0.7:
        commands += map(declaration, undeclared)
        names, undeclared = undeclared, []
    for _ in range(random.randint(2, 14)):
        choice = random.random()
        if random.random() < bad_share:
            commands.append(bad_command(names or [b"zz"]))
        elif undeclared and choice < 0.35:
            names = names + undeclared[:1]
            commands.append(declaration(undeclared[0]))
            undeclared = undeclared[1:]
        elif choice < 0.78:
            commands.append(an_assertion(names, mode, pool))
        elif choice < 0.95:
            commands.append(a_check(names))
        elif choice < 0.97:
            commands.append(print_success([b"true", b"false"]))
        else:
            commands.append(raw(b"(set-option :produce-models true)"))
    commands.append(row(raw(b"check-sat")))
    if random.random() < 0.2:
        commands.append(row(raw(b"exit")))
    between = [b"", b"\n", b"\n", separator()]
    return seldom_separator() + b"".join(written(command) + random.choice(between) for command in commands)
