"""Makes checks that assume literals, by chance; the share of what is ill-formed is an argument.

Names are given as they are written.
"""

import random

ODD_ITEMS = b"""5
0.5
"p"
:p
()
(p)
(not)
true
(not true)
and
let
(not let)
zz
(not zz)
(|not| zz)
(not (not p))
(not p p)
(and p q)
(= p p)
(! p :named p9)
(not 5)
x
f
(f p)
(not f)""".split(b"\n")
ODD_COMMANDS = b"""(check-sat-assuming)
(check-sat-assuming p)
(check-sat-assuming true)
(check-sat-assuming () ())
(check-sat-assuming (zz) 5)
(check-sat-assuming 5 (zz))
(|check-sat-assuming| ())
(check-sat-assuming ())
(check-sat-assuming (zz 5))
(check-sat-assuming (5 zz))""".split(b"\n")


def a_literal(names, share):
    """Makes a literal of one of the names, or what is mostly none."""
    if not names or random.random() < share:
        return random.choice(ODD_ITEMS)
    name = random.choice(names)
    return random.choice([name, b"(not " + name + b")", b"(not " + name + b")"])


def a_check(names, share):
    """Makes a check that assumes literals of these names."""
    if random.random() < share / 2:
        return random.choice(ODD_COMMANDS)
    count = random.choice([0, 1, 1, 2, 2, 3, 5]) if names or random.random() < share else 0
    return b"(check-sat-assuming (" + b" ".join(a_literal(names, share) for _ in range(count)) + b"))"
