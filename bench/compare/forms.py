"""Forms of one small proof: its three commands with odd names, attributes, definitions and ends put in by chance."""

import random

from changes import ALL_RULES, OTHER_RULES
from layout import damaged

SCRIPTS = (
    b"(declare-const p Bool)(declare-const q Bool)(assert p)(assert (not p))(check-sat)"
    b"(declare-const late Bool)(assert q)(check-sat)",
    b"(declare-const p Bool)(declare-const |let| Bool)(declare-const || Bool)(declare-const Bool Bool)"
    b"(assert p)(assert (not p))(check-sat)",
)
COMMANDS = (
    b"(assume h1 p)",
    b"(assume h2 (not p))",
    b"(step t1 (cl) :rule resolution :premises (h1 h2))",
)
DEFINED = b"""@p1 @p1 @ . .a q p late and or not true false xor => = distinct ite - + * / < <= > >= |and| || |let| let
! _ assert Bool |@p1| 5 "a" :k () (f) cl assume h1 new abs Real to_real select""".split()
SORTS = [b"Bool"] * 12 + b'|Bool| Real Int 5 "s" :k let () (Bool) p 1.5'.split() + [b"(_ Bool 1)", b"(let x)"]
BODIES = b'p @p1 q new late true 5 let () (not) "s" :k (p) not + Bool || |let|'.split()
BODIES += b"""(not p)
(not @p1)
(and p q)
(let ((x p)) x)
(! p :named n)
(and (! p :named n) n)
(! (not p) :named @n :named p)
(let ((x p)) (! x :named n))
(not n)
(f p)
(not p q)
(= p q p)
(distinct p q)
(|not| p)
(p q)
(+ p q)
(true p)
(5 p)
((p) q)
(_ p)""".split(b"\n")
ATTRIBUTES = b""":rule resolution
:rule resolution
:rule th_resolution
:rule |resolution|
:rule hole
:rule let
:rule 5
:rule "or"
:rule (or)
:rule :or
:rule
:Rule or
rule or
|:rule| or
:premises (h1 h2)
:premises (h1 h2)
:premises (h2 h1)
:premises (h1 h2 h1)
:premises (|h1| |h2|)
:premises (h1)
:premises ()
:premises (h1 zz)
:premises (h1 "h2")
:premises h1
:premises
:premises (let)
:premises (t1)
:premises ((h1 h2))
:premises (())
:args ()
:args (1 (x) let "a")
:args 5
:args x
:args
:discharge ()
:discharge (h1)
:discharge (nix)
:discharge (5)
:discharge x
:discharge (let)
:discharge ((a))
:foo (a)""".split(b"\n")
RIGHT_ATTRIBUTES = b":rule resolution :premises (h1 h2)"
CLAUSES = [b"(cl)"] * 12 + b"""(|cl|)
cl
()
(cl cl)
(CL)
((cl))
(cl p)
(cl (not p))
(cl false)
(cl zz)
(cl 5)
(cl ())
(cl let)
("cl")
(or)
p
5
(cl "a")
(cl (cl p))
(let)
(cl p zz)
(cl late)
(cl q (let p))""".split(b"\n")
NAMES = [b"t1"] * 10 + b"""h1 h2 |h1| |t1| let |let| 5 "t" :t () (t) @t .t and true || p _ ! 1.5 assert cl
step a\x80""".split()
VERBS = [b"step"] * 12 + b"""|step| STEP define-fun |define-fun| assume anchor 5 "step" :step let (step) () unsat assert
steps""".split()
EXTRAS = b"""unsat
|unsat|
(anchor :step t1)
()
(())
5
"a"
:k
let
x
)
(
|
"
1a
\x00
;
#
1.
\\
sat
(unsat)
(assume
(step t9 (cl)
((step t9 (cl true) :rule true))
(assume h9 p)
(assume h9 (not q))
(step t9 (cl true) :rule true)
(step t9 (cl true) :rule true :premises ())
(step t9 (cl true) :rule true :premises (h1))
(assume h9 p p)
(assume h9)
(assume)
(step)
(define-fun)
(assume h1 zz)
(assume h9 (zz))
(assume h9 (and p))
(assume 5 p)
(assume let p)
(step h1 (cl zz) :rule hole :premises (no))
(step t9 (cl zz) :rule hole :premises (no))
(step t9 (cl p) :rule hole :premises (no))
(step t9 (cl p) :rule or :premises (no))
(step t9 (cl p) :rule or :premises (no) :premises (no))
(define-fun h1 () Bool p)
(step t9 (cl p (5 5)) :rule or)
|step|""".split(b"\n")
BETWEEN = [b"\n", b" ", b"", b"\t", b"\r\n", b" ;c)\n", b";(\r", b"\n\n"]
WHOLE = b"""()
(
(())
( )
((
())
(;c
(|a|)
((a
)
(1a
( "
()()
() (
((assume h1 p))
((assume h1 p) )x""".split(b"\n") + [b"", b"(;c\n)"]
FRONTS = [b"unsat", b"unsat\n", b" unsat ", b"|unsat|", b";c\nunsat\n", b"unsat;", b"unsat unsat ", b"sat "]
FRONTS += [b'"unsat" ', b"Unsat\n", b":unsat ", b"5 ", b"unsat(", b"unsat)"]


def a_definition():
    """Returns a definition, mostly of the right shape."""
    verb = random.choice([b"define-fun"] * 12 + [b"|define-fun|", b"define-funs"])
    parameters = random.choice([b"()"] * 14 + [b"((x Bool))", b"x", b"(())", b"5"])
    parts = (verb, random.choice(DEFINED), parameters, random.choice(SORTS), random.choice(BODIES))
    return b"(%s %s %s %s %s)" % parts


def a_step_with_attributes():
    """Returns the last step with attributes by chance, mostly the right ones among them."""
    attributes = [random.choice(ATTRIBUTES) for _ in range(random.choice([0, 1, 2, 2, 3, 4]))]
    if random.random() < 0.9:
        attributes.insert(random.randint(0, len(attributes)), RIGHT_ATTRIBUTES)
    return b"(step t1 (cl) %s)" % b" ".join(attributes)


def a_step_by_a_rule():
    """Returns a step by any rule, of few literals and premises."""
    literals = b" ".join(random.choice(BODIES) for _ in range(random.randrange(3)))
    premises = b" ".join(random.choice([b"h1", b"h2", b"t1", b"|h1|", b"zz"]) for _ in range(random.randrange(3)))
    rule = random.choice(ALL_RULES + OTHER_RULES)
    name = random.choice([*NAMES, b"u1", b"u2"])
    return b"(step %s (cl %s) :rule %s :premises (%s))" % (name, literals, rule, premises)


def change_form(commands):
    """Changes the commands at one place."""
    at = random.randint(0, len(commands))
    choice = random.randrange(7)
    if choice == 0:
        commands.insert(at, a_definition())
    elif choice == 1:
        commands[-1] = a_step_with_attributes()
    elif choice == 2:
        parts = (random.choice(VERBS), random.choice(NAMES), random.choice(CLAUSES), RIGHT_ATTRIBUTES)
        commands[-1] = b"(%s %s %s %s)" % parts
    elif choice == 3:
        commands.insert(at, random.choice(EXTRAS))
    elif choice == 4:
        commands.insert(at, b"(assume %s %s)" % (random.choice(NAMES), random.choice(BODIES)))
    elif choice == 5:
        one = random.randrange(len(commands))
        commands[one:] = random.choice(
            [
                commands[one + 1 :] or [b"()"],
                [*commands[one:], commands[one]],
                commands[one:][::-1],
                [damaged(commands[one], 1), *commands[one + 1 :]],
            ]
        )
    else:
        commands.append(a_step_by_a_rule())


def a_form():
    """Returns a form of the small proof."""
    commands = list(COMMANDS)
    for _ in range(random.choice([1, 1, 1, 2, 3])):
        change_form(commands)
    result = random.choice(BETWEEN).join(commands)
    choice = random.random()
    if choice < 0.4:
        result = b"(" + random.choice(BETWEEN) + result + random.choice(BETWEEN) + b")"
    elif choice < 0.43:
        result = random.choice(WHOLE)
    if random.random() < 0.35:
        result = random.choice(FRONTS) + result
    result += random.choice(BETWEEN)
    if random.random() < 0.3:
        result += random.choice([*EXTRAS, b"(a", b"x y", b"(a))"]) + random.choice(BETWEEN)
    return result
