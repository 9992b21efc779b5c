"""Changes proofs by chance, and writes them in their different outer forms."""

import random

from bool_scripts import BAD_SORTS, HEADS, a_term
from layout import copied, plainly_written, raw, replaced, row, symbol, written
from rules import RULES

ALL_RULES = sorted(RULES)
OTHER_RULES = b"""hole subproof reflexive transitive symmetric congr lia_generic eq_symmetric x_ite_if distinct
or1 xor_pos3 ite3 not_ite3 implies_pos1 tautology cl Resolution and_simplify equiv_simplify la_tautology""".split()
OTHER_RULES.append(b"")
ODD_TEXTS = b'"s" :k 5 1.5 let _ ! () (zz) zz |let| @p1 true cl (cl) and 0 assert |p| (and) (5\t5)'.split(b" ")
ODD_TEXTS += [b"(not true)", b'("a" p)', b"(! true :named @n)", b"(! true :named n)", b"n", b"@n"]
ODD_NAMES = b"@p1 @x .y zz and + true new p Bool let assert |let| = h1 5 \"s\" () || @ . cl".split()
ODD_COMMANDS = b"""unsat
(anchor :step t1)
(assume)
(step)
(assume h9)
(assume h9 true true)
(step t9)
(step t9 (cl))
(step t9 (cl true) :rule true)
(step t9 (cl true) :rule true :premises ())
(step t9 (cl true) :premises ())
(step t9 (cl true) :rule)
(step t9 () :rule true)
(step t9 cl :rule true)
(step t9 ((cl)) :rule true)
(step t9 (kl true) :rule true)
(step t9 (|cl| true) :rule |true|)
(|step| |t9| (cl true) :rule true)
(foo)
((step t9 (cl true) :rule true))""".split(b"\n")
KEYWORDS = b':rule :premises :args :discharge :Rule :foo rule ":rule"'.split()
ODD_ENDS = b'() x ( ) " (step) \x00 1a |a unsat (a'.split(b" ") + [b"\n  (step t99 (cl true) :rule true)"]
ODD_FRONTS = [b"unsat", b"|unsat|", b"unsat unsat\n", b"sat\n", b" ", b";c\n", b'"unsat"', b":unsat ", b"unsat ;(\n"]
ATTRIBUTES = b""":args ()
:args (5 zz let)
:args ((zz))
:args 5
:discharge ()
:discharge (nix)
:discharge (5)
:discharge x
:discharge ((a))
:discharge (let)""".split(b"\n")


def begun_by(commands, head):
    """Returns the commands that have this tree as their first part."""
    return [command for command in commands if command[0] == "row" and command[1][:1] == [head]]


def value_of(step, keyword):
    """Returns the place of a keyword's value in a step, or None."""
    places = [place for place, part in enumerate(step[:-1]) if part == raw(keyword)]
    return places[0] + 1 if places else None


def odd():
    """Returns the tree of an odd text."""
    return raw(random.choice(ODD_TEXTS))


def known_name(commands):
    """Returns the tree of a name that some command has."""
    names = [command[1][1] for command in commands if command[0] == "row" and len(command[1]) > 1]
    return copied(random.choice(names)) if names else symbol(b"h1")


def change_row(parts):
    """Changes a list of trees in place: drops, copies, exchanges or replaces one."""
    at = random.randrange(len(parts) + 1)
    choice = random.randrange(7)
    if choice == 0 or not parts:
        parts.insert(at, random.choice([odd(), raw(random.choice(KEYWORDS))]))
        return
    one = random.randrange(len(parts))
    other = random.randrange(len(parts))
    if choice == 1:
        del parts[one]
    elif choice == 2:
        parts[one], parts[other] = parts[other], parts[one]
    elif choice == 3:
        parts.insert(at, copied(parts[one]))
    elif choice == 4:
        parts[one] = odd()
    elif choice == 5:
        parts[one] = row(parts[one])
    elif parts[one][0] == "row" and parts[one][1]:
        parts[one] = parts[one][1][0]


def change_premises(commands, step):
    """Changes the premises of a step, or gives it some."""
    place = value_of(step, b":premises")
    if place is None:
        step += [raw(b":premises"), row(*(known_name(commands) for _ in range(random.randint(0, 2))))]
        return
    if step[place][0] != "row":
        return
    premises = step[place][1]
    choice = random.randrange(6)
    if choice == 0 and premises:
        del premises[random.randrange(len(premises))]
    elif choice == 1:
        premises.insert(random.randint(0, len(premises)), known_name(commands))
    elif choice == 2 and premises:
        premises[random.randrange(len(premises))] = known_name(commands)
    elif choice == 3:
        random.shuffle(premises)
    elif choice == 4:
        premises.insert(random.randint(0, len(premises)), odd())
    else:
        premises.append(step[1])


def change_clause(_commands, step):
    """Changes the literals of a step."""
    if len(step) < 3 or step[2][0] != "row":
        return
    literals = step[2][1]
    if len(literals) < 2:
        literals.append(random.choice([raw(b"true"), raw(b"false"), odd()]))
        return
    at = random.randrange(1, len(literals))
    other = random.randrange(1, len(literals))
    choice = random.randrange(7)
    if choice == 0:
        del literals[at]
    elif choice == 1:
        literals[at] = row(symbol(b"not"), literals[at])
    elif choice == 2:
        literals.insert(at, copied(literals[other]))
    elif choice == 3:
        literals[at], literals[other] = literals[other], literals[at]
    elif choice == 4:
        literals[at] = row(symbol(b"not"), row(symbol(b"not"), literals[at]))
    elif choice == 5:
        literals[at] = odd()
    else:
        del literals[1:]


def change_rule(_commands, step):
    """Puts another rule into a step."""
    place = value_of(step, b":rule")
    if place is not None:
        rules = random.choice([ALL_RULES, ALL_RULES, OTHER_RULES])
        step[place] = symbol(random.choice(rules)) if random.random() < 0.85 else odd()


def change_attributes(_commands, step):
    """Adds an attribute to a step, or puts its attributes into another order, or changes a keyword."""
    choice = random.randrange(3)
    if choice == 0:
        step.append(raw(random.choice(ATTRIBUTES)))
    elif choice == 1:
        pairs = [step[at : at + 2] for at in range(3, len(step), 2)]
        random.shuffle(pairs)
        step[3:] = [part for pair in pairs for part in pair]
    else:
        places = [at for at in range(3, len(step)) if step[at][0] == "raw" and step[at][1].startswith(b":")]
        if places:
            step[random.choice(places)] = raw(random.choice(KEYWORDS))


def change_arguments(_commands, step):
    """Changes the numbers that a step has as arguments, where it has some."""
    place = value_of(step, b":args")
    if place is None or step[place][0] != "row" or not step[place][1]:
        return
    numbers = step[place][1]
    at = random.randrange(len(numbers))
    choice = random.randrange(5)
    if choice == 0:
        del numbers[at]
    elif choice == 1:
        numbers[at] = row(symbol(b"-"), numbers[at])
    elif choice == 2:
        numbers[at] = row(symbol(b"/"), numbers[at], raw(random.choice([b"2", b"3", b"1", b"0"])))
    elif choice == 3:
        numbers[:] = [row(symbol(b"/"), number, raw(b"0.5")) for number in numbers]
    else:
        numbers[at] = random.choice([raw(b"0"), raw(b"1"), raw(b"2.0"), copied(random.choice(numbers)), odd()])


def add_copy(commands, step):
    """Adds a step that has this one as its premise, and the same literals in another order."""
    if len(step) < 3 or step[2][0] != "row":
        return
    literals = list(map(copied, step[2][1][1:]))
    random.shuffle(literals)
    rule = random.choice([b"reordering", b"contraction", b"weakening", b"resolution"])
    added = row(symbol(b"step"), symbol(b"n%d" % random.randrange(3)), row(symbol(b"cl"), *literals))
    added[1].extend([raw(b":rule"), symbol(rule), raw(b":premises"), row(step[1])])
    place = [at for at, command in enumerate(commands) if command[1] is step][0]
    commands.insert(place + 1, added)


STEP_CHANGES = [change_premises, change_clause, change_clause, change_rule, change_attributes, add_copy]
ARGUMENT_CHANGES = [*STEP_CHANGES, change_arguments, change_arguments, change_arguments]


def change_definition(commands, names):
    """Changes the body of a definition, or puts the body where its name stands, or adds a definition."""
    definitions = begun_by(commands, raw(b"define-fun"))
    choice = random.randrange(7)
    if choice == 0 or not definitions:
        verb = random.choice([b"define-fun"] * 5 + [b"|define-fun|", b"define-sort"])
        parameters = random.choice([b"()"] * 9 + [b"((x Bool))", b"zz", b"5", b"(())"])
        sort = random.choice([b"Bool"] * 12 + BAD_SORTS)
        body = random.choice([a_term(names, 3, []), a_term(names, 3, []), odd()])
        added = row(raw(verb), raw(random.choice(ODD_NAMES)), raw(parameters), raw(sort), body)
        commands.insert(random.randint(0, len(commands)), added)
        return
    definition = random.choice(definitions)[1]
    body = definition[-1]
    if choice == 1 and len(definition) == 5:
        commands[:] = [replaced(command, definition[1], body) for command in commands if command[1] is not definition]
    elif choice == 2:
        definition[-1] = row(symbol(b"not"), body)
    elif body[0] == "row" and body[1]:
        if choice == 3:
            random.shuffle(body[1])
        elif choice == 4:
            body[1][0] = symbol(random.choice(HEADS))
        elif choice == 5:
            body[1][random.randrange(len(body[1]))] = random.choice([odd(), raw(b"@p1"), raw(b"@p2"), raw(b"@p3")])
        else:
            body[1].append(symbol(random.choice(names)))


def change_assumption(commands, names):
    """Changes the term or the name of an assumption."""
    assumptions = begun_by(commands, symbol(b"assume"))
    if not assumptions:
        return
    parts = random.choice(assumptions)[1]
    if len(parts) < 3:
        return
    choice = random.randrange(5)
    if choice == 0:
        parts[2] = row(symbol(b"not"), parts[2])
    elif choice == 1:
        parts[2] = a_term(names, 3, [])
    elif choice == 2:
        parts[2] = odd()
    elif choice == 3:
        parts[2] = row(symbol(random.choice(HEADS)), parts[2], copied(parts[2]))
    else:
        parts[1] = symbol(random.choice([b"", b"and", b"true", b"@p1", b"a b", b"let", b"h1", b"t1"]))


def change_order(commands, _names):
    """Drops, copies, exchanges or renames commands, or puts an odd one in."""
    one = random.randrange(len(commands))
    other = random.randrange(len(commands))
    choice = random.randrange(8)
    if choice == 0:
        del commands[one]
    elif choice == 1:
        commands.insert(other, copied(commands[one]))
    elif choice == 2:
        commands[one], commands[other] = commands[other], commands[one]
    elif choice == 3:
        del commands[random.choice([slice(one), slice(one, None)])]
    elif choice == 4:
        commands.insert(other, raw(random.choice(ODD_COMMANDS)))
    elif choice == 5:
        new = symbol(random.choice([b"zz", b"@q", b".r", b"a b", b"and", b"let", b"", b"cl", b"p"]))
        old = known_name(commands)
        commands[:] = [replaced(command, old, new) for command in commands]
    elif choice == 6 and commands[one][0] == "row" and len(commands[one][1]) > 1:
        commands[one][1][1] = known_name(commands)
    elif commands[one][0] == "row":
        change_row(commands[one][1])


def changed(commands, names, times):
    """Returns the commands of a proof, changed so often; `names` are constants of the script."""
    commands = list(map(copied, commands))
    names = names or [b"zz"]
    for _ in range(times):
        steps = begun_by(commands, symbol(b"step"))
        if not commands:
            break
        if steps and random.random() < 0.6:
            step = random.choice(steps)[1]
            if len(step) > 1:
                changes = STEP_CHANGES if value_of(step, b":args") is None else ARGUMENT_CHANGES
                random.choice(changes)(commands, step)
        else:
            random.choice([change_definition, change_assumption, change_order])(commands, names)
    return commands


def joined(texts):
    """Joins the texts of commands, with nothing only between parentheses."""
    between = random.choice([b"\n", b"\n", b" ", b"", b"\r\n", b"\n;c\n"])
    result = b""
    for text in texts:
        is_closed = not result or (result[-1:] == b")" and text[:1] == b"(")
        result += text if not result else (between or (b"" if is_closed else b" ")) + text
    return result


def proof_text(commands):
    """Writes a proof: as commands or as one list, behind the word `unsat` or without it, with odd texts at its ends."""
    result = joined([random.choice([written, plainly_written])(command) for command in commands])
    choice = random.random()
    if choice < 0.5:
        result = b"(" + random.choice([b"", b"\n", b" ;x\n"]) + result + b"\n)"
    elif choice < 0.57:
        front, back = random.choice([(b"((", b"))"), (b"(", b""), (b"", b")")])
        result = front + result + back
    result += random.choice([b"", b"\n", b"\n", b"\n", b" ", b"\r\n", b";end", b"\n;end\n", b" \t\n "])
    if random.random() < 0.06:
        result += random.choice(ODD_ENDS)
    return random.choice([b"", b"unsat\n"] * 12 + ODD_FRONTS) + result
