"""Checks the form of proofs that `certify` prints, as docs/FORMATS.md says, beside what a judge says of them."""

from collections import Counter

from printed_values import Wrong, number_of
from reading import Fault, printed_name, read_one


def printed(item):
    """Returns an item as the program prints it, with one blank between two."""
    kind, value, _ = item
    if kind == "list":
        return b"(" + b" ".join(printed(part) for part in value) + b")"
    return printed_name(value) if kind == "sym" else value


HEADS = {b"not", b"and", b"or", b"xor", b"=>", b"=", b"ite", b"-", b"+", b"*", b"/", b"<", b"<="}
# Heads that take two arguments as they are read.
PAIRED = {b"=", b"xor", b"=>", b"/", b"<", b"<="}


def is_shortest(item):
    """Tells whether a number is written as a numeral or as the shortest decimal."""
    return item[0] == "num" or (item[0] == "dec" and not item[1].endswith(b"0"))


DEEPEST = 8  # in place


def depth(item):
    """Counts how deep a term is in place: 0 for a word."""
    return 1 + max(map(depth, item[1][1:]), default=0) if item[0] == "list" else 0


def proof_end(judge, output, at):
    """Returns the offset behind the proof that starts at `at`, which has to be right and printed as it should be."""
    try:
        found = read_one(output, at)
    except Fault as fault:
        raise Wrong(f"the proof is not readable: {fault.name!r}") from fault
    if found is None or found[0][0] != "list":
        raise Wrong("no proof starts here")
    commands = found[0][1]
    wanted = b"(\n" + b"".join(printed(command) + b"\n" for command in commands) + b")\n"
    if not output.startswith(wanted, at):
        raise Wrong("the proof is not printed a command a line")
    PrintedProof(judge).take_all(commands)
    return at + len(wanted)


class PrintedProof:
    """The further promises on a proof that `certify` prints: its names, their order, and that all of it is needed."""

    def __init__(self, judge):
        self.judge = judge
        self.counts = {b"define-fun": 0, b"assume": 0, b"step": 0}
        self.uses = {}
        self.steps = []
        self.named = set()
        self.defined_terms = set()
        self.times = Counter()
        self.depths = {}
        self.placed = set()

    def take_item(self, item):
        """Checks the form of a printed term, and returns the names of definitions in it: a word, or one head over terms."""
        if item[0] != "list":
            if item[0] != "sym" and not is_shortest(item):
                raise Wrong("a number that is not the shortest")
            names = [item[1]] if item[0] == "sym" and item[1].startswith(b"@p") else []
            self.times.update(names)
            return names
        if depth(item) > DEEPEST:
            raise Wrong("a term in place that is too deep")
        if printed(item) in self.placed:
            raise Wrong("a term is in place twice")
        self.placed.add(printed(item))
        return self.take_head(item)

    def take_head(self, item):
        """Checks that a list is one head over terms as they are read, and returns the names of definitions in it."""
        if len(item[1]) < 2 or item[1][0][0] != "sym":
            raise Wrong("a term without a head or without arguments")
        head, given = item[1][0][1], item[1][1:]
        is_head = head in HEADS or self.judge.names.is_declared(head)
        if not is_head or (head in PAIRED and len(given) != 2) or (head == b"-" and len(given) > 2):
            raise Wrong("a list that is not a term as read")
        return [name for part in given for name in self.take_item(part)]

    def take_definition(self, parts):
        """Checks the form of a definition: one head over terms, whose names are defined before it."""
        body = parts[4]
        if self.steps or body[0] != "list":
            raise Wrong("a definition behind a step, or of a word")
        used = self.take_head(body)
        if any(name not in self.uses for name in used):
            raise Wrong("a name is used before its definition")
        self.uses[parts[1][1]] = used
        self.depths[parts[1][1]] = depth(body)

    def take_step(self, parts):
        """Checks the form of a step: terms as literals, and `:premises` behind `:rule` if there are any.

        Of `la_generic` the arguments come last, a value for each literal; no other rule has any.
        """
        literals = parts[2][1]
        found = {key[1]: value for key, value in zip(parts[3::2], parts[4::2])}
        wanted = [b":rule", *[key for key in (b":premises", b":args") if key in found]]
        if [item[1] for item in parts[3::2]] != wanted:
            raise Wrong("a step with other attributes")
        if (found[b":rule"][1] == b"la_generic") != (b":args" in found):
            raise Wrong("arguments of another rule, or none")
        for item in found[b":args"][1] if b":args" in found else []:
            number_of(item)
        premises = [item[1] for item in found[b":premises"][1]] if b":premises" in found else []
        if b":premises" in found and not premises:
            raise Wrong("an empty list of premises")
        self.named.update(name for item in literals[1:] for name in self.take_item(item))
        self.steps.append((parts[1][1], premises))

    def take(self, command):
        """Checks one command and judges it."""
        verb = command[1][0][1] if command[0] == "list" and command[1] else None
        if verb not in self.counts:
            raise Wrong(f"a command {verb!r}")
        parts = command[1]
        self.counts[verb] += 1
        name = {b"define-fun": b"@p%d", b"assume": b"h%d", b"step": b"t%d"}[verb] % self.counts[verb]
        if len(parts) < 3 or parts[1][1] != name:
            raise Wrong(f"not the name {name!r}")
        try:
            self.judge.take(command)
        except Fault as fault:
            raise Wrong(f"judged {fault.name!r} at {name!r}") from fault
        if verb == b"define-fun":
            self.take_definition(parts)
            defined = self.judge.defined(name)
            if defined in self.defined_terms:
                raise Wrong("a term is defined twice")
            self.defined_terms.add(defined)
        elif verb == b"step":
            self.take_step(parts)
        else:
            self.named.update(self.take_item(parts[2]))
            self.steps.append((name, []))

    def take_all(self, commands):
        """Checks all commands, and that the last one, with the empty clause, needs each of the others."""
        for command in commands:
            self.take(command)
        if not commands or commands[-1][1][0][1] != b"step" or len(commands[-1][1][2][1]) != 1:
            raise Wrong("the last command has not the empty clause")
        needed = {commands[-1][1][1][1]}
        for name, premises in reversed(self.steps):
            if name not in needed:
                raise Wrong(f"step {name!r} is not needed")
            needed.update(premises)
        needed = set(self.named)
        for name in reversed(list(self.uses)):
            if name not in needed:
                raise Wrong(f"definition {name!r} is not needed")
            needed.update(self.uses[name])
            if self.times[name] == 1 and self.depths[name] <= DEEPEST:
                raise Wrong(f"definition {name!r} is used once, and could be in place")
