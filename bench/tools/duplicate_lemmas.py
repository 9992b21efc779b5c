#!/usr/bin/env python3
"""Lists the statements that are proved in two or more places.

usage: bench/tools/duplicate_lemmas.py [--json] [ROOT]     (ROOT: the top of a checkout; this one if left out)

Reads each `crates/*/proofs/**/*.antt` below ROOT, but for what lies in an `out` folder. A declaration `name : statement`
counts where it stands at the top of a file or of a `module` or `mutual` block in it; what a `where` or a `let` inside of a
proof declares does not, and neither do records, abbreviations, and functions whose value is a type or a plain value
(a number, a list, a tree ..) and no proof.

Two statements are one when they are the same up to
- names of bound variables, and whether a variable is given in braces or not,
- spacing, needless parentheses, and how binders are grouped: `(a b : T)` is `(a : T) (b : T)`,
- the parameters of the modules around it, which count as its first premises; those that neither it nor its proof uses are left out,
- names that an import gives (`Reserved as word_kind`) and names of the modules of std. A name from some `specs/` counts with
  its module, since two crates may mean different things by one word.
The order of premises counts. A word that a proof file defines counts by its own text.

Prints each such statement with its places, then the number of statements and of proofs too many. Exits 1 if there are any.
"""
import json
import os
import re
import sys

KEYWORDS = {"use", "pub", "mod", "module", "mutual", "unfolding", "record", "data", "abbrev", "where", "infix", "infixl", "infixr", "open", "syntax"}
LEVELS = {
    "=": (1, "n"), "→": (5, "r"), "↔": (6, "n"), "×": (10, "r"), "⊎": (9, "r"), "⨾": (15, "l"), ">>=": (20, "l"), "$": (3, "r"),
    "≡": (50, "n"), "≢": (50, "n"), "≤": (50, "n"), "<": (50, "n"), "∙": (30, "r"),
    "||": (53, "r"), "&&": (54, "r"), "∷": (60, "r"), "++": (60, "r"), "+": (65, "l"), "-": (65, "l"), "*": (70, "l"), "^": (80, "r"),
}
PLAIN = {"ℕ", "Bool", "List", "Option", "Type", "Result", "String", "Nat", "ℤ"}
TOKEN = re.compile(r"\s+|--[^\n]*|\"[^\"\n]*\"|[(){},;]|λ|[^\s(){},;.λ]+|\.(?=[^\s.(){},;])[^\s(){},;.]+|\.")


def tokens_of(text):
    """Tokens; a field `.name` right behind a name or a bracket is one token."""
    found, before_space = [], True
    for match in TOKEN.finditer(text):
        token = match.group(0)
        if token[0].isspace() or token.startswith("--"):
            before_space = True
            continue
        if token.startswith(".") and len(token) > 1 and before_space:
            found.append(".")
            found.append(token[1:])
        else:
            found.append(token)
        before_space = False
    return found


class Unreadable(Exception):
    pass


class Reader:
    """Reads an expression: names ("n", x), applications, operators, binders."""

    def __init__(self, tokens):
        self.tokens, self.at = tokens, 0

    def peek(self, ahead=0):
        place = self.at + ahead
        return self.tokens[place] if place < len(self.tokens) else None

    def take(self, wanted=None):
        token = self.peek()
        if token is None or (wanted is not None and token != wanted):
            raise Unreadable(f"{wanted} and not {token}")
        self.at += 1
        return token

    def group_ahead(self):
        """Whether a group `(a b : T)` or `{a : T}` stands here."""
        if self.peek() not in ("(", "{"):
            return False
        ahead = 1
        while self.peek(ahead) is not None and self.peek(ahead) not in ("(", ")", "{", "}", ",", ":", "λ", "."):
            ahead += 1
        return ahead > 1 and self.peek(ahead) == ":"

    def group(self):
        closing = ")" if self.take() == "(" else "}"
        names = []
        while self.peek() != ":":
            names.append(self.take())
        self.take(":")
        kind = self.expression(0)
        self.take(closing)
        return [(name, kind) for name in names]

    def expression(self, level):
        if self.peek() == "λ":
            return self.function()
        if self.group_ahead():
            groups = []
            while self.group_ahead():
                groups += self.group()
            operator = self.take()
            if operator not in ("→", "×"):
                raise Unreadable(operator)
            body = self.expression(LEVELS[operator][0])
            for name, kind in reversed(groups):
                body = ("bind", operator, name, kind, body)
            left = body
        else:
            left = self.application()
        while True:
            operator = self.peek()
            if operator is None or not is_operator(operator):
                return left
            own, side = LEVELS.get(operator, (55, "l"))
            if own < level:
                return left
            self.take()
            right = self.expression(own if side == "r" else own + 1)
            left = ("bind", operator, "_", left, right) if operator in ("→", "×") else ("op", operator, left, right)

    def function(self):
        self.take("λ")
        names = []
        while self.peek() != ".":
            if self.group_ahead():
                names += [name for name, _ in self.group()]
            else:
                names.append(self.take())
        self.take(".")
        body = self.expression(0)
        for name in reversed(names):
            body = ("λ", name, body)
        return body

    def application(self):
        parts = []
        while True:
            token = self.peek()
            if token is None or token in (")", "}", ",", ".", ";", ":") or is_operator(token):
                break
            if token == "λ":
                parts.append(self.function())
                break
            parts.append(self.atom())
        if not parts:
            raise Unreadable(str(self.peek()))
        return parts[0] if len(parts) == 1 else ("apply", tuple(parts))

    def atom(self):
        token = self.take()
        if token == "(":
            parts = [self.expression(0)]
            if self.peek() == ":":
                self.take()
                self.expression(0)
            while self.peek() == ",":
                self.take()
                parts.append(self.expression(0))
            self.take(")")
            value = parts[0] if len(parts) == 1 else ("pair", tuple(parts))
        elif token == "{":
            parts = []
            while self.peek() != "}":
                parts.append(self.expression(0))
                if self.peek() == ";":
                    self.take()
            self.take("}")
            value = parts[0] if len(parts) == 1 else ("pair", tuple(parts))
        else:
            value = ("n", token)
        while self.peek() is not None and self.peek().startswith(".") and len(self.peek()) > 1:
            value = ("field", self.take()[1:], value)
        return value


def is_operator(token):
    return token in LEVELS or (not re.search(r"\w", token) and not token.startswith(".") and token not in ("(", ")", "{", "}", ",", ".", ";", ":", "λ", "_", "?", "⊤", "⊥", "[]", "∅", "ε"))


def is_free(name, tree):
    if name == "_":
        return False
    kind = tree[0]
    if kind == "n":
        return tree[1] == name
    if kind == "bind":
        return is_free(name, tree[3]) or (tree[2] != name and is_free(name, tree[4]))
    if kind == "λ":
        return tree[1] != name and is_free(name, tree[2])
    return any(is_free(name, part) for part in parts_of(tree))


def parts_of(tree):
    kind = tree[0]
    if kind in ("apply", "pair"):
        return tree[1]
    if kind == "op":
        return tree[2:]
    if kind == "field":
        return (tree[2],)
    return ()


def text_of(tree, bound, names):
    """The statement's text in which each bound variable is a number and each name its meaning."""
    kind = tree[0]
    if kind == "n":
        return bound.get(tree[1]) or names(tree[1])
    if kind == "bind":
        _, operator, name, of, body = tree
        of_text = text_of(of, bound, names)
        if not is_free(name, body):
            return f"({of_text} {operator} {text_of(body, bound, names)})"
        inner = dict(bound)
        inner[name] = f"#{len(bound)}" if name not in bound else f"#{len(bound)}'{bound[name]}"
        return f"([{inner[name]} : {of_text}] {operator} {text_of(body, inner, names)})"
    if kind == "λ":
        inner = dict(bound)
        inner[tree[1]] = f"#{len(bound)}"
        return f"(λ {inner[tree[1]] if is_free(tree[1], tree[2]) else '_'}. {text_of(tree[2], inner, names)})"
    if kind == "apply":
        return "(" + " ".join(text_of(part, bound, names) for part in tree[1]) + ")"
    if kind == "pair":
        return "(" + ", ".join(text_of(part, bound, names) for part in tree[1]) + ")"
    if kind == "op":
        return f"({text_of(tree[2], bound, names)} {tree[1]} {text_of(tree[3], bound, names)})"
    owner = tree[2]
    if owner[0] == "n" and owner[1] not in bound:
        return names(owner[1] + "." + tree[1])
    return f"{text_of(owner, bound, names)}.{tree[1]}"


def result_of(tree):
    while tree[0] == "bind" and tree[1] == "→":
        tree = tree[4]
    if tree[0] == "apply":
        tree = tree[1][0]
    return tree


USE = re.compile(r"^(?:pub )?use ([\w.«»]+?)(?:\.\{(.*)\})?(?: as (\w+))?\s*$")


def imports_of(lines):
    """What each imported name stands for."""
    found = {}
    for line in lines:
        match = USE.match(line)
        if not match:
            continue
        path, inner, alias = match.groups()
        if inner is None:
            found[alias or path.split(".")[-1]] = path
            continue
        if alias:
            found[alias] = path
        for item in inner.split(","):
            item = item.strip()
            if not item:
                continue
            name, _, other = item.partition(" as ")
            # std counts by the name alone, what is of this repository with its module
            whole = name if path.startswith("Rattle.std") else f"{path}.{name}"
            found[(other or name).strip()] = whole
    return found


HEAD = re.compile(r"^(?:pub )?([^\s(){}:,;.]+) : (.*)$", re.S)


def declarations_of(path):
    """(name, line, parameters, statement) of each declaration, and the texts of what the file defines."""
    lines = open(path, encoding="utf-8").read().split("\n")
    imports = imports_of(lines)
    found, defined, said = [], {}, {}
    blocks = [(0, [])]  # indent of the declarations in it, and its parameters
    opening = None
    number = 0
    while number < len(lines):
        line = lines[number]
        stripped = line.strip()
        if not stripped or stripped.startswith("--"):
            number += 1
            continue
        indent = len(line) - len(line.lstrip())
        if opening is not None:
            own, parameters = opening
            opening = None
            if indent > own:
                blocks.append((indent, parameters))
        while len(blocks) > 1 and indent < blocks[-1][0]:
            blocks.pop()
        if indent != blocks[-1][0]:
            number += 1
            continue
        last = number + 1
        while last < len(lines) and (not lines[last].strip() or len(lines[last]) - len(lines[last].lstrip()) > indent):
            last += 1
        words = stripped.split()
        if stripped.startswith(("module ", "pub module ")) or words[-1] == "mutual":
            parameters = []
            if words[-1] != "mutual":
                head = stripped
                while not re.search(r"\bwhere\s*$", head) and number + 1 < len(lines):
                    number += 1
                    head += " " + lines[number].strip()
                reader = Reader(tokens_of(re.sub(r"^(pub )?module \S+|where\s*$", "", head)))
                try:
                    while reader.group_ahead():
                        parameters += reader.group()
                except Unreadable:
                    pass
            opening = (indent, blocks[-1][1] + parameters)
            number += 1
            continue
        whole = "\n".join(lines[number:last])
        if words[0] == "use" or words[:2] == ["pub", "use"] or words[0] in ("unfolding", "mod", "#"):
            number = last if words[0] != "unfolding" else number + 1
            continue
        if any(word in ("record", "data", "abbrev") for word in words[:2]):
            name = [word for word in words if word not in ("pub", "record", "data", "abbrev", "mutual")][0]
            equations = last
            while equations < len(lines) and lines[equations].strip().startswith(name + " ") and len(lines[equations]) - len(lines[equations].lstrip()) == indent:
                equations += 1
            defined[name] = "\n".join(lines[number:equations])
            number = equations
            continue
        match = HEAD.match(whole.strip())
        if match and match.group(1) not in KEYWORDS:
            found.append((match.group(1), number + 1, blocks[-1][1], match.group(2)))
        if found:
            said.setdefault(found[-1][0], set()).update(tokens_of(whole))
        number = last
    used = mentions_of(said, {name for _, _, parameters, _ in found for name, _ in parameters})
    kept = []
    for name, line, parameters, statement in found:
        wanted = used[name]
        for other, kind in reversed(parameters):
            if other in wanted:
                wanted = wanted | {token for token in names_in(kind)}
        kept.append((name, line, [each for each in parameters if each[0] in wanted], statement))
    return kept, defined, imports


def mentions_of(said, parameters):
    """The parameters that each declaration mentions, itself or by the others that it cites."""
    firsts = {name: {token.split(".")[0] for token in tokens} for name, tokens in said.items()}
    used = {name: tokens & parameters for name, tokens in firsts.items()}
    grows = True
    while grows:
        grows = False
        for name, tokens in firsts.items():
            more = used[name].union(*(used[other] for other in tokens & used.keys()))
            if more != used[name]:
                used[name], grows = more, True
    return used


def names_in(tree):
    if tree[0] == "n":
        return {tree[1]}
    if tree[0] == "bind":
        return names_in(tree[3]) | names_in(tree[4])
    if tree[0] == "λ":
        return names_in(tree[2])
    return set().union(*(names_in(part) for part in parts_of(tree)))


def statement_of(statement, parameters, imports, defined, modules):
    """The normal form of a statement, or nothing where it is no statement."""
    reader = Reader(tokens_of(statement))
    tree = reader.expression(0)
    if reader.peek() is not None:
        raise Unreadable(reader.peek())
    for name, kind in reversed(parameters):
        tree = ("bind", "→", name, kind, tree)
    head = result_of(tree)
    if head[0] == "n" and head[1] in PLAIN:
        return None

    def meaning(name):
        first, dot, rest = name.partition(".")
        if first in defined:
            return own_text(first, defined, imports) + dot + rest
        whole = imports.get(first, first)
        module, _, last = whole.rpartition(".")
        if last in modules.get(module, ({}, {}))[0]:
            whole = own_text(last, *modules[module])
        return whole + dot + rest

    return text_of(tree, {}, meaning)


def own_text(name, defined, imports):
    text = defined[name]
    return name + "⟨" + " ".join(imports.get(token, token) for token in tokens_of(text) if token not in ("pub", "abbrev")) + "⟩"


def main():
    words = [word for word in sys.argv[1:] if not word.startswith("--")]
    root = words[0] if words else os.path.dirname(os.path.dirname(os.path.dirname(os.path.abspath(__file__))))
    if not os.path.isdir(os.path.join(root, "crates")):
        root = "."
    places, unread, count, read, modules = {}, [], 0, [], {}
    for folder, inner, files in os.walk(os.path.join(root, "crates")):
        inner[:] = sorted(name for name in inner if name != "out")
        if "/proofs" not in folder:
            continue
        for file in sorted(files):
            if not file.endswith(".antt") or file == "Lib.antt":
                continue
            path = os.path.join(folder, file)
            found, defined, imports = declarations_of(path)
            read.append((path, found, defined, imports))
            module = os.path.relpath(path, os.path.join(root, "crates"))[: -len(".antt")].replace(os.sep, ".")
            modules["Rattle." + module] = (defined, imports)
    for path, found, defined, imports in read:
        for name, line, parameters, statement in found:
            try:
                normal = statement_of(statement, parameters, imports, defined, modules)
            except Unreadable as stop:
                unread.append((path, line, name, str(stop)))
                continue
            if normal is not None:
                count += 1
                places.setdefault(normal, []).append((os.path.relpath(path, root), line, name, " ".join(statement.split())))
    twice = sorted((each for each in places.values() if len(each) > 1), key=lambda each: (-len(each), each))
    if "--json" in sys.argv:
        print(json.dumps(twice, ensure_ascii=False, indent=1))
    else:
        for each in twice:
            print(f"{len(each)} times: {each[0][3]}")
            for path, line, name, _ in each:
                print(f"    {path}:{line} {name}")
    for path, line, name, stop in unread:
        print(f"not read: {path}:{line} {name} ({stop})", file=sys.stderr)
    more = sum(len(each) - 1 for each in twice)
    print(f"{count} statements read, {len(twice)} stand more than once, {more} proofs too many", file=sys.stderr)
    return 1 if twice else 0


sys.exit(main())
