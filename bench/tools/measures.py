#!/usr/bin/env python3
"""Prints measures of the repository, crate by crate and as a whole.

usage: bench/tools/measures.py [ROOT]        (ROOT: the top of a checkout; this one if left out)

Per crate: lines of code, of tests, of definitions and of proofs; functions without tests, the median, the 90th and the longest
body in lines; clause lines (from `requires`, `ensures`, `ghost` and closing braces of code files, without tests), how many of them
have over 120 characters; definitions with more than six parameters; must-fail edits; test functions. Then the sums, and of the whole: lines of specs/ over 120 characters, names of definitions (abbrev, record, data) that
stand in more than one crate and in more than three, names of Rust types (struct, enum, type) in more than one crate, and the words
of README.md and of each page of docs/.
A clause line is one that begins with `requires` or `ensures`, or goes on with one that did.
"""
import glob
import os
import re
import sys

ROOT = sys.argv[1] if len(sys.argv) > 1 else os.path.dirname(os.path.dirname(os.path.dirname(os.path.abspath(__file__))))
FN = re.compile(r"^\s*(?:pub(?:\([a-z]+\))? )?(?:const )?(?:unsafe )?fn (\w+)")
CLAUSE = re.compile(r"^\s*(?:requires|ensures)\b")
NAMED = re.compile(r"^(?:pub )?(?:abbrev|record|data) (?:pub )?([^\s:({]+)")
IN_BLOCK = re.compile(r"^  (?:pub )?([^\s:({]+) .*: ")
TYPE = re.compile(r"^\s*(?:pub(?:\([a-z]+\))? )?(?:struct|enum|union|type) (\w+)")
DEFINED = re.compile(r"^(?:abbrev |record |data |axiom )?(?:pub )?(?:abbrev |record |data )?(?:pub )?(\w[\w'-]*)\s*(\(.*?\))?\s*:")


def lines_of(path):
    with open(path, encoding="utf-8") as f:
        return f.read().split("\n")


def is_test(path):
    name = os.path.basename(path)
    return name.endswith(("tests.rt", "_rows.rt")) or "test_support" in name


def bodies(lines):
    """Gives the length in lines of each function's body."""
    found, n = [], 0
    while n < len(lines):
        m = FN.match(lines[n])
        if not m:
            n += 1
            continue
        indent = len(lines[n]) - len(lines[n].lstrip())
        start = n
        # the body begins at the line that is, or ends in, an opening brace of the function
        while n < len(lines) and not (lines[n].rstrip() == " " * indent + "{" or (lines[n].rstrip().endswith("{") and not CLAUSE.match(lines[n]))):
            if lines[n].rstrip().endswith(";") and not CLAUSE.match(lines[n]):
                break
            n += 1
        if n >= len(lines) or lines[n].rstrip().endswith(";"):
            n = max(n, start) + 1
            continue
        begin = n + 1
        while n < len(lines) and lines[n] != " " * indent + "}":
            n += 1
        found.append(n - begin)
        n += 1
    return found


def clauses(lines):
    """Gives the clause lines: those that begin with `requires` or `ensures`, and those that go on with one."""
    found, depth = [], 0
    for line in lines:
        if depth > 0 or CLAUSE.match(line):
            found.append(line)
            depth += line.count("{") - line.count("}")
            depth = max(depth, 0)
    return found


def groups_of(text):
    """Gives the parts in round brackets at the start of a text, and what comes after them."""
    groups = []
    while text.startswith(" ("):
        depth, at = 0, 1
        while at < len(text):
            depth += (text[at] == "(") - (text[at] == ")")
            at += 1
            if depth == 0:
                break
        groups.append(text[2 : at - 1])
        text = text[at:]
    return groups, text


def parameters(lines):
    """Gives name and number of parameters of each definition, by its type."""
    found = []
    for line in lines:
        m = re.match(r"^(?:pub )?(?:abbrev|record|data|def) (?:pub )?(\S+)(.*)$", line)
        if not m:
            continue
        groups, rest = groups_of(m.group(2))
        if not rest.startswith(" :"):
            continue
        count = sum(len(g.split(" :")[0].split()) for g in groups)
        depth = 0
        for c in rest:
            depth += (c in "({") - (c in ")}")
            count += c == "→" and depth == 0
        found.append((m.group(1), count))
    return found


def definitions_in(lines):
    """Gives the names of definitions. Those that use each other are indented, below a line that names them `mutual`."""
    is_block = False
    for line in lines:
        m = NAMED.match(line)
        if m or re.match(r"\S", line):
            is_block = m is not None and m.group(1) == "mutual"
        if m and not is_block:
            yield m.group(1)
        m = IN_BLOCK.match(line) if is_block else None
        if m and m.group(1) != "--":
            yield m.group(1)


def types_in(lines):
    """Gives the names of Rust types."""
    for line in lines:
        m = TYPE.match(line)
        if m:
            yield m.group(1)


def crates_by_name(names_in, *ending):
    """Gives for each name that stands in files of crates with an ending the crates that it stands in."""
    found = {}
    for path in glob.glob(os.path.join(ROOT, "crates", "*", *ending), recursive=True):
        crate = os.path.relpath(path, os.path.join(ROOT, "crates")).split(os.sep)[0]
        for name in names_in(lines_of(path)):
            found.setdefault(name, set()).add(crate)
    return found


def tell_names():
    """Prints how many names of definitions and of types stand in several crates, and which definitions in more than three."""
    specs = glob.glob(os.path.join(ROOT, "crates", "*", "specs", "**", "*.antt"), recursive=True)
    print(f"lines of specs/ over 120 characters: {sum(len(line) > 120 for path in specs for line in lines_of(path))}")
    definitions, types = crates_by_name(definitions_in, "specs", "**", "*.antt"), crates_by_name(types_in, "src", "**", "*.rt")
    counts = [sum(len(crates) > most for crates in definitions.values()) for most in (1, 3)]
    print(f"names of definitions: {len(definitions)}, in more than one crate {counts[0]}, in more than three {counts[1]}")
    for name in sorted(name for name, crates in definitions.items() if len(crates) > 3):
        print(f"in more than three crates: {name}: {' '.join(sorted(definitions[name]))}")
    shared = sum(len(crates) > 1 for crates in types.values())
    print(f"names of types: {len(types)}, in more than one crate {shared}")


def tell_words():
    """Prints the words of README.md and of each page of docs/, as `wc -w` counts them, and the sum of docs/."""
    total = 0
    for path in [os.path.join(ROOT, "README.md"), *sorted(glob.glob(os.path.join(ROOT, "docs", "*.md")))]:
        if os.path.exists(path):
            with open(path, encoding="utf-8") as f:
                words = len(f.read().split())
            total += words if os.path.basename(os.path.dirname(path)) == "docs" else 0
            print(f"words: {words:6,} {os.path.relpath(path, ROOT)}")
    print(f"words: {total:6,} docs/ in all")


def main():
    total = dict.fromkeys(["code", "tests", "specs", "proofs", "fns", "clauses", "long", "wide", "edits", "testfns"], 0)
    every, wide = [], []
    print(f"{'crate':16} {'code':>6} {'tests':>6} {'specs':>6} {'proofs':>6} {'fns':>5} {'med':>4} {'90th':>5} {'max':>4} {'clauses':>7} {'>120':>5} {'%':>4} {'wide':>4} {'edits':>5} {'tests':>5}")
    for folder in sorted(glob.glob(os.path.join(ROOT, "crates", "*"))):
        name = os.path.basename(folder)
        code = [p for p in glob.glob(os.path.join(folder, "src", "**", "*.rt"), recursive=True)]
        own = [lines_of(p) for p in code if not is_test(p)]
        tests = [lines_of(p) for p in code if is_test(p)]
        specs = [lines_of(p) for p in glob.glob(os.path.join(folder, "specs", "**", "*.antt"), recursive=True)]
        proofs = [lines_of(p) for p in glob.glob(os.path.join(folder, "proofs", "**", "*.antt"), recursive=True)]
        lengths = sorted(n for ls in own for n in bodies(ls))
        cl = [line for ls in own for line in clauses(ls)]
        long = [line for line in cl if len(line) > 120]
        params = [(name, d, n) for ls in specs for d, n in parameters(ls) if n > 6]
        wide += params
        edits = len(glob.glob(os.path.join(folder, "must-fail", "*.edit")))
        testfns = sum(1 for ls in own + tests for line in ls if line.strip() == "#[test]")
        row = dict(code=sum(map(len, own)), tests=sum(map(len, tests)), specs=sum(map(len, specs)), proofs=sum(map(len, proofs)), fns=len(lengths), clauses=len(cl), long=len(long), wide=len(params), edits=edits, testfns=testfns)
        every += lengths
        for key, value in row.items():
            total[key] += value
        at = lambda share: lengths[min(len(lengths) - 1, int(len(lengths) * share))] if lengths else 0
        print(f"{name:16} {row['code']:6} {row['tests']:6} {row['specs']:6} {row['proofs']:6} {row['fns']:5} {at(0.5):4} {at(0.9):5} {max(lengths, default=0):4} {row['clauses']:7} {row['long']:5} {100 * row['long'] // max(1, row['clauses']):4} {row['wide']:4} {edits:5} {testfns:5}")
    every.sort()
    t = total
    print(f"{'sum':16} {t['code']:6} {t['tests']:6} {t['specs']:6} {t['proofs']:6} {t['fns']:5} {every[len(every) // 2]:4} {every[int(len(every) * 0.9)]:5} {every[-1]:4} {t['clauses']:7} {t['long']:5} {100 * t['long'] / t['clauses']:4.1f} {t['wide']:4} {t['edits']:5} {t['testfns']:5}")
    for crate, name, n in sorted(wide, key=lambda w: -w[2]):
        print(f"more than six parameters: {crate} {name} {n}")
    tell_names()
    tell_words()


main()
