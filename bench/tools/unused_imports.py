#!/usr/bin/env python3
"""Finds names in the import lists of .rt and .antt files that no other line of the file uses.

usage: bench/tools/unused_imports.py [--fix] [FOLDER ..]        (the folder is crates of this checkout if none is given)

`rt tidy` drops such names of .antt files alone. A row is `PATH:LINE NAME`. With --fix the names are dropped. An operator is used where
its parts are; a trait is always used, since its methods need it. Files `Lib.antt` and `pub use` lines hand names on and are not looked at.
The status is 1 where a name is unused, else 0.
"""
import glob
import os
import re
import sys

CRATES = os.path.relpath(os.path.join(os.path.dirname(os.path.dirname(os.path.dirname(os.path.abspath(__file__)))), "crates"))
LIST = re.compile(r"^[ \t]*(?:ghost )?use [^;\n]*?\{([^{}]*)\}(?: as \w+)?;?[ \t]*$", re.M)
ALIAS = re.compile(r"^[ \t]*(?:ghost )?use [^;{}\n]*?\w+ as (\w+);?[ \t]*$", re.M)
SINGLE = re.compile(r"^[ \t]*use [\w:]*?::(\w+);[ \t]*$", re.M)
COMMENT = re.compile(r"^[ \t]*(?://|-- ).*$", re.M)
TRAIT = re.compile(r"^\s*(?:pub(?:\(crate\))? )?trait (\w+)", re.M)


def read(path):
    with open(path, encoding="utf-8") as f:
        return f.read()


def traits():
    """Gives the names of traits, which may be imported for their methods alone."""
    found = {"Model", "Write", "Read", "Hash", "Hasher"}
    for path in glob.glob(os.path.join(CRATES, "*/src/**/*.rt"), recursive=True):
        found.update(TRAIT.findall(read(path)))
    return found


def is_used(name, text, is_code):
    if name == "◌>>=◌" and "←" in text:
        return True  # what a `do` block stands for
    if "◌" in name:
        return all(part in text for part in name.split("◌") if part)
    around = r"\w" if is_code else r"\w'?!₀-₉-"
    return re.search(rf"(?<![{around}]){re.escape(name)}(?![{around}])", text) is not None


def unused_in(path, text, known):
    """Gives each import line with its names and those of them that are unused."""
    is_code = path.endswith(".rt")
    rest = COMMENT.sub("", text)
    for pattern in (LIST, ALIAS, SINGLE):
        rest = pattern.sub("", rest)
    for m in list(LIST.finditer(text)) + list(ALIAS.finditer(text)) + (list(SINGLE.finditer(text)) if is_code else []):
        names = [n.strip() for n in m.group(1).split(",") if n.strip()]
        drop = []
        for n in names:
            name = n.split(" as ")[-1].strip()
            if not name.startswith("self") and name not in known and not is_used(name, rest, is_code):
                drop.append(n)
        if drop:
            yield m, names, drop


def main():
    fix = "--fix" in sys.argv
    folders = [a for a in sys.argv[1:] if not a.startswith("--")] or [CRATES]
    known, count = traits(), 0
    paths = sorted(p for folder in folders for end in ("rt", "antt") for p in glob.glob(f"{folder}/**/*.{end}", recursive=True))
    for path in paths:
        if "/out/" in path or os.path.basename(path) == "Lib.antt":
            continue
        text = new = read(path)
        for m, names, drop in unused_in(path, text, known):
            count += len(drop)
            for name in drop:
                print(f"{path}:{text.count(chr(10), 0, m.start()) + 1} {name}")
            line, keep = m.group(0), [n for n in names if n not in drop]
            if keep:
                new = new.replace(line, line.replace("{" + m.group(1) + "}", "{" + ", ".join(keep) + "}"), 1)
            else:
                new = new.replace(line + "\n", "", 1)
        if fix and new != text:
            with open(path, "w", encoding="utf-8") as f:
                f.write(new)
    print(f"{count} unused imports", file=sys.stderr)
    return 1 if count else 0


sys.exit(main())
