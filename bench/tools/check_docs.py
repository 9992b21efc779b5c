#!/usr/bin/env python3
"""Checks that the documents speak of what is there.

usage: bench/tools/check_docs.py [ROOT]

It reads README.md, NEWS.md, docs/*.md, bench/README.md and examples/README.md, where they are. Of each text in backticks outside
code blocks it takes the names (letters, digits, `_`, `'`, `-`, with `::` and `.` between parts) and looks for each part in the sources
(.rt, .antt, .edit, crates.txt, .py, .sh, .smt2, .alethe) and in the names of files and folders. A line tells of each that is nowhere.
Of each link it checks that the file is there, and that it has the heading. NEWS.md tells of earlier versions, so its names are not looked for.

Then it prints how many words docs/*.md have, and lines README.md. docs/ may have 37,000 words, and it warns above 37,000.
The status is 1 where something is missing or too long, else 0. ROOT is the top of a checkout, this one if left out.
"""
import glob
import os
import re
import sys

ROOT = sys.argv[1] if len(sys.argv) > 1 else os.path.dirname(os.path.dirname(os.path.dirname(os.path.abspath(__file__))))
WARNED, MOST = 37_000, 37_000  # words of docs/
SOURCES = (".rt", ".antt", ".edit", ".py", ".sh", ".smt2", ".alethe", ".c", ".txt", ".certify", ".solve")
PAGES = [p for g in ("README.md", "NEWS.md", "docs/*.md", "bench/README.md", "examples/README.md", "examples/**/README.md") for p in sorted(glob.glob(os.path.join(ROOT, g), recursive=True))]
NAME = re.compile(r"^[A-Za-z_][\w'!-]*(?:(?:::|\.)[A-Za-z_][\w'!-]*)*$")


def anchor(heading):
    text = re.sub(r"\[([^\]]*)\]\([^)]*\)", r"\1", heading.strip().lower())
    text = re.sub(r"[^\w\- ]", "", text)
    return text.replace(" ", "-")


def anchors(path):
    """Gives the anchors of a page's headings; the second of one text ends in -1."""
    found, counts = set(), {}
    with open(path, encoding="utf-8") as f:
        for m in re.finditer(r"^#+ (.*)$", f.read(), re.M):
            name = anchor(m.group(1))
            n = counts.get(name, 0)
            counts[name] = n + 1
            found.add(name if n == 0 else f"{name}-{n}")
    return found


def words_of(path):
    """Gives the number of words of a page, as `wc -w` counts them."""
    with open(path, encoding="utf-8") as f:
        return len(f.read().split())


def is_too_long():
    """Prints the words of docs/ and the lines of README.md; tells whether docs/ has too many."""
    words = sum(map(words_of, glob.glob(os.path.join(ROOT, "docs", "*.md"))))
    readme = os.path.join(ROOT, "README.md")
    lines = sum(1 for _ in open(readme, encoding="utf-8")) if os.path.exists(readme) else 0
    over = MOST if words > MOST else WARNED
    print(f"docs: {words:,} words" + (f", which is over {over:,}" if words > over else "") + f"; README.md: {lines} lines")
    return words > MOST


def main():
    words, paths = set(), set()
    for base, folders, files in os.walk(ROOT):
        folders[:] = [d for d in folders if d not in (".git", "out")]
        for name in folders + files:
            paths.add(name)
            paths.add(os.path.splitext(name)[0])
        for name in files:
            if name.endswith(SOURCES):
                with open(os.path.join(base, name), encoding="utf-8", errors="replace") as f:
                    words.update(re.findall(r"[^\W\d][\w'!?-]*", f.read()))
    words |= {part for w in list(words) for part in w.split("-")}
    missing = 0
    for page in PAGES:
        with open(page, encoding="utf-8") as f:
            lines = f.read().split("\n")
        fenced = False
        for number, line in enumerate(lines, 1):
            if line.startswith("```"):
                fenced = not fenced
                continue
            if fenced or line.startswith("    "):
                continue
            if not page.endswith("NEWS.md"):
                for span in re.findall(r"`([^`]+)`", line):
                    if not NAME.match(span):
                        continue
                    for part in re.split(r"::|\.", span):
                        if part and part not in words and part not in paths and span not in paths:
                            print(f"{os.path.relpath(page, ROOT)}:{number} name {span}: {part} is nowhere")
                            missing += 1
            for target in re.findall(r"\]\(([^)\s]+)\)", line):
                if target.startswith(("http:", "https:", "mailto:")):
                    continue
                file, _, place = target.partition("#")
                path = os.path.normpath(os.path.join(os.path.dirname(page), file)) if file else page
                if not os.path.exists(path):
                    print(f"{os.path.relpath(page, ROOT)}:{number} link {target}: no such file")
                    missing += 1
                elif place and path.endswith(".md"):
                    if place not in anchors(path):
                        print(f"{os.path.relpath(page, ROOT)}:{number} link {target}: no such heading")
                        missing += 1
    print(f"{missing} missing", file=sys.stderr)
    return 1 if is_too_long() or missing else 0


sys.exit(main())
