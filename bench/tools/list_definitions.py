#!/usr/bin/env python3
"""Prints the index of all definitions: each crate's files of specs/, and in them each definition with its comment.

usage: bench/tools/list_definitions.py [WORD ..]      (with words, only the rows that have one of them)

A row is `CRATE FILE NAME: comment`. Fields of records and cases of definitions are left out: the comment says what they are.
"""
import glob
import os
import re
import sys

TOP = os.path.dirname(os.path.dirname(os.path.dirname(os.path.abspath(__file__))))
WORDS = [w.lower() for w in sys.argv[1:]]
START = re.compile(r"^(?:pub )?(?:abbrev|record|data|def|axiom|postulate)? ?(?:pub )?([^\s:({]+).* : ")


def main():
    for path in sorted(glob.glob(os.path.join(TOP, "crates/*/specs/*.antt"))):
        crate, file = os.path.relpath(path, TOP).split("/")[1], os.path.splitext(os.path.basename(path))[0]
        if file == "Lib":
            continue
        comment = []
        for line in open(path, encoding="utf-8"):
            if line.startswith("-- "):
                comment.append(line[3:].strip())
                continue
            m = re.match(r"^(?:pub (?:abbrev|record|data)|(?:abbrev|record|data) pub) ([^\s:({]+)", line)
            if m and comment:
                row = f"{crate} {file} {m.group(1)}: {' '.join(comment)}"
                if not WORDS or any(w in row.lower() for w in WORDS):
                    print(row)
            comment = []


main()
