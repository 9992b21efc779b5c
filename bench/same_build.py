#!/usr/bin/env python3
"""Tells whether two builds of the program have the same bytes.

usage: bench/same_build.py         (builds this checkout without proofs in two folders, and compares the two programs)
       bench/same_build.py A B     (compares two programs: a proved one with that of another machine, say)

The folders are copies of what a build reads, at paths of different lengths. Of each program it prints the sha256 and what its own mark
says. The status is 1 where they differ.
"""
import filecmp
import os
import shutil
import subprocess
import sys
import tempfile

TOP = os.path.dirname(os.path.dirname(os.path.abspath(__file__)))


def build_copy(folder):
    """Copies what a build reads to a new folder, builds there, and gives the program's path."""
    os.makedirs(folder)
    for name in ("build", "crates.txt", "HANDLES"):
        shutil.copy2(os.path.join(TOP, name), folder)
    shutil.copytree(os.path.join(TOP, "crates"), os.path.join(folder, "crates"), ignore=shutil.ignore_patterns("out"))
    program = os.path.join(folder, "program")
    subprocess.run([os.path.join(folder, "build"), program], stdout=subprocess.DEVNULL, check=True)
    return program


def compare(one, other):
    subprocess.run([os.path.join(TOP, "build"), "--which", one, other], check=True)
    is_same = filecmp.cmp(one, other, shallow=False)
    print("the same bytes" if is_same else "other bytes")
    return is_same


def main():
    if len(sys.argv) == 3:
        sys.exit(not compare(*sys.argv[1:]))
    if len(sys.argv) != 1:
        sys.exit(__doc__)
    with tempfile.TemporaryDirectory(prefix="same-build-") as folder:
        programs = [build_copy(os.path.join(folder, name)) for name in ("one", "the/other/one")]
        sys.exit(not compare(*programs))


if __name__ == "__main__":
    main()
