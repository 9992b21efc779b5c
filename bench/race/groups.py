"""The groups of races: what each is, and the words by which it is asked for."""

from __future__ import annotations

import argparse
import os
import sys
from typing import Callable, NamedTuple


class Group(NamedTuple):
    """What belongs together: its help, its families by name, its options, and what runs it and writes an instance.

    A group without families takes folders in their place. `run` returns what is wrong, as texts.
    """

    about: str
    families: dict | None
    add_options: Callable
    run: Callable
    write: Callable | None = None


def add_most(parser, sizes):
    """Adds the option `--most`, which takes the sizes up to a number."""
    parser.add_argument("--most", type=int, default=sizes[-1], metavar="N", help="the sizes up to N alone")


def picked(words, families, parser):
    """Returns the families of the words: the one of that name, or else those whose names begin so."""
    found = []
    for word in words:
        those = [word] if word in families else [name for name in families if name.startswith(word)]
        if not those:
            parser.error("the families are " + ", ".join(families))
        found += those
    return [name for name in families if name in found] or list(families)


def asked_of(name, group, words):
    """Reads the words behind a group's name."""
    parser = argparse.ArgumentParser(
        prog=f"bench/race.py {name}", description=group.about, formatter_class=argparse.RawDescriptionHelpFormatter
    )
    parser.add_argument("program", nargs="?", metavar="PROGRAM")
    parser.add_argument("others", nargs="*", metavar="FOLDER" if group.families is None else "FAMILY")
    if group.write:
        parser.add_argument("--write", nargs="+", metavar=("NAME", "FILE"), help="write the texts of one instance")
    group.add_options(parser)
    asked = parser.parse_intermixed_args(words)
    is_to_write = group.write is not None and asked.write is not None
    if (asked.program is None) != is_to_write or (is_to_write and len(asked.write) < 2):
        parser.error("it takes a PROGRAM" + (", or --write NAME FILE" if group.write else ""))
    if asked.program is not None:
        asked.program = os.path.abspath(asked.program)
    if group.families is None:
        asked.folders = asked.others
    else:
        asked.families = picked(asked.others, group.families, parser)
    return asked


def named(name, instances):
    """Returns the instance of a name; ends with the names that there are where there is none."""
    if name not in instances:
        sys.exit("the names are " + ", ".join(instances))
    return instances[name]


def status_of(wrong):
    """Prints what is wrong, a line each; returns the status to end with."""
    for line in wrong:
        print(line, file=sys.stderr)
    return 1 if wrong else 0
