#!/usr/bin/env python3
"""Checks that each line of crates.txt comes after the lines of the crates that it uses, and that each folder of crates/ has one."""
import os
import re
import sys

TOP = os.path.dirname(os.path.dirname(os.path.dirname(os.path.abspath(__file__))))
OWN, placed, faults = set(os.listdir(os.path.join(TOP, "crates"))), set(), []
for line in open(os.path.join(TOP, "crates.txt"), encoding="utf-8"):
    if words := re.findall(r"\w+", line.partition("#")[0]):
        faults += [f"{words[0]} stands before {used}" for used in words[1:] if used in OWN - placed]
        placed.add(words[0])
faults += [f"{name} is only in one of crates/ and crates.txt" for name in sorted(OWN ^ placed)]
for fault in faults:
    print(fault)
sys.exit(len(faults) > 0)
