#!/usr/bin/env python3
"""Measures the processor time of a gate, by crate and kind of work, since its log has no times.

usage: bench/tools/gate_time.py OUT.tsv         (starts `.ci/run`, and prints the table when that ended, with its status)
       bench/tools/gate_time.py OUT.tsv PID     (beside a gate whose process is PID; it ends with that process)
       bench/tools/gate_time.py --sum OUT.tsv ..  (the table; of several runs, where one was ended and begun again, the most counts)

Twice a second it reads /proc: of each process of the gate whose arguments name a crate it notes the crate, the kind of work and the
processor time. A row of OUT.tsv is a process: crate, kind (`build` a crate's proofs, `build+test` those of its tests, `check` a must-fail
edit, with the crate's own proof before it), seconds, folder. Below the table are two sums, of proofs, and of tests with edits, and the
share that these have. What the program, the tests and the examples take when they run is not in it.
"""
import os
import re
import subprocess
import sys
import time

HZ = os.sysconf("SC_CLK_TCK")
TOP = os.path.dirname(os.path.dirname(os.path.dirname(os.path.abspath(__file__))))


def stats():
    """Gives of each process its parent, its ticks, and when it began."""
    found = {}
    for pid in filter(str.isdigit, os.listdir("/proc")):
        try:
            with open(f"/proc/{pid}/stat") as f:
                text = f.read()
        except OSError:
            continue
        rest = text[text.rindex(")") + 2 :].split()
        found[int(pid)] = (int(rest[1]), int(rest[11]) + int(rest[12]), int(rest[19]))
    return found


def is_below(pid, root, found):
    while pid > 1 and pid in found:
        if pid == root:
            return True
        pid = found[pid][0]
    return False


def sample(root, rows):
    found = stats()
    for pid, (_, ticks, began) in found.items():
        if (pid, began) in rows:
            rows[pid, began][2] = ticks / HZ
        elif is_below(pid, root, found):
            try:
                with open(f"/proc/{pid}/cmdline", "rb") as f:
                    command = f.read().replace(b"\0", b" ").decode(errors="replace")
                folder = os.readlink(f"/proc/{pid}/cwd")
            except OSError:
                continue
            m = re.search(r"--crate-name (\S+)", command)
            if m:
                verb = next((w for w in command.split() if w in ("build", "check")), "?")
                rows[pid, began] = [m.group(1), verb + ("+test" if " --test" in command else ""), ticks / HZ, folder]
    return root in found


def write(path, rows):
    with open(path + ".new", "w", encoding="utf-8") as f:
        for key in sorted(rows, key=lambda k: k[1]):
            crate, kind, seconds, folder = rows[key]
            f.write(f"{crate}\t{kind}\t{seconds:.2f}\t{folder}\n")
    os.replace(path + ".new", path)


KINDS = ["build", "build+test", "check"]


def sums_of(path):
    """Gives for each crate the seconds by kind of work."""
    sums = {}
    for line in open(path, encoding="utf-8"):
        crate, kind, seconds = line.split("\t")[:3]
        if kind == "check" and not os.path.isdir(os.path.join(TOP, "crates", crate, "must-fail")):
            kind = "build"  # a program is checked once, and then built twice
        row = sums.setdefault(crate, dict.fromkeys(KINDS, 0.0))
        row[kind if kind in KINDS else "check"] += float(seconds)
    return sums


def print_sums(paths):
    sums = {}
    for path in paths:
        for crate, row in sums_of(path).items():
            kept = sums.setdefault(crate, dict.fromkeys(KINDS, 0.0))
            for k in KINDS:
                kept[k] = max(kept[k], row[k])
    print("| crate | proofs | tests | edits | sum |\n|---|---:|---:|---:|---:|")
    total = dict.fromkeys(KINDS, 0.0)
    for crate, row in sorted(sums.items()):
        print(f"| `{crate}` | " + " | ".join(f"{row[k]:.0f}" for k in KINDS) + f" | {sum(row.values()):.0f} |")
        for k in KINDS:
            total[k] += row[k]
    minutes = {k: total[k] / 60 for k in KINDS}
    whole = sum(minutes.values())
    print("| sum, in minutes | " + " | ".join(f"{minutes[k]:.0f}" for k in KINDS) + f" | {whole:.0f} |")
    others = minutes["build+test"] + minutes["check"]
    share = 100 * others / whole if whole else 0
    print(f"\nproofs {minutes['build']:.1f} minutes, tests and edits {others:.1f}: {share:.1f} % of {whole:.1f}")


def measure(path, pid, is_over):
    """Writes the rows of a gate until its process ended."""
    rows, written = {}, 0.0
    while not is_over() and sample(pid, rows):
        if time.time() - written > 10:
            write(path, rows)
            written = time.time()
        time.sleep(0.5)
    write(path, rows)


def main():
    words = sys.argv[1:]
    if words[:1] == ["--sum"] and len(words) > 1:
        return print_sums(words[1:])
    if len(words) == 2 and words[1].isdigit():
        return measure(words[0], int(words[1]), lambda: False)
    if len(words) != 1 or words[0].startswith("-"):
        sys.exit(__doc__)
    gate = subprocess.Popen(["bash", os.path.join(TOP, ".ci/run")])
    measure(words[0], gate.pid, lambda: gate.poll() is not None)
    print_sums(words)
    return gate.wait()


sys.exit(main())
