#!/usr/bin/env python3
"""Checks single crates of this checkout, over libraries that a gate has built in another clone.

usage: bench/tools/check_crate.py GATE check CRATE [ARGUMENT ..]   (`rattle check`; what passed is kept, in .checked of the checkout)
       bench/tools/check_crate.py GATE source CRATE [ARGUMENT ..]  (the same, where crates below are read as source if not built)
       bench/tools/check_crate.py GATE time CRATE [ARGUMENT ..]    (the same with nothing kept; prints the seconds of each function)
       bench/tools/check_crate.py GATE build CRATE ..              (proves these and all below them that differ, two at a time)
       bench/tools/check_crate.py GATE list CRATE ..               (lists those)

GATE is the top of a clone in which `rt ci` runs or ran. A crate whose files, and those of all crates below it, are the
same there is taken from there. Each other one has to be built first, lowest first: its library comes into out/rlib of
its folder, and what `rattle` wrote into out/check_crate.log. Arguments of a check are those of `rattle check`, as
`--only MODULE`, `--allow-holes`, `--start FUNCTION`, `--test`.

`source` is for work on a crate while those below it are being proved. What these state is trusted, and what of them matches
`--only` is checked, too. It reads them anew each time, which takes a minute or more.

`rt check` and `rt ci` keep apart what they proved, and each proves all crates below first. This proves what differs
alone, so it is for work on a high crate beside a gate. It is no gate: what it proved is proved there once more.

A row of `time` has the seconds of a processor that a function took, and the share of the rows down to it, the longest first. The
first function that uses a part of a library pays for reading what that states.
"""
import hashlib
import os
import re
import subprocess
import sys
import tempfile
from concurrent.futures import FIRST_COMPLETED, ThreadPoolExecutor, wait
from functools import cache

KIT = "/opt/rattle"
TOP = os.path.dirname(os.path.dirname(os.path.dirname(os.path.abspath(__file__))))
LANES = 2


def read_uses(path):
    """Gives for each crate, in order, the crates that it uses, and the libraries of the kit among them."""
    uses = {}
    for line in open(path, encoding="utf-8"):
        name, colon, used = line.partition("#")[0].partition(":")
        if colon:
            uses[name.strip()] = used.split()
    return uses


USES = read_uses(os.path.join(TOP, "crates.txt"))
OWN = set(os.listdir(os.path.join(TOP, "crates")))


@cache
def below(crate):
    """Gives a crate and all of this repository below it."""
    return {crate}.union(*(below(used) for used in USES[crate] if used in OWN))


@cache
def own_key(top, crate):
    key, folder = hashlib.sha256(), os.path.join(top, "crates", crate)
    for part in ("src", "specs", "proofs"):
        for path, folders, names in os.walk(os.path.join(folder, part)):
            folders.sort()
            for name in sorted(names):
                file = os.path.join(path, name)
                key.update(os.path.relpath(file, folder).encode() + b"\0")
                with open(file, "rb") as f:
                    key.update(f.read())
    return key.hexdigest()


def key_of(top, crate):
    return " ".join(f"{one}={own_key(top, one)}" for one in sorted(below(crate)))


def library(top, crate):
    return os.path.join(top, "crates", crate, "out", "rlib", crate + ".rlib")


def key_path(crate):
    return os.path.join(TOP, "crates", crate, "out", "check_crate.key")


@cache
def is_of_gate(gate, crate):
    return os.path.exists(library(gate, crate)) and key_of(TOP, crate) == key_of(gate, crate)


def place_of(gate, crate):
    return library(gate if is_of_gate(gate, crate) else TOP, crate)


def is_built(gate, crate):
    if is_of_gate(gate, crate):
        return True
    try:
        with open(key_path(crate), encoding="utf-8") as f:
            return f.read() == key_of(TOP, crate) and os.path.exists(library(TOP, crate))
    except OSError:
        return False


def words_of(gate, crate):
    """Gives the arguments of `rattle` that are the same for a check and a build."""
    root = "src/main.rt" if os.path.exists(os.path.join(TOP, "crates", crate, "src/main.rt")) else "src/lib.rt"
    words = ["--crate-name", crate, root]
    for name in ["std", *(used for used in USES[crate] if used not in OWN)]:
        words += ["--extern", f"{name}={KIT}/rlibs/{name}.rlib"]
    for name in (used for used in USES[crate] if used in OWN):
        words += ["--extern", f"{name}={place_of(gate, name)}"]
    folders = {os.path.dirname(place_of(gate, name)) for name in below(crate) - {crate}}
    for folder in [f"{KIT}/rlibs", *sorted(folders)]:
        words += ["-L", f"dependency={folder}"]
    return [*words, "--antt-project", f"{KIT}/rattle/logic/antt-project.json", "--logic-built", f"{KIT}/logic_built"]


def words_over_source(gate, crate):
    """Gives these arguments where each crate below that is not built is read as source."""
    lower = [name for name in USES if name in below(crate) - {crate}]
    words = words_of(gate, crate)
    for name in {used for one in lower for used in USES[one]} - OWN - set(USES[crate]):
        words += ["--extern", f"{name}={KIT}/rlibs/{name}.rlib"]
    for name in lower:
        given = f"{name}={place_of(gate, name)}"
        if given in words:
            at = words.index(given)
            del words[at - 1 : at + 1]
        if is_built(gate, name):
            words += ["--extern", given]
        else:
            words += ["--lib", f"{name}:{','.join(['std', *USES[name]])}={TOP}/crates/{name}/src/lib.rt"]
    return words


def build(gate, crate):
    """Proves a crate, and writes its library; says whether it did."""
    folder, place = os.path.join(TOP, "crates", crate), library(TOP, crate)
    os.makedirs(os.path.dirname(place), exist_ok=True)
    subprocess.run(["rm", "-rf", place], check=True)
    more = ["--links", f"{crate}=", "--jobs", "1", "--statements", "-o", place, "--empty-contracts"]
    with open(os.path.join(folder, "out", "check_crate.log"), "w", encoding="utf-8") as log:
        run = subprocess.run(
            [f"{KIT}/bin/rattle", "build", *words_of(gate, crate), *more], cwd=folder, stdout=log, stderr=subprocess.STDOUT
        )
    if run.returncode == 0:
        with open(key_path(crate), "w", encoding="utf-8") as f:
            f.write(key_of(TOP, crate))
    print(f"{crate}: {'proved' if run.returncode == 0 else 'not proved'}", flush=True)
    return run.returncode == 0


def build_all(gate, todo):
    """Builds crates, each after those below it; says whether all were built."""
    proved = {crate for crate in USES if crate not in todo}
    waiting, running = list(todo), {}
    with ThreadPoolExecutor(LANES) as lanes:
        while True:
            ready = [crate for crate in waiting if below(crate) - {crate} <= proved][: LANES - len(running)]
            waiting = [crate for crate in waiting if crate not in ready]
            running |= {lanes.submit(build, gate, crate): crate for crate in ready}
            if not running:
                return proved >= set(todo)
            for done in wait(running, return_when=FIRST_COMPLETED).done:
                crate = running.pop(done)
                if done.result():
                    proved.add(crate)


def ticks_of(pid):
    with open(f"/proc/{pid}/stat", encoding="utf-8") as f:
        rest = f.read().rpartition(")")[2].split()
    return (int(rest[11]) + int(rest[12])) / os.sysconf("SC_CLK_TCK")


def time_functions(words, folder):
    """Checks with nothing kept, and prints what each function took; gives the status of the check."""
    rows, last, said = [], 0.0, ""
    with tempfile.TemporaryDirectory() as kept:
        words = [*words, "--incremental", kept, "--progress", "--jobs", "1"]
        run = subprocess.Popen(words, cwd=folder, stdout=subprocess.PIPE, stderr=subprocess.STDOUT, text=True)
        for said in run.stdout:
            found = re.match(r"checked (\S+), \d+ of \d+", said)
            if found:
                now = ticks_of(run.pid)
                rows.append((now - last, found.group(1)))
                last = now
    total, part = sum(seconds for seconds, _ in rows), 0.0
    for seconds, name in sorted(rows, reverse=True):
        part += seconds
        print(f"{seconds:7.1f} {100 * part / total:5.0f}%  {name}")
    print(f"{total:7.1f} in all; {said.strip()[:60]}")
    return run.wait()


def main():
    if len(sys.argv) < 4 or sys.argv[2] not in ("check", "source", "time", "build", "list"):
        sys.exit(__doc__)
    gate, mode, crates = os.path.abspath(sys.argv[1]), sys.argv[2], sys.argv[3:]
    if mode == "time":
        words = [f"{KIT}/bin/rattle", "check", *words_of(gate, crates[0]), *crates[1:]]
        sys.exit(time_functions(words, os.path.join(TOP, "crates", crates[0])))
    if mode in ("check", "source"):
        crate, folder = crates[0], os.path.join(TOP, "crates", crates[0])
        kept = os.path.join(TOP, ".checked", f"{crate}-{mode}" if mode == "source" else crate)
        os.makedirs(kept, exist_ok=True)
        given = words_over_source(gate, crate) if mode == "source" else words_of(gate, crate)
        words = [f"{KIT}/bin/rattle", "check", *given, "--incremental", kept, *crates[1:]]
        sys.exit(subprocess.run(words, cwd=folder).returncode)
    wanted = set().union(*(below(crate) for crate in crates))
    todo = [crate for crate in USES if crate in wanted and not is_built(gate, crate)]
    if mode == "list":
        print("\n".join(todo))
    elif not build_all(gate, todo):
        sys.exit(1)


if __name__ == "__main__":
    main()
