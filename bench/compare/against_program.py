"""Compares `smt_cli` with the independent reading, on texts that are made by chance.

`bench/compare.py definitions` compares the same modules with the definitions. Each kind of run gets an even share of the
seconds, 60 if none are given. A round of a kind is seeded by --seed, 1 if none is given, by the kind and by the number
of the round, so the same words make the same texts, and more seconds make more of them. Where proofs are changed, the
texts depend on what `certify` printed, too.

solve well-formed      scripts, of which output and status are foretold
solve ill-formed       scripts with about a third of the commands ill-formed
solve damaged          texts of scripts, changed at some places
certify                the answers are foretold; models and proofs are judged, and so is the form of their text: a model
                       gives each symbol a table of its sorts, and the assertions are true in it
check certified        proofs that `certify` printed, which have to be valid, alone and after the answer
check changed          such proofs, changed in their parts or in their bytes
check invented         proofs of steps by all rules, mostly right, over terms of all sorts, with definitions, `:named`
                       and odd texts; and single steps, right or near to it
check forms            forms of a small proof, with odd names, attributes, definitions and ends
functions              scripts over two declared sorts and functions, by `certify`, with `check` of one proof of each;
                       some are solved, too, and compared with the answers of z3 and cvc5 where they are on the path
few conflicts          such scripts under a small limit on conflicts, where checks may be answered `unknown`
numbers                scripts over linear real arithmetic, Bool, declared sorts and functions over these, by `certify`,
                       half of them with a small limit on conflicts; each proof is given back to `check`,
                       some scripts are solved, too, and put to z3 and cvc5
mixed                  the same of scripts in which functions take and give numbers; some are damaged, and some proofs
                       are changed, too
levels                 scripts with `push`, `pop`, `reset-assertions` and `reset`, by `certify`, each proof given back to
                       `check`; each check is also asked alone, as a script of its own, and has to have the same answer
assuming               the same of scripts whose checks assume literals, most of them with levels; what a check assumes
                       is asserted where it is asked alone, and proofs are also given to other checks; more of the
                       scripts are put to z3 and cvc5
resets                 scripts in one text with `reset` between them, which have to be answered as each is alone
questions              scripts with `get-` commands in all modes, and options turned on and off: models, proofs and reasons
                       are those that `certify` shows for the same check, and values are those of the terms under its
                       model; by `certify`, and by `solve`, which is foretold to the byte; the others answer the checks
validate               models that `certify` printed, which have to be valid, and such models with something changed
cores                  scripts with one check, of which assertions are named, and some assumed: what the core and the literals
                       leave of them has to be unsat, also for z3 and cvc5

With --only these kinds alone are run, and with --rounds so many rounds of each, in as many seconds as it takes. A round
with a run of more than two minutes is left.

Whether there is a model is known from truth tables, or else by trying values up to a bound (bench/compare/models.py).
Where that is too much, and where there are numbers, the model, the proof or the reason of `unknown` alone decides. Of
each `valid` it is looked up that no model was found of all assertions, too.

It prints a table of the kinds with the number of runs and of differences, and of some kinds how checks were answered.
What each difference is on is in files of a temporary folder, which is printed. Then the status is 1, else 0.
"""

import argparse
import os
import random
import re
import subprocess
import sys
import tempfile
import time
from collections import Counter

import bool_scripts
from changes import changed, proof_text
from check_answers import predict_check
from commands import checks_of, read_script
from core_runs import cores
from forms import SCRIPTS, a_form
from function_scripts import a_function_script
from layout import damaged, laid_out, tree_of_item
from level_runs import assuming, levels, resets
from mixed_scripts import a_mixed_script
from model_runs import validate
from number_scripts import a_number_script
from others import answers_in, answers_of, are_at_odds, may_be_asked, solvers
from proofs import proof_of_single_steps, some_trees
from question_runs import questions
from reading import read_one
from reasons import NONE, Limits
from scripts import NAMES, a_session, an_arithmetic_script
from sessions import judge_certify, judge_solve, run_script
from terms import BOOL

MOST_DIFFERENCES = 20
LONGEST_RUN = 120
LIMIT = 2**24
MOST_STEPS = 40
OTHERS = solvers()
CHECKS = {True: "with a model", False: "without one", None: "left open"}
# The share of the scripts over functions or numbers that are solved too, and put to the others.
SOLVED_SHARE = 0.1
# The shares of the mixed scripts that are damaged, and of their proofs that are changed, beside.
DAMAGED_SHARE = 0.1
CHANGED_SHARE = 0.2
# The words of the reasons of `unknown`.
REASONS = re.compile(rb"^\((overflow|conflicts)\b", re.MULTILINE)


class Comparison:
    """The runs of one kind: how many there were, and how many differed from what was foretold."""

    def __init__(self, executable, kind, folder):
        self.executable = executable
        self.kind = kind
        self.folder = folder
        self.runs = 0
        self.differences = 0
        self.scripts = 0
        self.known = Counter()
        self.answers = Counter()
        self.asked = dict.fromkeys(OTHERS, 0)

    def run(self, words, text=b""):
        """Runs the program over a text on standard input; returns its output, its status and its errors."""
        command = [self.executable, *words]
        done = subprocess.run(command, input=text, capture_output=True, timeout=LONGEST_RUN, check=False)
        self.runs += 1
        return done.stdout, done.returncode, done.stderr

    def tell(self, what, script, proof=None):
        """Prints a difference and keeps its texts."""
        self.differences += 1
        path = os.path.join(self.folder, f"{self.kind.replace(' ', '-')}-{self.differences}")
        texts = {".smt2": script} if proof is None else {".smt2": script, ".alethe": proof}
        for ending, text in texts.items():
            with open(path + ending, "wb") as out:
                out.write(text)
        print(f"{self.kind}: {what}\n    in {path}.*", flush=True)

    def solve(self, script):
        """Compares `solve` on a script."""
        output, status, errors = self.run(["solve"], script)
        wrong = judge_solve(script, output, status)
        if wrong or errors:
            self.tell(f"{wrong} {errors!r}", script)

    def certify(self, script, limits=NONE):
        """Judges `certify` on a script, under limits if some are given; returns the right proofs."""
        output, status, errors = self.run(["certify", *limits.words], script)
        wrong, proofs = judge_certify(script, output, status, limits)
        self.answers.update(answers_in(output) + REASONS.findall(output))
        if wrong or errors:
            self.tell(f"{wrong} {errors!r}", script)
        return proofs

    def judge(self, command, script, number, judged):
        """Runs `check` or `validate` on a script and what it judges, which it reads from a file or from standard input."""
        paths = [os.path.join(self.folder, name) for name in ("script", "judged")]
        for path, text in zip(paths, (script, judged)):
            with open(path, "wb") as out:
                out.write(text)
        words = [command] if number == 1 and random.random() < 0.8 else [command, "--at", str(number)]
        from_input = random.random() < 0.3
        return self.run([*words, paths[0], "" if from_input else paths[1]], judged if from_input else b"")

    def check(self, script, number, proof, must_be_valid=False):
        """Compares `check` on a script and a proof."""
        wanted, status = predict_check(script, number, proof)
        got = self.judge("check", script, number, proof)
        if got != (wanted, status, b"") or (must_be_valid and status != 0):
            self.tell(f"at {number}, wanted {wanted!r} and {status}, got {got!r}", script, proof)
        elif status == 0 and current_checks(script)[number - 1].is_satisfiable is True:
            self.tell(f"at {number}, valid, but there is a model", script, proof)

    def count(self, script):
        """Counts a script, and its checks by what is known of them: that there is a model, or none, or nothing."""
        self.scripts += 1
        self.known.update(check.is_satisfiable for check in checks_of(run_script(script)[0]))

    def accept(self, script, number, proof):
        """Tells of a proof that `check` does not accept; the judge accepted it."""
        path = os.path.join(self.folder, "script")
        with open(path, "wb") as out:
            out.write(script)
        got = self.run(["check", "--at", str(number), path, ""], proof)
        if got != (b"valid\n", 0, b""):
            self.tell(f"at {number}, wanted valid, got {got!r}", script, proof)

    def ask_others(self, script):
        """Compares the answers with those of the other solvers that are on the path."""
        own = answers_in(self.run(["solve"], script)[0])
        for name, words in OTHERS.items():
            answers = answers_of(words, script) if may_be_asked(name, script) else None
            self.asked[name] += answers is not None
            if answers is not None and are_at_odds(own, answers):
                self.tell(f"{name} answers {answers!r}, and the program {own!r}", script)


def current_checks(script):
    """Returns what is current at each check of a script that is accepted."""
    return checks_of(read_script(script)[0])


def a_script(share):
    """Makes a script; the greater the share, the more of it is ill-formed."""
    choice = random.random()
    if choice < 0.3:
        return bool_scripts.a_script(share)
    if choice < 0.35:
        script = an_arithmetic_script() + b"(check-sat)\n"
    elif choice < 0.45:
        script = a_number_script()
    elif choice < 0.55:
        script = a_mixed_script()
    else:
        script = a_function_script() if choice < 0.7 else a_session(share)
    return laid_out(script, NAMES) if random.random() < 0.3 else script


def constants_of(check):
    """Returns the names of the constants of sort Bool."""
    return [name for name in check.order if check.functions[name] == ([], BOOL)]


def solve_well_formed(comparison):
    comparison.solve(a_script(0))


def solve_ill_formed(comparison):
    comparison.solve(a_script(0.35))


def solve_damaged(comparison):
    comparison.solve(damaged(a_script(random.choice([0, 0.1]))))


def certify(comparison):
    script = a_script(random.choice([0, 0, 0.1, 0.35]))
    comparison.certify(damaged(script) if random.random() < 0.3 else script)


def some_certified(comparison):
    """Returns a script and the proofs that `certify` prints for it; the run counts for `certify` alone."""
    script = a_script(random.choice([0, 0, 0, 0.1]))
    proofs = comparison.certify(script)
    comparison.runs -= 1
    return script, proofs[:3]


def check_certified(comparison):
    script, proofs = some_certified(comparison)
    for number, proof in proofs:
        comparison.check(script, number, proof, True)
        comparison.check(script, number, b"unsat\n" + proof, True)


def commands_of(proof):
    """Returns the trees of the commands of a printed proof."""
    return [tree_of_item(item) for item in read_one(proof, 0)[0][1]]


def check_changed(comparison):
    script, proofs = some_certified(comparison)
    checks = current_checks(script)
    for number, proof in proofs:
        commands = commands_of(proof)
        names = constants_of(checks[number - 1])
        for _ in range(14):
            other = random.choice([1, 2, len(checks), len(checks) + 1, 1000000000])
            at = number if random.random() < 0.93 else other
            comparison.check(script, at, proof_text(changed(commands, names, random.choice([0, 1, 1, 1, 2, 3]))))
        for _ in range(5):
            text = random.choice([proof, proof_text(commands)])
            comparison.check(script, number, damaged(text))


def check_invented(comparison):
    if random.random() < 0.6:
        script, _, proof = proof_of_single_steps(LIMIT, MOST_STEPS)
        comparison.check(script.text, 1, proof)
        return
    script = a_script(random.choice([0, 0, 0, 0.1]))
    checks = current_checks(script)
    if checks:
        number = random.randint(1, len(checks))
        check = checks[number - 1]
        commands = changed(some_trees(check), constants_of(check), random.choice([0, 0, 0, 1, 2]))
        comparison.check(script, number, proof_text(commands))


def check_forms(comparison):
    comparison.check(random.choice(SCRIPTS), random.choice([1] * 20 + [2, 2, 3]), a_form())


def functions(comparison):
    script = a_function_script()
    comparison.count(script)
    proofs = comparison.certify(script)
    if proofs:
        comparison.accept(script, *random.choice(proofs))
    if random.random() < SOLVED_SHARE:
        comparison.solve(script)
        comparison.ask_others(script)


def few_conflicts(comparison):
    script = a_function_script()
    comparison.count(script)
    proofs = comparison.certify(script, Limits(conflicts=random.choice([1, 1, 2, 3, 5, 8])))
    if proofs:
        comparison.accept(script, *random.choice(proofs))


def some_limits():
    """Returns no limits in half of the cases, else a small one on conflicts."""
    if random.random() < 0.5:
        return NONE
    return Limits(random.choice([1, 2, 3, 5, 8]))


def judge_all(comparison, script):
    """Judges `certify` and `check` on a script, with limits in half of the cases; returns the right proofs."""
    comparison.count(script)
    proofs = comparison.certify(script, some_limits())
    for number, proof in proofs:
        comparison.accept(script, number, proof)
    if random.random() < SOLVED_SHARE:
        comparison.solve(script)
        comparison.ask_others(script)
    return proofs


def numbers(comparison):
    judge_all(comparison, a_number_script())


def mixed(comparison):
    script = a_mixed_script()
    for number, proof in judge_all(comparison, script):
        if random.random() < CHANGED_SHARE:
            names = constants_of(current_checks(script)[number - 1])
            comparison.check(script, number, proof_text(changed(commands_of(proof), names, random.choice([1, 1, 2]))))
            comparison.check(script, number, damaged(proof))
    if random.random() < DAMAGED_SHARE:
        comparison.certify(damaged(script))
        comparison.solve(damaged(laid_out(script, NAMES)))


KINDS = {
    "solve well-formed": solve_well_formed,
    "solve ill-formed": solve_ill_formed,
    "solve damaged": solve_damaged,
    "certify": certify,
    "check certified": check_certified,
    "check changed": check_changed,
    "check invented": check_invented,
    "check forms": check_forms,
    "functions": functions,
    "few conflicts": few_conflicts,
    "numbers": numbers,
    "mixed": mixed,
    "levels": levels,
    "assuming": assuming,
    "resets": resets,
    "questions": questions,
    "validate": validate,
    "cores": cores,
}


def compare(executable, kind, folder, seconds, rounds, seed):
    """Runs one kind for so many seconds, or so many rounds if a number is given; returns its comparison."""
    comparison = Comparison(executable, kind, folder)
    end = time.monotonic() + seconds
    number = 0
    while comparison.differences < MOST_DIFFERENCES and (number < rounds if rounds else time.monotonic() < end):
        if rounds and number % 100 == 99:
            print(f"{kind}: {number} rounds, {comparison.differences} differences", file=sys.stderr, flush=True)
        number += 1
        random.seed(f"{seed} {kind} {number}")
        try:
            KINDS[kind](comparison)
        except subprocess.TimeoutExpired as stopped:
            print(f"{kind}: round {number}: stopped after {LONGEST_RUN} s: {stopped.cmd}", flush=True)
    return comparison


def main(given):
    """Compares the program that the words name; returns the status."""
    parser = argparse.ArgumentParser(
        prog="bench/compare.py program", description=__doc__, formatter_class=argparse.RawDescriptionHelpFormatter
    )
    parser.add_argument("program", metavar="PROGRAM")
    parser.add_argument("--seconds", type=float, default=60)
    parser.add_argument("--rounds", type=int, metavar="N")
    parser.add_argument("--seed", type=int, default=1)
    parser.add_argument("--only", nargs="+", choices=list(KINDS), default=list(KINDS), metavar="KIND")
    words = parser.parse_args(given)
    folder = tempfile.mkdtemp(prefix="compare-")
    share = words.seconds / len(words.only)
    executable = os.path.abspath(words.program)
    done = [compare(executable, kind, folder, share, words.rounds, words.seed) for kind in words.only]
    print("| kind | runs | differences |")
    print("|---|---|---|")
    for comparison in done:
        print(f"| {comparison.kind} | {comparison.runs:,} | {comparison.differences} |")
    for comparison in done:
        if comparison.scripts:
            asked = "".join(f", {count:,} put to {name}" for name, count in comparison.asked.items() if count)
            checks = [f"{comparison.known[known]:,} {word}" for known, word in CHECKS.items()]
            print(f"{comparison.kind}: {comparison.scripts:,} scripts{asked}; checks: {', '.join(checks)}")
            answers = [f"{count:,} {word.decode()}" for word, count in sorted(comparison.answers.items())]
            print(f"{comparison.kind}: answers: {', '.join(answers)}")
    if any(comparison.differences for comparison in done):
        print(f"the texts are in {folder}", file=sys.stderr)
        return 1
    for name in os.listdir(folder):
        os.remove(os.path.join(folder, name))
    os.rmdir(folder)
    return 0
