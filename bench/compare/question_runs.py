"""Runs of the program on scripts that ask about models, values, proofs, reasons, assertions, options and infos."""

import random
from collections import Counter

from question_scripts import a_questioning_script, without_questions
from questions import UNSAT, Question
from reading import Fault
from reasons import NONE, Limits
from sessions import evidence_end, judge, judge_solve, run_script, shown_end

# How many sessions are run in one text, `reset` between them: to start the program takes longer than to run one of them.
TOGETHER = (1, 10, 20)
# The shares of the texts of which one session is put to the others, whose checks have to show the same without the
# questions and what is refused, and of which all that `certify` shows is judged; and of the proofs that `check` judges
# at their check, and at any.
ASKED_SHARE = 0.3
PLAIN_SHARE = 0.15
JUDGED_SHARE = 0.25
CHECKED_SHARE = 0.15
ELSEWHERE_SHARE = 0.05


def some_limits():
    """Returns no limits in most cases, else a small one on conflicts."""
    if random.random() < 0.7:
        return NONE
    return Limits(random.choice([1, 1, 2, 3]))


def questions_in(script, founds):
    """Counts the questions of a script about its checks, each with its fault where it has one."""
    found_at, counts = {id(found.check): found for found in founds}, Counter()
    for answer in run_script(script)[0]:
        if isinstance(answer, Question):
            try:
                answer.answer(found_at[id(answer.check)])
                counts[answer.word] += 1
            except Fault as fault:
                counts[answer.word + b" " + fault.name] += 1
    return counts


def certified(comparison, script, limits):
    """Returns what `certify` wrote that is wrong, and what was found at the checks of a script.

    Models, proofs and reasons are judged in some of the texts, and else taken as they stand: a model whose values are
    asked for is judged there.
    """
    output, status, errors = comparison.run(["certify", *limits.words], script)
    shows = evidence_end if random.random() < JUDGED_SHARE else shown_end
    wrong, founds = judge(script, output, status, limits, shows, is_foretold=False)
    return f"{wrong} {errors!r}" if wrong or errors else None, founds


def is_right(comparison, script, limits):
    """Runs a script with questions by `certify` and `solve`; tells what is wrong, and whether nothing is."""
    words = " ".join(limits.words)
    wrong, founds = certified(comparison, script, limits)
    if wrong:
        comparison.tell(f"certify {words}: {wrong}", script)
        return False
    comparison.known.update(found.check.is_satisfiable for found in founds)
    comparison.answers.update(found.line[:-1] for found in founds)
    comparison.answers.update(questions_in(script, founds))
    output, status, errors = comparison.run(["solve", *limits.words], script)
    wrong = judge_solve(script, output, status, limits, founds)
    if wrong or errors:
        comparison.tell(f"solve {words}: {wrong} {errors!r}", script)
        return False
    for number, found in enumerate(founds, 1):
        if found.line == UNSAT and random.random() < CHECKED_SHARE:
            comparison.accept(script, number, found.text)
        if found.line == UNSAT and random.random() < ELSEWHERE_SHARE:
            comparison.check(script, random.randint(1, len(founds) + 1), found.text)
    if random.random() < PLAIN_SHARE:
        wrong, plainly = certified(comparison, without_questions(script), limits)
        if wrong or [(found.line, found.text) for found in plainly] != [(found.line, found.text) for found in founds]:
            comparison.tell(f"certify {words}: other checks without the questions: {wrong}", script)
            return False
    return True


def questions(comparison):
    """Runs sessions with questions, several in one text; where something is wrong, each of them alone too."""
    scripts = [a_questioning_script() for _ in range(random.choice(TOGETHER))]
    limits = some_limits()
    comparison.scripts += len(scripts)
    if not is_right(comparison, b"(reset)\n".join(scripts), limits) and len(scripts) > 1:
        for script in scripts:
            is_right(comparison, script, limits)
    if random.random() < ASKED_SHARE and limits == NONE:
        comparison.ask_others(without_questions(random.choice(scripts)))
