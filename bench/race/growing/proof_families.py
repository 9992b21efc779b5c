"""Proofs by a number n, each with its script: pairs of a line and its answer, as in script_families.py.

Each proof is valid. Its last commands are those of END.
"""

from typing import Callable, NamedTuple

END = ["(assume y p)", "(assume z (not p))", "(step e (cl) :rule resolution :premises (y z))"]


def unanswered(lines):
    """Returns the lines with no answer, as those of a proof and of a script whose answers nobody sees."""
    return [(line, "") for line in lines]


def refuted(declarations):
    """Returns a script that has no model, with declarations at its start."""
    return unanswered([*declarations, "(declare-fun p () Bool)", "(assert p)", "(assert (not p))", "(check-sat)"])


def plain(_n):
    """A script of constants p and q."""
    return refuted(["(declare-fun q () Bool)"])


def with_constants(n):
    """A script of n constants more."""
    return refuted(f"(declare-fun q{i} () Bool)" for i in range(n))


def with_numbers(n):
    """A script of n + 1 constants of sort Real more."""
    return refuted(f"(declare-fun x{i} () Real)" for i in range(n + 1))


def with_definitions(n):
    """A script of n definitions, with constants."""
    lines = (f"(declare-fun q{i} () Bool)\n(define-fun d{i} ((x Bool)) Bool (or x q{i}))" for i in range(n))
    return refuted(lines)


def proved(lines):
    """Returns a proof of lines, with the end."""
    return unanswered([*lines, *END])


def definitions(n):
    """Names of n different terms, and a step on each."""
    lines = (
        f"(define-fun @p{i} () Bool (and p q{i}))\n(step t{i} (cl (not @p{i}) q{i}) :rule and_pos)" for i in range(n)
    )
    return proved(lines)


def definitions_chained(n):
    """Names of terms of which each has the one before, and a step on each."""
    lines = ["(define-fun @p0 () Bool (or p q))"]
    for i in range(1, n):
        lines.append(f"(define-fun @p{i} () Bool (or q @p{i - 1}))")
        lines.append(f"(step t{i} (cl (not @p{i}) q @p{i - 1}) :rule or_pos)")
    return proved(lines)


def definitions_with_parameters(n):
    """Definitions with a parameter, and a step on each."""
    lines = (
        f"(define-fun @f{i} ((x Bool)) Bool (or x q{i}))\n(step t{i} (cl (not (@f{i} p)) p q{i}) :rule or_pos)"
        for i in range(n)
    )
    return proved(lines)


def script_definitions(n):
    """Steps on the definitions of the script."""
    return proved(f"(step t{i} (cl (not (d{i} p)) p q{i}) :rule or_pos)" for i in range(n))


def lets(n):
    """Steps whose terms have a let."""
    lines = (f"(step t{i} (cl (let ((x q{i})) (not (and x p))) p) :rule and_pos)" for i in range(n))
    return proved(lines)


def arguments(n):
    """One step with n arguments, which its rule does not need."""
    return proved([f"(step t (cl true) :rule true :args ({' '.join(f'(+ {i} x)' for i in range(n))}))"])


def numbers(n):
    """Steps over comparisons of numbers."""
    lines = (f"(step t{i} (cl (not (and (< {i} {i + 1}.5) p)) p) :rule and_pos)" for i in range(n))
    return proved(lines)


def step_of_sums(name, literals):
    """Returns a step of `la_generic`, each literal with the argument 1."""
    return f"(step {name} (cl {' '.join(literals)}) :rule la_generic :args ({' '.join('1' for _ in literals)}))"


def orders_round(n):
    """One step with n literals over n numbers: each is less than the next, and the last than the first."""
    return proved([step_of_sums("t", [f"(not (< x{i} x{(i + 1) % n}))" for i in range(n)])])


def long_sums(n):
    """One step with two literals, each over a sum of n numbers."""
    total = f"(+ {' '.join(f'x{i}' for i in range(n))})"
    return proved([step_of_sums("t", [f"(not (< {total} 1))", f"(not (<= 1 {total}))"])])


def differences(n):
    """One step over the difference of n numbers, nested as it is read."""
    total = f"(- {' '.join(f'x{i}' for i in range(n))})"
    return proved([step_of_sums("t", [f"(not (< {total} 1))", f"(not (<= 1 {total}))"])])


def halves(n):
    """A term with n subterms, of each of which the next has a half twice, and a step over it."""
    lines = ["(define-fun @s0 () Real x0)"]
    lines += [f"(define-fun @s{i} () Real (+ (* 0.5 @s{i - 1}) (* 0.5 @s{i - 1})))" for i in range(1, n)]
    return proved([*lines, step_of_sums("t", [f"(not (< @s{n - 1} x0))"])])


def sums(n):
    """Steps with two literals each."""
    return proved(step_of_sums(f"t{i}", [f"(not (< x{i} x{i + 1}))", f"(not (< x{i + 1} x{i}))"]) for i in range(n))


class Family(NamedTuple):
    """A proof by a number, with its script."""

    script: Callable
    proof: Callable


FAMILIES = {
    "proof: definitions": Family(with_constants, definitions),
    "proof: definitions chained": Family(plain, definitions_chained),
    "proof: definitions with parameters": Family(with_constants, definitions_with_parameters),
    "proof: definitions of the script": Family(with_definitions, script_definitions),
    "proof: lets": Family(with_constants, lets),
    "proof: arguments": Family(plain, arguments),
    "proof: numbers": Family(plain, numbers),
    "proof: orders round": Family(with_numbers, orders_round),
    "proof: long sums": Family(with_numbers, long_sums),
    "proof: differences": Family(with_numbers, differences),
    "proof: halves": Family(with_numbers, halves),
    "proof: sums": Family(with_numbers, sums),
}
