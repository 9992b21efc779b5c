"""Says what `check` is to print."""

from commands import checks_of, read_script
from judging import first_fault
from reading import error_line


def predict_check(script, number, proof, limit=2**24):
    """Returns what `check` is to print for the check with this number, from 1, and its status."""
    checks = checks_of(read_script(script, limit)[0])
    if len(checks) < number:
        return b'(error "1:1: NoSuchCheck")\n', 1
    fault = first_fault(checks[number - 1], proof)
    return (error_line(proof, fault), 1) if fault else (b"valid\n", 0)
