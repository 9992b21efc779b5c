"""A session through a pipe in which one allocation is refused, once for each allocation of the program."""

import tempfile
from collections import Counter

from client import Client
from refused import Refusal
from tables import head, row

COMMANDS = (
    b"(declare-const p Bool)\n",
    b"(assert (and p (= p true)))\n",
    b"(check-sat)\n",
    b'(echo "a")\n',
    b"(assert (not p))\n",
)


def session(words, **variables):
    """Writes each command once the one before is answered; returns what was written by each wait, the status and the errors."""
    with Client(words, **variables) as client:
        steps = [client.waits() and bytes(client.written)]
        for command in COMMANDS:
            if steps[-1] is False:
                break
            client.write(command)
            steps.append(client.waits() and bytes(client.written))
        status, errors = client.close()
        return steps, bytes(client.written), status, errors


def outcome(came, steps, whole):
    """Names what a session came to, beside the one with none refused."""
    done, output, status, errors = came
    if came == whole:
        return "unchanged"
    is_front = done[:-1] == steps[: len(done) - 1] and output == steps[len(done) - 2 if len(done) > 1 else 0]
    if status == 3 and not errors and done[-1] is False and is_front:
        return "after some answers" if output else "before any"
    return "wrong"


def run_all(asked):
    """Refuses each allocation once, prints what came, and returns what is wrong."""
    wrong = []
    head(["command", "allocations", "out of memory before any answer", "after some answers", "unchanged", "wrong"])
    with tempfile.TemporaryDirectory() as folder:
        library = Refusal(folder).library
        for command in ("solve", "certify"):
            words, counts = (asked.program, command), Counter()
            whole = session(words, LD_PRELOAD=library)
            counted = session(words, LD_PRELOAD=library, COUNT="1")
            if whole[2:] != (0, b"") or len(set(whole[0])) <= len(COMMANDS):
                wrong.append(f"{command}: with none refused it came to {whole}")
            total = int(counted[3])
            for number in range(1, total + 1):
                came = session(words, LD_PRELOAD=library, REFUSE=str(number))
                what = outcome(came, whole[0], whole)
                counts[what] += 1
                if what == "wrong":
                    wrong.append(f"{command}: allocation {number} refused: {came}")
            cells = [counts[what] for what in ("before any", "after some answers", "unchanged", "wrong")]
            row([command, f"{total:,}", *map(str, cells)])
    return wrong
