"""Runs a program once, and tells what it wrote, how it ended, how long it took and how much memory it had.

The races and bench/limits.py use it. Times are those of a processor, in the program and in the system for it, so that other work on
the machine counts little. Memory is the most that was resident. Where /usr/bin/time is there it is measured by that; else the
system's record of the child is taken, which is never below Python's own few megabytes.
"""

from __future__ import annotations

import math
import os
import resource
import signal
import subprocess
import sys
import tempfile
import threading
import time
from dataclasses import dataclass

GNU_TIME = "/usr/bin/time"
# The system's clock for the limit of a processor is not quite that of its record, which falls short most where others run beside.
NEAR = 0.95
# So the limit's signal tells too; /usr/bin/time turns it into a status.
BY_LIMIT = (-signal.SIGXCPU, 128 + signal.SIGXCPU)


@dataclass
class Run:
    """What one run came to: times in seconds, memory in kilobytes, and no status where a limit of time stopped it.

    `seconds` are those in the program and in the system for it, `user` those in the program alone.
    """

    output: bytes
    status: int | None
    seconds: float
    user: float
    memory: int

    @property
    def lines(self):
        """The lines of the output, as text."""
        return self.output.decode("ascii", "replace").splitlines()


def run(words, seconds=None, memory=None, processor=None):
    """Runs the words. It is stopped after so many seconds of the clock, and gets so many bytes of address space.

    It is also stopped after so many seconds of a processor, which the system counts in whole ones.
    """

    def set_limits():
        if memory is not None:
            resource.setrlimit(resource.RLIMIT_AS, (memory, memory))
        if processor is not None:
            resource.setrlimit(resource.RLIMIT_CPU, (math.ceil(processor), math.ceil(processor) + 1))

    with tempfile.TemporaryDirectory() as folder:
        report = os.path.join(folder, "memory")
        timed = [GNU_TIME, "-q", "-f", "%M", "-o", report] if os.path.exists(GNU_TIME) else []
        began = time.perf_counter()
        with subprocess.Popen(
            [*timed, *words],
            stdin=subprocess.DEVNULL,
            stdout=subprocess.PIPE,
            preexec_fn=set_limits,
            start_new_session=True,
        ) as child:
            stop = threading.Timer(seconds or 1e6, os.killpg, (child.pid, 9))
            stop.daemon = True
            stop.start()
            output = child.stdout.read()
            _, status, usage = os.wait4(child.pid, 0)
            taken = time.perf_counter() - began
            stop.cancel()
            child.returncode = os.waitstatus_to_exitcode(status)
        peak, used = usage.ru_maxrss, usage.ru_utime + usage.ru_stime
        if os.path.exists(report) and os.path.getsize(report):
            with open(report, encoding="ascii") as text:
                peak = int(text.read())
    stopped = child.returncode < 0 and seconds is not None and taken >= seconds
    if processor is not None:
        # Some programs end with a status of their own at the limit.
        stopped = stopped or child.returncode in BY_LIMIT or (child.returncode != 0 and used > NEAR * processor)
    return Run(output, None if stopped else child.returncode, used, usage.ru_utime, peak)


def least(words, runs, seconds=None):
    """Runs the words a few times, and gives the run that took least; all of them have to write the same and end alike.

    One that takes more than five seconds is not repeated.
    """
    best = run(words, seconds)
    for _ in range(1, runs):
        if best.seconds > 5 or best.status is None:
            break
        again = run(words, seconds)
        if (again.output, again.status) != (best.output, best.status):
            sys.exit(f"two runs differ: {' '.join(words)}")
        if again.seconds < best.seconds:
            best = again
    return best
