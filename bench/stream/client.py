"""A client of a program: it writes to a pipe that stays open, and sees what was answered.

It also sees when the program waits for bytes of its standard input: in /proc/PID/syscall, where Linux tells in which call
a process sleeps. So no test of what was written by then has to wait for a time.
"""

import array
import fcntl
import os
import platform
import subprocess
import termios
import time

LONGEST = 60
# How the line of a process that sleeps in a read of standard input begins.
READING = {"x86_64": b"0 0x0 ", "aarch64": b"63 0x0 "}.get(platform.machine(), b"0 0x0 ")


def held_in(pipe):
    """Returns how many bytes wait in a pipe."""
    count = array.array("i", [0])
    fcntl.ioctl(pipe, termios.FIONREAD, count)
    return count[0]


class TooLong(Exception):
    """The program did not go on in time."""


class Client:
    """A program that runs, with pipes to its standard input and from its standard output and errors."""

    def __init__(self, words, **variables):
        pipe = subprocess.PIPE
        known = dict(os.environ, **variables) if variables else None
        self.child = subprocess.Popen(words, stdin=pipe, stdout=pipe, stderr=pipe, bufsize=0, env=known, close_fds=False)
        self.to, self.out = self.child.stdin.fileno(), self.child.stdout.fileno()
        self.call = os.open(f"/proc/{self.child.pid}/syscall", os.O_RDONLY)
        self.written = bytearray()

    def is_reading(self):
        """Tells whether the program waits for bytes of its standard input, and has all that were written."""
        if held_in(self.to):
            return False
        try:
            return os.pread(self.call, 32, 0).startswith(READING)
        except OSError:
            return False

    def take_output(self):
        """Takes what the program has written."""
        count = held_in(self.out)
        if count:
            self.written += os.read(self.out, count)

    def write(self, piece):
        """Writes a piece to the program, which may have ended."""
        left = memoryview(piece)
        try:
            while left:
                left = left[os.write(self.to, left) :]
        except BrokenPipeError:
            pass

    def waits(self, seconds=LONGEST):
        """Tells whether the program waits for bytes, once it does or has ended; what it wrote up to there is taken."""
        end = time.monotonic() + seconds
        while True:
            is_reading = self.is_reading()
            self.take_output()
            if is_reading:
                return True
            if self.child.poll() is not None:
                return False
            if time.monotonic() > end:
                raise TooLong
            os.sched_yield()

    def close(self, seconds=LONGEST):
        """Says that no more comes; returns the status and the errors, and has all that was written."""
        self.child.stdin.close()
        self.child.stdin = None
        try:
            output, errors = self.child.communicate(timeout=seconds)
        except subprocess.TimeoutExpired:
            raise TooLong from None
        self.written += output
        return self.child.returncode, errors

    def __enter__(self):
        return self

    def __exit__(self, *_):
        self.child.kill()
        self.child.wait()
        for pipe in filter(None, (self.child.stdin, self.child.stdout, self.child.stderr)):
            pipe.close()
        os.close(self.call)
