"""Runs the kit's commands, and follows each to its end. What it writes goes to the log, and how much of the work is done to standard
error."""
import math
import os
import re
import select
import signal
import subprocess
import sys
import time

from . import costs
from .places import Stopped, say

END_WITH_PARENT = 1
EVERY = 250


def end_with_parent():
    """Has the system end this process if the script ends, however it ends. rt and rattle end their provers themselves."""
    import ctypes  # a run that builds nothing doesn't wait for this

    ctypes.CDLL(None).prctl(END_WITH_PARENT, signal.SIGTERM)


class Listener:
    """Whoever reads standard error. It was there at first, or the build goes on in silence."""

    def __init__(self):
        self.poll = select.poll()
        if sys.stderr is not None:
            self.poll.register(sys.stderr.fileno(), 0)

    def is_gone(self, milliseconds):
        """Waits so long, or until standard error closes."""
        return bool(self.poll.poll(milliseconds))


class Progress:
    """Which share of the work is done, by the lines that name a proved crate, and what the rest takes at this pace."""

    def __init__(self):
        self.minutes, self.began = costs.minutes_by_crate(), time.monotonic()
        self.proved, self.kept, self.shown = set(), set(), 0

    def hear(self, line):
        found = re.fullmatch(r"== (\w+)|rt: (\w+) is kept: .*", line)
        if found:
            self.proved |= {found[1]} & {*self.minutes}
            self.kept |= {found[2]} & {*self.minutes}

    def work(self, crates):
        return sum(self.minutes[it] for it in crates)

    def rest(self):
        """What the rest takes, in words; none before a crate is proved, and none if all are."""
        left, proved = self.work({*self.minutes} - self.proved - self.kept), self.work(self.proved)
        minutes = math.ceil((time.monotonic() - self.began) / 60 * left / proved) if proved else 0
        return f"; at this pace the rest takes {minutes} minute{'s' * (minutes > 1)}" if minutes else ""

    def tell(self):
        share = int(100 * self.work(self.proved | self.kept) / (self.work(self.minutes) or 1))
        if share > self.shown:
            self.shown = share
            say(f"{share} percent of the work is done{self.rest()}")


class Builder:
    """Runs commands, one after the other, each in this folder unless another one is given. They may put things aside in the
    folder `room`."""

    def __init__(self, folder, room, log):
        self.folder, self.room, self.log = folder, room, log
        self.process, self.progress, self.listener = None, Progress(), Listener()

    def __enter__(self):
        return self

    def __exit__(self, *_):
        self.end()

    def start(self, words, jobs, folder):
        environment = {**os.environ, "TMPDIR": str(self.room), **({"RT_JOBS": str(jobs)} if jobs else {})}
        how = {"cwd": folder, "env": environment, "stdin": subprocess.DEVNULL, "stdout": self.log, "stderr": self.log}
        self.process = subprocess.Popen(words, preexec_fn=end_with_parent, **how)

    def has_ended(self):
        """Waits a moment: whether the command has ended."""
        if self.listener.is_gone(EVERY):
            raise Stopped("standard error was closed, so the build was ended")
        return self.process.poll() is not None

    def lines(self, log):
        """The lines that the command writes to the log, until it has ended. The last one may be a part of a line."""
        lines, rest, is_over = [], b"", False
        while not is_over:
            is_over = self.has_ended()
            *new, rest = (rest + log.read()).split(b"\n")
            new = [it.decode(errors="replace") for it in new]
            for line in new:
                self.progress.hear(line)
            self.progress.tell()
            lines += new
        return [*lines, rest.decode(errors="replace")]

    def followed(self, words, jobs=None, folder=None):
        """Runs a command to its end: whether it ended well, and its lines. Without a number of jobs it takes the processors and
        the memory that are there."""
        with open(self.log.name, "rb") as log:
            log.seek(0, os.SEEK_END)
            self.start(words, jobs, folder or self.folder)
            lines = self.lines(log)
        return self.process.returncode == 0, lines

    def run(self, words, jobs=None, folder=None):
        """Runs rt to its end: whether it ended well."""
        return self.followed(["rt", *words], jobs, folder)[0]

    def end(self):
        """Ends the command, if one runs."""
        if self.process and self.process.poll() is None:
            self.process.terminate()
            self.process.wait()
