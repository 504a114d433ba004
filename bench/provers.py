"""The processor time of the provers that a command starts, as /proc shows it. It works on Linux alone."""
import os
import re
import sys
import threading
import time
from pathlib import Path
from typing import NamedTuple, Optional

TICKS = os.sysconf("SC_CLK_TCK")
EVERY = 0.2


class Work(NamedTuple):
    """What a prover works on: a crate's proof, its tests, the seed of its edits, or an edit. The edits of a crate are
    numbered in the order of their names; one that is tried from nothing shows no number."""

    crate: str
    kind: str
    number: Optional[int] = None


class Process:
    """A process as /proc shows it at one moment: the ticks of itself and of its children that ended, and what tells it from
    an earlier process of the same number."""

    def __init__(self, pid):
        fields = Path(f"/proc/{pid}/stat").read_text().rpartition(")")[2].split()
        self.ticks = sum(int(it) for it in fields[11:15])
        self.key = pid, fields[19]


def need_proc():
    """Ends the script if /proc doesn't show the children of a process."""
    if not Path(f"/proc/self/task/{os.getpid()}/children").exists():
        sys.exit("/proc doesn't show the children of a process: this works on Linux alone")


def children_of(pid):
    """The processes that a process started and that run."""
    found = []
    for task in os.listdir(f"/proc/{pid}/task"):
        found += map(int, Path(f"/proc/{pid}/task/{task}/children").read_text().split())
    return found


def value_after(word, words):
    """The word that follows a word of a command; nothing if the command doesn't have it."""
    return words[words.index(word) + 1] if word in words[:-1] else ""


def work_in(words, folder):
    """The work of a prover, by its words and its folder; nothing of any other process."""
    crate = value_after("--crate-name", words)
    if not words[0].endswith("rattle") or not crate:
        return None
    if not re.search(r"/rt-edit-", folder):
        return Work(crate, "tests" if "--test" in words else "proof")
    kept = os.path.basename(value_after("--incremental", words))
    return Work(crate, "seed") if kept == "seed" else Work(crate, "edits", int(kept) if kept.isdigit() else None)


def work_of(pid):
    """The work of a process; nothing if it is no prover, or has ended."""
    try:
        words = Path(f"/proc/{pid}/cmdline").read_bytes().decode(errors="replace").split("\0")
        return work_in(words, os.readlink(f"/proc/{pid}/cwd"))
    except OSError:
        return None


def ticks_at_and_below(pid):
    """The ticks of a process and of all that it started."""
    try:
        return Process(pid).ticks + sum(map(ticks_at_and_below, children_of(pid)))
    except OSError:
        # (it has ended)
        return 0


class Sampler(threading.Thread):
    """Reads the ticks of all provers below one process, every fifth of a second. A prover's last fifth of a second is
    lost. It also keeps how many seconds the provers of each crate had used at each moment, if it is asked to."""

    def __init__(self, root, has_moments=False):
        super().__init__(daemon=True)
        self.root, self.works, self.ticks, self.ended = root, {}, {}, threading.Event()
        self.has_moments, self.moments = has_moments, {}

    def __enter__(self):
        self.start()
        return self

    def __exit__(self, *_):
        self.ended.set()
        self.join()

    def run(self):
        while not self.ended.is_set():
            self.visit(self.root)
            if self.has_moments:
                self.note_moment()
            time.sleep(EVERY)

    def note_moment(self):
        """Notes the seconds of each crate whose provers have used more since the last moment."""
        sums, now = {}, time.time()
        for top, ticks in self.ticks.items():
            crate = self.works[top].crate
            sums[crate] = sums.get(crate, 0) + ticks / TICKS
        for crate, seconds in sums.items():
            moments = self.moments.setdefault(crate, [])
            if not moments or moments[-1][1] != seconds:
                moments.append((now, seconds))

    def visit(self, pid):
        """Notes the ticks of the uppermost provers at and below a process."""
        try:
            key = Process(pid).key
            if pid != self.root and self.is_prover(pid, key):
                self.ticks[key] = max(ticks_at_and_below(pid), self.ticks.get(key, 0))
            else:
                for child in children_of(pid):
                    self.visit(child)
        except OSError:
            # (it has ended)
            pass

    def is_prover(self, pid, key):
        """Whether a process is a prover, whose work is noted. One that is none is asked again, since it may become one."""
        if key not in self.works:
            work = work_of(pid)
            if work is not None:
                self.works[key] = work
        return key in self.works

    def seconds(self):
        """The processor seconds of each work."""
        sums = {}
        for key, ticks in list(self.ticks.items()):
            sums[self.works[key]] = sums.get(self.works[key], 0) + ticks / TICKS
        return sums
