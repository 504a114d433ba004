"""What a build costs, by CONTRIBUTING.md: the minutes of the whole build, and of each crate's proof; and what this machine has
for it."""
import os
import re
from pathlib import Path
from typing import NamedTuple

from .places import TOP

TABLE = re.compile(r"<!-- begin: bench/gate\.py -->\n(.*?)<!-- end: bench/gate\.py -->", re.S)
MEASURED = re.compile(r"it took (\d+) minutes of\s+processor time\b[^.]*?(\d+) minutes on (\d+)\s+free processors")
PROGRAM = "auc_cli"
# The memory for one prover, in KiB.
PROVER = 3 * 1024 * 1024
# The part of a proof's time that more jobs don't shorten.
ALONE = 0.2
# The most jobs that rt gives one proof.
MOST = 4


def uses():
    """The crates of crates.txt, each with what it uses."""
    lines = [it.partition(":") for it in (TOP / "crates.txt").read_text(encoding="utf-8").splitlines()]
    return {head.split()[0]: used.split() for head, colon, used in lines if colon and not head.startswith("#")}


def crates_of_program():
    """The crates that the program stands on, itself last, each after those that it uses."""
    used, found = uses(), []

    def visit(crate):
        if crate in used and crate not in found:
            for below in used[crate]:
                visit(below)
            found.append(crate)

    visit(PROGRAM)
    return found


def page():
    return (TOP / "CONTRIBUTING.md").read_text(encoding="utf-8")


def minutes_by_crate():
    """The minutes of each crate of the program. A crate that the table doesn't have counts as one minute."""
    block = TABLE.search(page())
    found, column = {}, None
    for line in block[1].splitlines() if block else []:
        cells = [it.strip(" `") for it in line.strip("|").split("|")]
        if "Proof" in cells:
            column = cells.index("Proof")
        elif column and column < len(cells) and re.fullmatch(r"\d+(\.\d+)?", cells[column]):
            found.setdefault(cells[0], float(cells[column]))
    return {it: found.get(it, 1.0) for it in crates_of_program()}


def shortened(minutes, jobs):
    """What a proof of these minutes takes with so many jobs."""
    return minutes * (ALONE + (1 - ALONE) / jobs)


class Build(NamedTuple):
    """A build that was measured: its minutes of processor time, and by the clock on so many processors."""

    work: int
    wall: int
    processors: int

    def minutes(self, processors):
        """What it takes on so many: a part can't be shared, and the rest is."""
        if self.processors == 1:
            return self.work
        alone = max(0, (self.processors * self.wall - self.work) / (self.processors - 1))
        return alone + (self.work - alone) / processors


def build(is_for_two=False):
    """The build that was measured last, which is for one processor. For two, the program's crate is proved once more."""
    found = MEASURED.search(page())
    one = Build(*map(int, found.groups())) if found else Build(60, 60, 1)
    more = minutes_by_crate()[PROGRAM] if is_for_two else 0
    return Build(round(one.work + more), round(one.wall + shortened(more, min(MOST, one.processors))), one.processors)


# ---- what this machine has


def number_in(file, pattern):
    """The number that a file of the system has there; nothing if it has none."""
    try:
        return int(re.search(pattern, Path(file).read_text(encoding="ascii"), re.M)[1])
    except (OSError, TypeError):
        return None


def processors():
    """How many processors rt counts: those that this process may run on, or fewer if its control group has a quota."""
    found = len(os.sched_getaffinity(0))
    quota, period = (number_in("/sys/fs/cgroup/cpu.max", it) for it in (r"^(\d+)", r" (\d+)"))
    return max(1, min(found, quota // period)) if quota and period else found


def free_memory():
    """The memory that is available, in KiB, also within the limit of the control group."""
    free = number_in("/proc/meminfo", r"^MemAvailable:\s+(\d+)")
    limit, held = number_in("/sys/fs/cgroup/memory.max", r"^(\d+)"), number_in("/sys/fs/cgroup/memory.stat", r"^anon (\d+)")
    return free if limit is None or held is None else min(free, (limit - held) // 1024)


def jobs_here():
    """How many jobs a build has on this machine: one a processor, as far as the memory goes."""
    return max(1, min(processors(), free_memory() // PROVER))
