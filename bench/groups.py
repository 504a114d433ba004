#!/usr/bin/env python3
"""Measures what it costs that many subscribers draw one number each, beside one subscriber that draws as many.

    bench/groups.py [PROGRAM [SUBSCRIBERS]]     PROGRAM: crates/auc_cli/out/auc_cli, unless it is given; SUBSCRIBERS: 65536

A number is released only after its limit is on the disk, and an append is two syncs. Before its workers begin, a round reserves for
its subscribers in groups of 256, with two syncs each; a number above a limit is reserved by itself later, with 63 more. So 65,536
subscribers of one number take 512 syncs and two for the opening, and one subscriber of 65,536 numbers takes 2,048 and two. A
program that reserves for each subscriber by itself takes 131,072 and two for the first.

The syncs are counted by strace in a run of its own; without strace the column is empty. The journal must have as many frames as
the rule says, unless the word `any` stands last. The seconds are the least of three runs, each on a new journal, on the clock and
of the processor; `waits` is the time of that many syncs of a file in the same folder, measured right before and after.
"""
import os
import re
import shutil
import subprocess
import sys
import tempfile
import time
from pathlib import Path

from journal import GROUP, NAME, frames_in, imsi, subscriber, write_scenario
from measure import TOP, program

sys.path.append(str(TOP / "tools"))
from ends import run_main

TIMES, PROBES, STEP = 3, 400, 64


def seconds_a_sync(folder):
    """How long a write of a few bytes and a sync take."""
    with open(Path(folder) / "probe", "wb", buffering=0) as probe:
        begun = time.monotonic()
        for at in range(PROBES):
            os.pwrite(probe.fileno(), bytes(19), 19 * at)
            os.fsync(probe.fileno())
        return (time.monotonic() - begun) / PROBES


def lines(subscribers, each):
    """A round in which so many subscribers draw so many numbers each, one in each line."""
    draws = [f"draw {imsi(sub)} 1" for sub in range(subscribers) for _ in range(each)]
    return [*map(subscriber, range(subscribers)), "round", "job", *draws]


def ran(folder, before=()):
    """A run on a new journal: its vectors, and its seconds on the clock and of the processor."""
    (Path(folder) / NAME).unlink(missing_ok=True)
    with open(Path(folder) / "printed", "w+") as out:
        begun = time.monotonic()
        child = subprocess.Popen([*before, program(), "run", "scenario"], cwd=folder, stdout=out)
        _, status, usage = os.wait4(child.pid, 0)
        took = time.monotonic() - begun
        assert status == 0, status
        out.seek(0)
        return sum(line.startswith("vector ") for line in out), took, usage.ru_utime + usage.ru_stime


def syncs(folder):
    """How often a run syncs its journal; nothing without strace."""
    if not shutil.which("strace"):
        return None
    ran(folder, ["strace", "-f", "-y", "-qq", "-e", "trace=fsync,fdatasync", "-o", "calls"])
    return len(re.findall(rf"sync\(\d+<[^>]*{re.escape(NAME)}>\)", (Path(folder) / "calls").read_text()))


def frames(folder):
    """How many groups a journal has, of how many entries, and how many single frames."""
    sizes = [len(entries) for _, _, entries in frames_in((Path(folder) / NAME).read_bytes())]
    return [size for size in sizes if size > 1], sizes.count(1)


def wanted(subscribers, each):
    """What it has to have by the rule."""
    full, left = divmod(subscribers, GROUP)
    groups = [GROUP] * full + [left] * (left > 1)
    singles = subscribers * (-(-each // STEP) - 1) + (left == 1)
    return groups, singles


def main():
    count = int(sys.argv[2]) if len(sys.argv) > 2 else 65536
    print("subscribers  draws each    draws/s  seconds  processor  syncs  waits")
    with tempfile.TemporaryDirectory() as folder:
        for subscribers, each in ((1, count), (count, 1)):
            write_scenario(folder, lines(subscribers, each))
            made = syncs(folder)
            probe, rows = seconds_a_sync(folder), []
            for _ in range(TIMES):
                rows.append(ran(folder))
                assert rows[-1][0] == count, rows[-1]
            probe = (probe + seconds_a_sync(folder)) / 2
            if "any" not in sys.argv[3:]:
                assert frames(folder) == wanted(subscribers, each), f"frames {frames(folder)}"
            _, took, own = min(rows, key=lambda row: row[1])
            waits = f"{made * probe:6.2f}" if made is not None else ""
            print(f"{subscribers:11} {each:11} {count / took:10.0f} {took:8.2f} {own:10.2f} {made if made is not None else '':>6} {waits}")


if __name__ == "__main__":
    run_main(main, __doc__)
