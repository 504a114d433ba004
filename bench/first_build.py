#!/usr/bin/env python3
"""Measures what the first build of the program takes, in minutes of processor time and by the clock.

    bench/first_build.py [--write] [--log FILE]
    bench/first_build.py --beside REVISION [--log FILE]
    bench/first_build.py --reckon N

In a temporary clone of the last commit `./auc prove --anew --portable` proves every crate that the program stands on,
whatever an earlier run on this machine passed, and builds the program for the kit's default processor. Nothing else should run
on the machine meanwhile. --write puts the figures into README.md and CONTRIBUTING.md, each between its marks; the script `auc`
reads them there. --log says where the build's output goes; otherwise it goes to standard error.

Machines differ, and so do the hours of one. So --beside tells what changed since an earlier revision: it builds that one and
the last commit at the same time, each with half of the processors, and prints how the processor times compare. Each proof
then has one job.

--reckon builds nothing. It reckons from the minutes of each crate in CONTRIBUTING.md what a build takes on N processors with
memory enough, and prints when which crate is proved. The order is that of rt: of the crates whose libraries are proved, first the
one that begins the longest chain of crates. rt measures a chain in lines of sources, and --reckon in minutes. rt divides the idle
processors by the proofs and tests that are ready, and gives a proof as many jobs, at least one and at most four. So a crate that is
ready alone gets half of the idle processors, since its tests are ready too. A second job takes two fifths off a proof's time.

The exit status is 0 if the program was built, with --beside both of them, and 2 if there is no such revision.
"""
import argparse
import heapq
import os
import subprocess
import sys
import tempfile
import time
from concurrent.futures import ThreadPoolExecutor
from pathlib import Path

from repository import TOP, uses_of, version_of, write_part
from ends import run_main
from launcher import costs

PART = "bench/first_build.py"


def options():
    parser = argparse.ArgumentParser(description=__doc__, formatter_class=argparse.RawDescriptionHelpFormatter)
    parser.add_argument("--write", action="store_true", help="put the figures into their pages")
    parser.add_argument("--log", type=Path, help="where the build's output goes")
    parser.add_argument("--beside", metavar="REVISION", help="build that revision, too, at the same time")
    parser.add_argument("--reckon", type=int, metavar="N", help="build nothing, and reckon for N processors")
    given = parser.parse_args()
    if given.reckon is not None and given.reckon < 1:
        parser.error("--reckon takes a number of processors, from 1 on")
    if given.beside and not commit_of(given.beside):
        parser.error(f"there is no revision {given.beside}")
    return given


def git(*words):
    """What git prints of this repository; nothing if it refuses."""
    return subprocess.run(["git", "-C", TOP, *words], stdout=subprocess.PIPE, check=False, text=True).stdout.strip()


def commit_of(revision):
    """The commit of a revision; nothing if there is none."""
    return git("rev-parse", "--verify", "--quiet", f"{revision}^{{commit}}")


def measured(log, revision="HEAD", jobs=()):
    """Builds the program of a revision in a clone: the exit status, and the minutes of processor time and by the clock."""
    with tempfile.TemporaryDirectory(prefix="auc-first-build-") as room:
        subprocess.run(["git", "clone", "-q", TOP, f"{room}/clone"], check=True)
        subprocess.run(["git", "-C", f"{room}/clone", "checkout", "-q", commit_of(revision)], check=True)
        began = time.monotonic()
        words = ["./auc", "prove", "--anew", "--portable", *jobs]
        child = subprocess.Popen(words, cwd=f"{room}/clone", stdout=log, stderr=log)
        _, status, usage = os.wait4(child.pid, 0)
        child.returncode = os.waitstatus_to_exitcode(status)
        return child.returncode, (usage.ru_utime + usage.ru_stime) / 60, (time.monotonic() - began) / 60


def compare(revision, log):
    """Builds that revision and this one side by side, and prints how they compare: the exit status."""
    both, jobs = (revision, "HEAD"), ("--jobs", str(max(1, os.cpu_count() // 2)))
    with ThreadPoolExecutor(len(both)) as pool:
        builds = [*pool.map(lambda it: measured(log, it, jobs), both)]
    for name, (status, work, _) in zip(both, builds):
        print(f"{git('log', '-1', '--format=%h %s', name)}: {work:.1f} minutes of processor time{' and not built' if status else ''}")
    (_, before, _), (_, now, _) = builds
    is_built = not any(status for status, _, _ in builds)
    if is_built:
        print(f"{now / before:.2f} times as much")
    return int(not is_built)


def chains(uses, minutes):
    """The minutes of the longest chain of crates that each one begins, the next always using the one before."""
    found = {}
    for crate in reversed(costs.crates_of_program()):
        found[crate] = minutes[crate] + max((it for above, it in found.items() if crate in uses[above]), default=0)
    return found


class Reckoning:
    """A build by a clock of its own: the idle processors, the crates that are left, the ends of the proofs at work, the minutes by
    the clock, and those of processor time."""

    def __init__(self, processors):
        self.idle, self.uses, self.minutes = processors, uses_of(TOP), costs.minutes_by_crate()
        self.chains, self.left, self.proved = chains(self.uses, self.minutes), costs.crates_of_program(), set()
        self.ends, self.now, self.work = [], 0, 0

    def ready(self):
        """The crates that can begin, in rt's order."""
        ready = [it for it in self.left if self.proved.issuperset(self.uses[it])]
        return sorted(ready, key=self.chains.get, reverse=True)

    def begin(self, crate, jobs):
        """Begins a proof, and says when it ends."""
        minutes = costs.shortened(self.minutes[crate], jobs)
        self.left.remove(crate)
        self.idle -= jobs
        self.work += jobs * minutes
        heapq.heappush(self.ends, (self.now + minutes, jobs, crate))
        print(f"{self.now:5.1f} to {self.now + minutes:4.1f}: {crate}{f', {jobs} jobs' if jobs > 1 else ''}")

    def begin_all(self):
        """Begins what is ready, as far as the processors go."""
        ready = self.ready()
        for place, crate in enumerate(ready):
            # This proof and those after it wait for processors, and so do the tests of each ready crate.
            waiting = 2 * len(ready) - place
            if self.idle > 0:
                self.begin(crate, max(1, min(costs.MOST, self.idle // waiting)))

    def run(self):
        self.begin_all()
        while self.ends:
            self.now, jobs, crate = heapq.heappop(self.ends)
            self.idle += jobs
            self.proved.add(crate)
            self.begin_all()


def reckon(processors):
    reckoning = Reckoning(processors)
    reckoning.run()
    print(f"{reckoning.work:.0f} minutes of processor time, and {reckoning.now:.0f} minutes on {processors} free processors")


def main():
    given = options()
    if given.reckon:
        return reckon(given.reckon)
    log = given.log.open("w") if given.log else sys.stderr
    if given.beside:
        sys.exit(compare(given.beside, log))
    status, work, wall = measured(log)
    text = (
        f"The first build proves every crate that the program stands on. At version {version_of(TOP)} it took {work:.0f} minutes of\n"
        f"processor time and, as it was measured, {wall:.0f} minutes on {os.cpu_count()} free processors.\n"
    )
    print(text, end="")
    if given.write and status == 0:
        for page in ("README.md", "CONTRIBUTING.md"):
            write_part(TOP / page, PART, text)
    sys.exit(status)


if __name__ == "__main__":
    run_main(main)
