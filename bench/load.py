#!/usr/bin/env python3
"""Runs `load` with 1, 2 and 4 workers, over 4 and over 4,096 subscribers, and prints the times as ratios.

    bench/load.py [PROGRAM]      PROGRAM: crates/auc_cli/out/auc_cli, unless it is given

Each time is the least of three runs, on the clock, from the program's beginning to its end. It has the making of the
subscribers and the hashing of the digest, which one thread does, so the ratios say less than the workers' part alone. The
vectors of the digest are made by as many threads as there are workers, while one more hashes them. The lines of the runs
with the same numbers must be the same for each number of workers, except the line `workers`. With four processors, one of
them busy with another test, 2 and 4 workers took 1.04 and 0.74 of one worker's time over 4 subscribers, and 1.09 and 1.21
over 4,096.
"""
import subprocess
import sys
import time

from measure import TOP, program

sys.path.append(str(TOP / "tools"))
from ends import run_main

KEY, JOBS = 7, 100_000


def timed(subscribers, workers):
    """The least time of three runs, and the lines without `workers`."""
    least, lines = None, None
    for _ in range(3):
        began = time.monotonic()
        ran = subprocess.run([program(), "load", str(KEY), str(subscribers), str(JOBS), str(workers)], capture_output=True, text=True)
        seconds = time.monotonic() - began
        if ran.returncode:
            sys.exit(f"status {ran.returncode} with {workers} workers")
        least = seconds if least is None else min(least, seconds)
        lines = [line for line in ran.stdout.splitlines() if not line.startswith("workers ")]
    return least, lines


def main():
    print(f"{'subscribers':>11} {'workers':>7} {'seconds':>8} {'ratio to one':>12}")
    for subscribers in (4, 4096):
        alone, expected = None, None
        for workers in (1, 2, 4):
            seconds, lines = timed(subscribers, workers)
            alone, expected = alone or seconds, expected or lines
            if lines != expected:
                sys.exit(f"the lines differ at {workers} workers")
            print(f"{subscribers:>11} {workers:>7} {seconds:>8.2f} {seconds / alone:>12.2f}", flush=True)


if __name__ == "__main__":
    run_main(main, __doc__)
