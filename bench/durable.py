#!/usr/bin/env python3
"""Measures how many draws a second are durable, as a ratio to the rate of this disk.

    bench/durable.py [PROGRAM]      PROGRAM: crates/auc_cli/out/auc_cli, unless it is given

A number is released only after its limit is on the disk; a limit is 64 numbers, and an append of one is two writes, each
synced. So the disk allows 64 draws for two syncs. The rate of two syncs is measured on a file in the same folder right
before and after each run, by the same writes. A ratio of 1 says that the program adds nothing to the disk's own time.

With one subscriber and one worker, then with 64 subscribers and 4 workers, which wait for one another at the journal. Each
row is the median of five runs of 2,000 appends. On a disk that syncs twice in about 110 microseconds three calls showed
0.90 to 0.93 with one subscriber, and 0.89 to 0.92 with 64.
"""
import os
import statistics
import subprocess
import sys
import tempfile
import time
from pathlib import Path

from journal import NAME, imsi, subscriber, write_scenario
from measure import TOP, program

sys.path.append(str(TOP / "tools"))
from ends import run_main

APPENDS, PROBES, TIMES = 2000, 400, 5


def appends_a_second(folder, count):
    """How many times a second 19 bytes and then one byte are written, each synced."""
    with open(Path(folder) / "probe", "wb", buffering=0) as probe:
        begun = time.monotonic()
        for at in range(count):
            os.pwrite(probe.fileno(), bytes(19), 17 + 19 * at)
            os.fsync(probe.fileno())
            os.pwrite(probe.fileno(), b"\1", 16 + 19 * at)
            os.fsync(probe.fileno())
        return count / (time.monotonic() - begun)


def draws_a_second(folder, subscribers, workers):
    """The rate of a run that draws 64 numbers an append. Its output isn't read while the time goes."""
    each = APPENDS // subscribers or 1
    draws = [line for sub in range(subscribers) for line in ("job", *[f"draw {imsi(sub)} 64"] * each)]
    write_scenario(folder, [f"workers {workers}", *map(subscriber, range(subscribers)), "round", *draws])
    (Path(folder) / NAME).unlink(missing_ok=True)
    with open(Path(folder) / "printed", "w+") as out:
        begun = time.monotonic()
        subprocess.run([program(), "run", "scenario"], cwd=folder, stdout=out, check=True)
        took = time.monotonic() - begun
        out.seek(0)
        return sum(line.startswith("vector ") for line in out) / took


def main():
    print("subscribers workers draws/s   64 x disk ratio")
    with tempfile.TemporaryDirectory() as folder:
        for subscribers, workers in ((1, 1), (64, 4)):
            rows = []
            for _ in range(TIMES):
                before = appends_a_second(folder, PROBES)
                draws = draws_a_second(folder, subscribers, workers)
                disk = 64 * (before + appends_a_second(folder, PROBES)) / 2
                rows.append((draws / disk, draws, disk))
            ratio, draws, disk = (statistics.median(column) for column in zip(*rows))
            print(f"{subscribers:11} {workers:7} {draws:9.0f} {disk:9.0f} {ratio:5.2f}")


if __name__ == "__main__":
    run_main(main, __doc__)
