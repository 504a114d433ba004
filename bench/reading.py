#!/usr/bin/env python3
"""Reads files of 16,384, 32,768 and 65,536 subscribers and scenarios of 50,000, 100,000 and 200,000 jobs with the
built program, and shows that the time grows linearly.

    bench/reading.py [PROGRAM]      PROGRAM: crates/auc_cli/out/auc_cli, unless it is given

The subscribers are read before an empty scenario. The last line of the scenario of jobs is wrong, so the whole scenario
is read and nothing is served. Each of its jobs draws a vector of one of 100 subscribers, and the first job of each
subscriber presents number 1. The figures are those of one run: the program's own processor time, and its ratio to the row before. A run on four
cores with other work beside it gave 0.013, 0.025 and 0.049 seconds for the subscribers and 0.013, 0.024 and 0.048 for
the jobs, so ratios of 1.9 to 2.0.
"""
import sys
import tempfile
from pathlib import Path

from measure import HEADER, KEYS, TOP, measured, ratio, subscriber_line

sys.path.append(str(TOP / "tools"))
from ends import run_main

SUBSCRIBERS = 100


def subscribers(count):
    return f"{HEADER}\n" + "".join(f"{i:015},{','.join(KEYS)}\n" for i in range(count))


def jobs(count):
    lines = [subscriber_line(f"{i:015}") for i in range(SUBSCRIBERS)] + ["round"]
    for job in range(count):
        lines += ["job", f"draw {job % SUBSCRIBERS:015} 1"]
        if job < SUBSCRIBERS:
            lines.append(f"give {job:015} 1")
    return "".join(line + "\n" for line in lines + ["wrong"])


def row(kind, count, words, status, prefix, before):
    seconds, _, ended, lines = measured(words, prefix)
    if ended != status or lines != (status != 0):
        sys.exit(f"{kind} at {count}: status {ended}, {lines} lines")
    print(f"{kind:>11} {count:>7} {seconds:>8.3f} {ratio(seconds, before):>6}")
    return seconds


def main():
    with tempfile.TemporaryDirectory() as folder:
        path, empty = Path(folder) / "input", Path(folder) / "empty"
        empty.write_text("")
        print(f"{'read':>11} {'count':>7} {'seconds':>8} {'ratio':>6}")
        before = None
        for count in (16_384, 32_768, 65_536):
            path.write_text(subscribers(count))
            before = row("subscribers", count, ["run", str(empty), str(path)], 0, b"refused", before)
        before = None
        for count in (50_000, 100_000, 200_000):
            path.write_text(jobs(count))
            before = row("jobs", count, ["run", str(path)], 3, b"refused scenario ", before)


if __name__ == "__main__":
    run_main(main, __doc__)
