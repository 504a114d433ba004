#!/usr/bin/env python3
"""Lets 64 workers serve 200,000 jobs over 65,536 subscribers, twenty times, and judges what the program printed.

    bench/soak.py [PROGRAM [TIMES]]      PROGRAM: crates/auc_cli/out/auc_cli, unless it is given; TIMES: 20

The scenario has one round. Each of the first 65,536 jobs draws for a subscriber of its own and presents the vectors to
its USIM; each further job draws for one of the first 64 subscribers and resynchronises it, so many workers change one
subscriber's number. The rules below are of the output alone, and no two runs need to have the same one:

- the status is 0, and each job has as many vectors as it asks for;
- no number of a subscriber comes twice, and each is above OPEN and at most CLOSE of its closing line;
- of each closing line CLOSE is OPEN + DRAWN + SKIPPED, and DRAWN and RELEASED are the subscriber's vectors.

A line is printed for each run: its time, the program's processor time and size, and its vectors. The last line says how
many runs kept the rules; the exit status is 1 if one didn't. Twenty runs on a busy machine with four processors took 4.7 to
6.5 seconds each, with the reading of the output, 1.17 to 1.27 seconds of processor time and at most 407 MB, and kept the
rules.
"""
import io
import sys
import time
from collections import Counter, defaultdict

from journal import imsi
from measure import HEADER, KEYS, TOP, folder_with, followed

sys.path.append(str(TOP / "tools"))
from ends import run_main

SUBSCRIBERS, JOBS, WORKERS, HOT = 65_536, 200_000, 64, 64


def lines_of(job):
    """The lines of a job, from 0, and how many vectors they ask for."""
    if job < SUBSCRIBERS:
        own = imsi(job)
        return [f"draw {own} 3", f"give {own} 3", f"give {own} 1"], 3
    hot = imsi(job % HOT)
    return [f"draw {hot} 2", f"sync {hot} {job % 1000} - 1"], 3


def scenario():
    lines, asked = [f"workers {WORKERS}", "round"], 0
    for job in range(JOBS):
        own, count = lines_of(job)
        lines += ["job", *own]
        asked += count
    return "".join(line + "\n" for line in lines), asked


def fault_in(numbers, closings):
    """What is wrong with the numbers of the subscribers' vectors, or nothing."""
    for sub, drawn in numbers.items():
        if max(Counter(drawn).values()) > 1:
            return f"a number of {sub} comes twice"
        if sub not in closings:
            return f"{sub} has no closing line"
    for sub, (first, last, drew, skipped, released, withheld) in closings.items():
        if last != first + drew + skipped or drew != released or withheld or released != len(numbers[sub]):
            return f"the counts of {sub} are wrong"
        if not all(first < number <= last for number in numbers[sub]):
            return f"a number of {sub} is outside its closing line"
    return ""


def judged(output, asked):
    """What is wrong with an output, or nothing, and how many vectors it has."""
    numbers, closings, jobs, vectors = defaultdict(list), {}, 0, 0
    for line in output:
        words = line.split()
        if words[0] == "vector":
            numbers[words[1]].append(int(words[2]))
            vectors += 1
        elif words[0] == "closed":
            closings[words[1]] = [int(word) for word in words[2:]]
        elif words[0] == "job":
            jobs += 1
        elif words[0] == "exhausted":
            return f"{line.strip()} in a round without spent subscribers", vectors
    if jobs != JOBS or vectors != asked:
        return f"{jobs} jobs and {vectors} vectors", vectors
    return fault_in(numbers, closings), vectors


def run(words, asked):
    began = time.monotonic()
    read = lambda lines: judged(io.TextIOWrapper(lines), asked)
    spent, size, status, (fault, vectors) = followed(words, read)
    seconds = time.monotonic() - began
    if status:
        fault = f"status {status}"
    print(f"{seconds:>8.2f} {spent:>10.2f} {size / 2**20:>6.0f} {vectors:>8}  {fault or 'kept'}", flush=True)
    return not fault


def main():
    times = int(sys.argv[2]) if len(sys.argv) > 2 else 20
    rows, (text, asked) = [HEADER, *(",".join([imsi(sub), *KEYS]) for sub in range(SUBSCRIBERS))], scenario()
    with folder_with({"subscribers": "".join(row + "\n" for row in rows), "scenario": text}) as folder:
        print(f"{'seconds':>8} {'processor':>10} {'MB':>6} {'vectors':>8}  rules")
        words = ["run", f"{folder}/scenario", f"{folder}/subscribers"]
        kept = sum(run(words, asked) for _ in range(times))
    print(f"{kept} of {times} runs kept the rules")
    sys.exit(kept != times)


if __name__ == "__main__":
    run_main(main, __doc__)
