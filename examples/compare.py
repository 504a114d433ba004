#!/usr/bin/env python3
"""Runs each scenario and each service of examples/ and compares what the program prints with the file of its expected output.

    examples/compare.py [--program PROGRAM] [--after LINE]

PROGRAM is crates/auc_cli/out/auc_cli, which `rt ci` and `rt run` build, unless it is given. NAME.scenario has
its expected output in NAME.expected, and the exit status must be 0; a scenario over a file of subscribers stands in
the table below. NAME.blocks is the standard input of a service, and NAME.expected has its replies. Each example gets a
line, and the last line is `N passed, M failed`. With --after, LINE is the last line of `rt ci`, and its counts are added;
if LINE has no such counts, that is one failure.

The exit status is 0 if nothing failed, else 1.
"""
import argparse
import os
import re
import subprocess
import sys
from pathlib import Path

HERE = Path(__file__).resolve().parent
sys.path.append(str(HERE.parent / "tools"))
from ends import run_main
from trial import BUILT, difference, ran_in_new_folder

SUBSCRIBERS = {"day": "subscribers.csv"}
SECONDS = 60


def options():
    parser = argparse.ArgumentParser(description=__doc__, formatter_class=argparse.RawDescriptionHelpFormatter)
    parser.add_argument("--program", type=Path, default=BUILT, help="the program to run")
    parser.add_argument("--after", metavar="LINE", help="the last line of rt ci, whose counts are added")
    return parser.parse_args()


def counts_in(line):
    """The counts of a line `N passed, M failed`; one failure if it is no such line."""
    found = re.match(r"(\d+) passed, (\d+) failed", line)
    return (int(found[1]), int(found[2])) if found else (0, 1)


def words_of(path):
    """The words that run an example, from any folder."""
    if path.suffix == ".blocks":
        return ["serve"]
    files = [path.name, *([SUBSCRIBERS[path.stem]] if path.stem in SUBSCRIBERS else [])]
    return ["run", *(str(HERE / file) for file in files)]


def fault_of(path, program):
    """What is wrong with an example; nothing if it is right."""
    expected = path.with_suffix(".expected")
    if not expected.exists():
        return f"there is no {expected.name}"
    try:
        with open(path if path.suffix == ".blocks" else os.devnull, "rb") as heard:
            ran = ran_in_new_folder([program, *words_of(path)], stdin=heard, timeout=SECONDS)
    except OSError as error:
        return f"the program could not be run: {error.strerror}"
    except subprocess.TimeoutExpired:
        return f"the program had not ended after {SECONDS} seconds"
    if ran.returncode != 0:
        return f"status {ran.returncode}"
    if ran.stderr:
        return "something was printed to standard error"
    found = difference(ran.stdout, expected.read_bytes())
    return f"line {found[0]} differs" if found else ""


def stray(names):
    """The expected outputs that no example has."""
    return sorted(path.name for path in HERE.glob("*.expected") if path.stem not in names)


def main():
    given = options()
    if not given.program.exists():
        print(f"examples: {given.program} isn't there; `rt run` in crates/auc_cli proves and builds it", file=sys.stderr)
    examples = sorted([*HERE.glob("*.scenario"), *HERE.glob("*.blocks")])
    passed, failed = counts_in(given.after) if given.after is not None else (0, 0)
    for path in examples:
        fault = fault_of(path, given.program.resolve())
        print(f"examples/{path.name}: {'FAILED: ' + fault if fault else 'as expected'}")
        passed, failed = passed + (not fault), failed + bool(fault)
    for name in stray([path.stem for path in examples]):
        print(f"examples/{name}: FAILED: there is no example for it")
        failed += 1
    print(f"{passed} passed, {failed} failed")
    sys.exit(1 if failed else 0)


if __name__ == "__main__":
    run_main(main)
