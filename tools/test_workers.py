#!/usr/bin/env python3
"""Runs the program with several workers, and judges what it prints by rules that hold for every interleaving.

    tools/test_workers.py [PROGRAM]      PROGRAM: crates/auc_cli/out/auc_cli, unless it is given

The exit status is 0 only if each rule holds.
"""
import sys
from pathlib import Path

from ends import run_main
from trial import K, OPC, ran_in_new_folder

TOP = Path(__file__).resolve().parent.parent
A = "001010000000001"
KEYS = f"{K} opc {OPC} 8000"


def printed(program, *words, scenario=None):
    """The lines that the program prints, each as its words."""
    files = {"scenario": "".join(line + "\n" for line in scenario or [])}
    done = ran_in_new_folder([program, *words], files, text=True, timeout=120)
    assert done.returncode == 0 and not done.stderr, (words, done.returncode, done.stderr)
    return [line.split() for line in done.stdout.splitlines()]


def last_number(program):
    """Eight jobs ask for three vectors each of a subscriber that has one number left: one job gets it, each job is told that
    the subscriber is exhausted, and at most one mark a worker is left above the greatest number."""
    lines = printed(program, "run", "scenario", scenario=[
        "workers 4", f"subscriber {A} {KEYS} 8796093022206 0", "round", *["job", f"draw {A} 3"] * 8])
    words = [line[0] for line in lines]
    first, last, drawn, skipped, released, withheld = (int(word) for word in lines[-1][2:])
    assert words.count("vector") == 1 and words.count("exhausted") == 8, lines
    assert all(lines[at - 1][0] == "exhausted" for at, word in enumerate(words) if word in ("job", "closed") and at > 1), lines
    assert (first, skipped, released, withheld) == (8796093022206, 0, 1, 0) and last == first + drawn and drawn <= 5, lines


def one_subscriber(program):
    """A thousand jobs draw five vectors each for one subscriber, and two resynchronise it: each number comes once."""
    lines = printed(program, "run", "scenario", scenario=[
        "workers 4", f"subscriber {A} {KEYS} 10 0", "round", *["job", f"draw {A} 5"] * 500, "job", f"sync {A} 5 - 0",
        *["job", f"draw {A} 5"] * 500, "job", f"sync {A} 5 - 0"])
    numbers = [int(line[2]) for line in lines if line[0] == "vector"]
    found = [line[2:] for line in lines if line[0] == "sync"]
    assert sorted(numbers) == list(range(11, 5011)), numbers
    assert len(found) == 2 and all(it[0] == "inrange" and 10 <= int(it[1]) <= 5010 and it[2] == "5" for it in found), found
    assert lines[-1] == ["closed", A, "10", "5010", "5000", "0", "5000", "0"], lines[-1]


def load(program):
    """A load's lines are the same at each run and, but for the line of the workers, for each number of workers."""
    for workers in (1, 8, 8, 64):
        lines = printed(program, "load", "7", "1000", "20000", str(workers))
        assert lines[:4] == [["subscribers", "1000"], ["jobs", "20000"], ["workers", str(workers)], ["vectors", "100000"]], lines
        # Python's hashlib over vectors of an implementation of its own.
        assert lines[4:] == [["sha256", DIGEST]], lines


DIGEST = "ea30fd7c1e0ac0478e7465270cb1ba5c55ae6dc920e027ae85b2005dc371d520"


def main():
    program = str(Path(sys.argv[1] if len(sys.argv) > 1 else TOP / "crates/auc_cli/out/auc_cli").resolve())
    for rule in last_number, one_subscriber, load:
        rule(program)
    print("workers: each rule holds")


if __name__ == "__main__":
    run_main(main, __doc__)
