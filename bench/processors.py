#!/usr/bin/env python3
"""Compares the program for x86-64-v3 with that for the kit's default processor: processor time, as ratios in one run.

    bench/processors.py [--write] [DEFAULT OTHER] [--rates DEFAULT OTHER]

DEFAULT and OTHER are what `./auc prove` keeps in crates/auc_cli/out/proved, unless they are given. --rates takes the program
auc_vector_rate for both processors and adds its rows: `rt run` in crates/auc_vector_rate builds the first one, and
`rt run --cpu=x86-64-v3` the second one in its place. Each time is the least of fifteen, and the two programs take turns, so the
ratios hold on a busy machine too. Both have to print the same. The times have the calls that sync the journal in them, so
use TMPDIR=/dev/shm, where a sync is free. --write puts the table into docs/USER-GUIDE.md.
"""
import argparse
import datetime
import hashlib
import os
import re
import subprocess
import sys
import tempfile
from pathlib import Path

import sessions
import vectors
from repository import TOP, write_part
from ends import run_main
from trial import folder_with

PART = "bench/processors.py"
PROVED = TOP / "crates/auc_cli/out/proved"
TIMES, MANY, SESSIONS, CHUNK = 15, 1_000_000, 10_000, 1 << 20
LOAD = ["load", "1", "1000", "200000", "1"]


def options():
    parser = argparse.ArgumentParser(description=__doc__, formatter_class=argparse.RawDescriptionHelpFormatter)
    names = ("DEFAULT", "OTHER")
    parser.add_argument("programs", nargs="*", type=Path, metavar="PROGRAM", help="the two programs, that of the default first")
    parser.add_argument("--rates", nargs=2, type=Path, metavar=names, help="the program auc_vector_rate for both")
    parser.add_argument("--write", action="store_true", help="put the table into docs/USER-GUIDE.md")
    given = parser.parse_args()
    given.programs = given.programs or [PROVED / "auc", PROVED / "auc.x86-64-v3"]
    if len(given.programs) != len(names):
        parser.error("give both programs, or none")
    return given


def timed(program, words):
    """The processor seconds of a run in a new folder, and the checksum of what it prints."""
    printed = hashlib.sha256()
    with folder_with() as folder:
        child = subprocess.Popen([program.resolve(), *words], cwd=folder, stdout=subprocess.PIPE)
        for chunk in iter(lambda: child.stdout.read(CHUNK), b""):
            printed.update(chunk)
        _, status, usage = os.wait4(child.pid, 0)
    if status:
        sys.exit(f"{program} {' '.join(words)}: status {os.waitstatus_to_exitcode(status)}")
    return usage.ru_utime + usage.ru_stime, printed.digest()


def ratio(programs, words):
    """The time of the second program to that of the first one."""
    runs = [[timed(it, words) for it in programs] for _ in range(TIMES)]
    if len({printed for pair in runs for _, printed in pair}) > 1:
        sys.exit(f"the two print different lines: {' '.join(words)}")
    first, second = (min(seconds for seconds, _ in side) for side in zip(*runs))
    return second / first


def rows(given, folder):
    """What is run, the two programs, and their words."""
    draws, run = folder / "draws", folder / "sessions"
    draws.write_text(vectors.scenario(MANY, "full"))
    run.write_text(sessions.scenario(sessions.one_device(SESSIONS), 1))
    yield f"`{' '.join(LOAD)}`: {MANY:,} vectors and their digest", given.programs, LOAD
    yield f"{MANY:,} vectors of 100 subscribers in `print full`", given.programs, ["run", str(draws)]
    yield f"{SESSIONS:,} sessions of EAP-AKA at one device", given.programs, ["run", str(run)]
    if given.rates:
        yield f"`auc_vector_rate`: {2 * MANY:,} vectors of one key, 256 at a call", given.rates, [str(2 * MANY), "bulk"]
        yield f"`auc_vector_rate`: {2 * MANY:,} vectors of one key, each alone", given.rates, [str(2 * MANY)]


def processor():
    """The vendor, family and model of this processor."""
    text = Path("/proc/cpuinfo").read_text(encoding="ascii", errors="replace")
    vendor, family, model = (re.search(rf"^{it}\s*: (.*)$", text, re.M)[1] for it in ("vendor_id", "cpu family", "model"))
    return f"{vendor}, family {family}, model {model}"


def main():
    given = options()
    lines = ["| Work | Processor time for x86-64-v3, that of the default being 1 |", "|---|---:|"]
    with tempfile.TemporaryDirectory() as folder:
        lines += [f"| {what} | {ratio(*how):.2f} |" for what, *how in rows(given, Path(folder))]
    lines += ["", f"One worker, the least of {TIMES} runs, on {processor()}; {datetime.date.today()}. `{PART}` measures it.", ""]
    print("\n".join(lines), end="")
    if given.write:
        write_part(TOP / "docs/USER-GUIDE.md", PART, "\n".join(lines))


if __name__ == "__main__":
    run_main(main)
