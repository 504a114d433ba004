#!/usr/bin/env python3
"""Checks that docs/charts has the chart of each example with a session, as tools/chart draws it, and no other.

    docs/charts.py [--program PROGRAM]            checks; prints one line if all is well
    docs/charts.py [--program PROGRAM] --write    draws them anew

PROGRAM is crates/auc_cli/out/auc_cli unless it is given. The exit status is 0 if all is well, 1 if a chart isn't as it
should be, and 3 if PROGRAM isn't there; each such chart gets a line on standard error.
"""
import argparse
import subprocess
import sys
import tempfile
from pathlib import Path

TOP = Path(__file__).resolve().parent.parent
CHARTS = TOP / "docs/charts"
sys.path += [str(TOP / "examples"), str(TOP / "tools")]
from ends import run_main
from full import transcripts
from trial import BUILT, runnable


def drawn(transcript):
    with tempfile.TemporaryDirectory() as folder:
        picture = Path(folder) / "picture"
        subprocess.run([TOP / "tools/chart", "-", "--svg", picture], input=transcript, text=True, check=True)
        return picture.read_text()


def options():
    parser = argparse.ArgumentParser(description=__doc__, formatter_class=argparse.RawDescriptionHelpFormatter)
    parser.add_argument("--program", type=Path, default=BUILT, help="the program to run")
    parser.add_argument("--write", action="store_true", help="draw the charts anew")
    return parser.parse_args()


def main():
    asked = options()
    charts = {CHARTS / f"{name}.svg": drawn(transcript) for name, transcript in transcripts(runnable(asked.program))}
    there = {path: path.read_text() for path in CHARTS.glob("*.svg")}
    if asked.write:
        CHARTS.mkdir(exist_ok=True)
        for path in there.keys() - charts.keys():
            path.unlink()
        for path, picture in charts.items():
            path.write_text(picture)
        there = charts
    wrong = sorted(path.name for path in charts.keys() | there.keys() if charts.get(path) != there.get(path))
    for name in wrong:
        print(f"charts: docs/charts/{name} isn't what tools/chart draws; docs/charts.py --write", file=sys.stderr)
    if not wrong:
        print(f"charts: {len(charts)} are as tools/chart draws them")
    sys.exit(1 if wrong else 0)


if __name__ == "__main__":
    run_main(main)
