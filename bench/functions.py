#!/usr/bin/env python3
"""Measures what each function of a crate costs to prove, in seconds of processor time, and prints the five dearest.

    bench/functions.py [--all] [--jobs N] [NAME ..]

Without NAME each crate of crates.txt is measured. In a temporary clone of the last commit one `rt all check` proves these
crates from nothing, N of them side by side, one a processor without --jobs, and keeps a file for each module that it
checked. The processor time of a crate's prover between one file and the next is put to the function that the module belongs
to. So a crate costs one more proof, and the libraries below it are built first, over what earlier checks on this machine
kept. A module that belongs to no function, such as a definition or a lemma, is in no row. --all prints every function that
takes a second or more.

The exit status is 0, or 1 if a crate isn't proved. It works on Linux alone.
"""
import argparse
import bisect
import os
import re
import subprocess
import sys
import tempfile
from pathlib import Path

from provers import Sampler, need_proc
from repository import TOP, keep_only, uses_of, with_those_below
from ends import run_main

DEAREST = 5


def options():
    parser = argparse.ArgumentParser(description=__doc__, formatter_class=argparse.RawDescriptionHelpFormatter)
    parser.add_argument("names", nargs="*", metavar="NAME", help="a crate")
    parser.add_argument("--jobs", type=int, default=0, help="crates side by side")
    parser.add_argument("--all", action="store_true", help="every function that takes a second or more")
    return parser.parse_args()


def path_of(file, crate):
    """The path that a file of kept work has in its crate, as `words.Words.read.Proof`; nothing for one of another crate."""
    found = re.fullmatch(rf"Rattle-{crate}[.-](?:proofs|specs\.contracts)\.(.+?)(?:\.decls)?\.oantt", file)
    return found[1] if found else None


def functions_in(paths):
    """The paths of the functions, by those of their modules: each function has a module `Code`."""
    return {it.removesuffix(".Code") for it in paths if it and it.endswith(".Code")}


def function_of(path, functions):
    """The function that a module belongs to, without its inner modules; nothing if there is none. A closure, as
    `words.fn.read.all`, belongs to the function that it stands in."""
    parts = path.split(".")
    found = next((it for it in (".".join(parts[:end]) for end in range(len(parts), 0, -1)) if it in functions), None)
    return re.sub(r"(^|\.)fn\.((?:[A-Z][^.]*\.)?[^.]+)\..*", r"\1\2", found) if found else None


def label_of(function):
    """A function's name with its type, as `Words::read`."""
    parts = function.split(".")
    has_type = len(parts) > 1 and not parts[-2][:1].islower()
    return "::".join(parts[-2:] if has_type else parts[-1:])


class Clock:
    """The processor seconds of a prover at each moment, between the samples in proportion."""

    def __init__(self, moments):
        self.times, self.seconds = [it for it, _ in moments], [it for _, it in moments]

    def at(self, moment):
        place = bisect.bisect(self.times, moment)
        if place in (0, len(self.times)):
            return self.seconds[0 if place == 0 else -1]
        begin, end = self.times[place - 1], self.times[place]
        share = (moment - begin) / (end - begin) if end > begin else 0
        return self.seconds[place - 1] + share * (self.seconds[place] - self.seconds[place - 1])


def costs_in(kept, crate, clock):
    """The seconds of each function, by the times of the files that a check kept."""
    files = sorted((it.stat().st_mtime, it.name) for it in kept.rglob("*.oantt"))
    functions = functions_in(path_of(name, crate) for _, name in files)
    costs, before = {}, clock.seconds[0] if clock.seconds else 0
    for moment, name in files:
        now, path = clock.at(moment), path_of(name, crate)
        function = function_of(path, functions) if path else None
        if function:
            costs[function] = costs.get(function, 0) + now - before
        before = now
    return costs


def begin_anew(folder):
    """Has rt check a crate from nothing: with another last line, and with a folder of its own for kept work, rt takes over
    nothing that a check kept elsewhere."""
    root = next(it for it in (folder / "src/main.rt", folder / "src/lib.rt") if it.is_file())
    root.write_bytes(root.read_bytes() + b"// measured\n")
    (folder / "out/incremental").mkdir(parents=True)


def dearest(costs, count=DEAREST):
    """The dearest functions and their seconds."""
    return sorted(costs.items(), key=lambda it: -it[1])[:count]


def measured(names, jobs):
    """Proves crates from nothing: the seconds of each one's functions, or nothing for one that isn't proved."""
    with tempfile.TemporaryDirectory(prefix="auc-functions-") as room:
        clone = Path(room) / "clone"
        subprocess.run(["git", "clone", "-q", TOP, clone], check=True)
        keep_only(clone, with_those_below(names, uses_of(clone)))
        for it in names:
            begin_anew(clone / "crates" / it)
        how = {"stdin": subprocess.DEVNULL, "stdout": subprocess.PIPE, "stderr": subprocess.STDOUT, "text": True}
        child = subprocess.Popen(["rt", "all", "check", "--jobs", str(jobs or os.cpu_count())], cwd=clone, **how)
        with Sampler(child.pid, has_moments=True) as sampler:
            proved = {*re.findall(r"(?m)^(\w+): ok$", child.communicate()[0])}
        clocks = {it: Clock(sampler.moments.get(it, [(0, 0)])) for it in names}
        kept = {it: clone / "crates" / it / "out/incremental" for it in names}
        return {it: costs_in(kept[it], it, clocks[it]) if it in proved else None for it in names}


def main():
    given, uses = options(), uses_of(TOP)
    unknown = [it for it in given.names if it not in uses]
    if unknown:
        print(f"there is no crate {' '.join(unknown)}", file=sys.stderr)
        sys.exit(2)
    need_proc()
    unproved = []
    for crate, costs in measured(given.names or list(uses), given.jobs).items():
        if costs is None:
            unproved.append(crate)
            print(f"{crate}: not proved", file=sys.stderr, flush=True)
            continue
        shown = dearest(costs, len(costs) if given.all else DEAREST)
        for function, seconds in [it for it in shown if it[1] >= 1 or not given.all]:
            print(f"{crate:<16} {label_of(function):<56} {seconds:>7.1f}", flush=True)
    sys.exit(1 if unproved else 0)


if __name__ == "__main__":
    run_main(main)
