#!/usr/bin/env python3
"""Runs the gate from nothing, and makes a table of what each crate's proof, its tests, the seed of its must-fail edits and
the edits cost in minutes of processor time, and of its five dearest functions.

    bench/gate.py [--write] [--functions] [--log FILE] [-- COMMAND ..]
    bench/gate.py --functions-alone [--write]

COMMAND is `rt ci --anew`, unless it is given; it runs at the top of the repository. Every fifth of a second the
processor time of each prover that it started is read from /proc and put to the crate that it works on, so a prover's
last fifth of a second is lost. What no prover used is the row before the last: compilers, the tests and programs
themselves, and rt. The sum is the processor time of the whole command, as the system counts it. --log says where the
command's output goes; otherwise it goes to standard error.

--functions proves each crate once more after that, in a temporary clone of the last commit, crates side by side, to see
what each function costs: rt ci keeps nothing that tells it. So it takes the processor time of all proofs again. --functions-alone
does only that, for the table that stands in CONTRIBUTING.md.

--write puts the table into CONTRIBUTING.md, between its marks.

The exit status is that of COMMAND; if that is 0, it is 1 if a function takes above 20 seconds or a crate above 6 minutes
and DEAR has no reason for it, or if a crate was not proved once more. It works on Linux alone.
"""
import argparse
import os
import re
import subprocess
import sys
import time
from pathlib import Path

import functions
from provers import Sampler, need_proc
from repository import TOP, part_of, version_of, write_part
from ends import run_main

KINDS = ("proof", "tests", "seed", "edits")
TABLE = "bench/gate.py"
MOST_SECONDS, MOST_MINUTES = 20, 6
ABOVE = "\nAbove the limits, with the reason:\n\n"
# What may be dearer, with its reason: a crate, or a function as `auc_peer::Peer::on_bytes`.
DEAR = {
    "auc_run": "the two calls that `main` makes stand in it. It is proved a second time as the seed of its five must-fail edits, "
    "which stay in the gate since each of them turns what a call of `main` says",
    "auc_server": "an end of a session is one layer. Its must-fail edit, a server that gives every session up, stays in the gate "
    "and costs a second proof",
    "auc_peer": "an end of a session is one layer. Its two must-fail edits, a MAC that isn't compared and a Success that comes too "
    "early, stay in the gate and cost a second proof",
    "auc_jobs": "serving a round is one layer. It has no tests and no edit in the gate, so this is its proof alone",
    "auc_cli::main": "it makes both calls of the program, each with all its clauses, and lends them what owns memory",
    "auc_run::serve_next": "it hears a block and answers it, in five arms, each with the nine clauses of its step",
    "auc_sim::run_session": "the network of a session, which owns memory, is alive at each of its early returns",
    "auc_subs::read_row": "it returns early for each of nine fields, and its one clause tells the first fault of all",
    "auc_tables::encrypted": "a program of tests makes attributes in both ways here, and they own memory at each early return",
    "auc_server::Server::plan_row": "it has an arm for each of the table's 18 rows, and five clauses in each",
}


def options():
    parser = argparse.ArgumentParser(description=__doc__, formatter_class=argparse.RawDescriptionHelpFormatter)
    parser.add_argument("--write", action="store_true", help="put the table into its page")
    parser.add_argument("--functions", action="store_true", help="prove each crate once more for its dearest functions")
    parser.add_argument("--functions-alone", action="store_true", help="only that, for the table that stands")
    parser.add_argument("--log", type=Path, help="where the command's output goes")
    parser.add_argument("command", nargs="*", default=["rt", "ci", "--anew"])
    return parser.parse_args()


class Costs:
    """What a run cost: the minutes of each crate's parts, and of all; the seconds of each function of a crate."""

    def __init__(self, works, whole, wall):
        self.minutes, self.whole, self.wall, self.functions = {}, whole, wall, {}
        for work, seconds in works.items():
            row = self.minutes.setdefault(work.crate, dict.fromkeys(KINDS, 0))
            row[work.kind] += seconds / 60

    def of(self, crate):
        """The minutes of a crate with everything."""
        return sum(self.minutes[crate].values())

    def too_dear(self):
        """The crates and functions above their limit, each with how much it takes."""
        for crate in sorted(self.minutes, key=lambda it: -self.of(it)):
            if self.of(crate) > MOST_MINUTES:
                yield crate, f"{self.of(crate):.1f} minutes"
        for crate, costs in self.functions.items():
            for function, seconds in functions.dearest(costs or {}):
                if seconds > MOST_SECONDS:
                    yield f"{crate}::{functions.label_of(function)}", f"{seconds:.0f} seconds"


# ---- the table


def table(costs):
    """The table, the dearest crate first."""
    sums = [sum(row[kind] for row in costs.minutes.values()) for kind in KINDS]
    lines = ["| Crate | Proof | Tests | Seed | Edits | Together | Dearest functions, in seconds |"]
    lines.append("|---|---:|---:|---:|---:|---:|---|")
    for crate in sorted(costs.minutes, key=lambda it: -costs.of(it)):
        cells = " | ".join(f"{costs.minutes[crate][it]:.1f}" for it in KINDS)
        lines.append(f"| `{crate}` | {cells} | {costs.of(crate):.1f} | {dearest_of(costs, crate)} |")
    lines.append(f"| compilers, runs of tests and programs, rt | | | | | {max(0, costs.whole - sum(sums)):.1f} | |")
    lines.append(f"| all | {' | '.join(f'{it:.1f}' for it in sums)} | {costs.whole:.1f} | |")
    return "\n".join(lines) + f"\n\n{said_below(costs)}"


def dearest_of(costs, crate):
    """The dearest functions of a crate, as its row has them."""
    dear = functions.dearest(costs.functions.get(crate) or {})
    return ", ".join(f"`{functions.label_of(it)}` {seconds:.0f}" for it, seconds in dear if seconds >= 1)


def said_below(costs):
    """The lines below the table: of what it is, and what may be dearer than the limits."""
    text = f"In minutes of processor time, of version {version_of(TOP)}, all from nothing in one run, which took "
    return text + f"{costs.wall:.0f} minutes on {os.cpu_count()} processors.\n" + reasons(costs)


def reasons(costs):
    """The lines that say why a crate or a function is dearer than the limits."""
    dear = [f"- `{name}` takes {much}: {DEAR[name]}\n" for name, much in costs.too_dear() if name in DEAR]
    return ABOVE + "".join(dear) if dear else ""


# ---- the functions of a table that stands


def costs_in(text):
    """What the rows of a table say that each crate costs, with everything."""
    costs = Costs({}, 0, 0)
    for crate, minutes in re.findall(r"(?m)^\| `(\w+)` \|(?: [\d.]+ \|){4} ([\d.]+) \|", text):
        costs.minutes[crate] = {"together": float(minutes)}
    return costs


def with_functions(text, costs):
    """A table with the dearest functions in its last column, and with the reasons below it."""
    lines = []
    for line in text.partition(ABOVE)[0].splitlines():
        found = re.match(r"\| `(\w+)` \|", line)
        lines.append(f"{line.rpartition(' | ')[0]} | {dearest_of(costs, found[1])} |" if found else line)
    return "\n".join(lines) + "\n" + reasons(costs)


def measure_functions(is_kept):
    """Measures the functions for the table that stands: the exit status."""
    text = part_of(TOP / "CONTRIBUTING.md", TABLE)[1]
    costs = costs_in(text)
    costs.functions = functions.measured(sorted(costs.minutes), 0)
    text = with_functions(text, costs)
    print(text, end="")
    if is_kept:
        write_part(TOP / "CONTRIBUTING.md", TABLE, text)
    return status_of(costs)


# ---- the run


def measured(command, log):
    """Runs a command: its exit status and what it cost."""
    began = time.monotonic()
    child = subprocess.Popen(command, cwd=TOP, stdin=subprocess.DEVNULL, stdout=log, stderr=log)
    with Sampler(child.pid) as sampler:
        _, status, usage = os.wait4(child.pid, 0)
    child.returncode = os.waitstatus_to_exitcode(status)
    whole, wall = (usage.ru_utime + usage.ru_stime) / 60, (time.monotonic() - began) / 60
    return child.returncode, Costs(sampler.seconds(), whole, wall)


def status_of(costs):
    """Tells what is too dear without a reason, and which crate wasn't proved once more: 1 if there is one, and else 0."""
    faults = [f"{name} takes {much}" for name, much in costs.too_dear() if name not in DEAR]
    faults += [f"{crate} was not proved once more" for crate, found in costs.functions.items() if found is None]
    for it in faults:
        print(f"gate: {it}", file=sys.stderr)
    return 1 if faults else 0


def main():
    given = options()
    need_proc()
    if given.functions_alone:
        sys.exit(measure_functions(given.write))
    log = given.log.open("w") if given.log else sys.stderr
    try:
        status, costs = measured(given.command, log)
    except OSError as error:
        sys.exit(f"{given.command[0]} could not be run: {error.strerror}")
    if given.functions and status == 0:
        costs.functions = functions.measured(sorted(costs.minutes), 0)
    text = table(costs)
    print(text, end="")
    if given.write and status == 0:
        write_part(TOP / "CONTRIBUTING.md", TABLE, text)
    sys.exit(status or status_of(costs))


if __name__ == "__main__":
    run_main(main)
