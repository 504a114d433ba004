#!/usr/bin/env python3
"""Tries must-fail edits, those of the gate (crates/NAME/must-fail) and the others (edits/NAME): the prover has to refuse
each of them.

    bench/edits.py [--jobs N] [--write] [--alone] [--anew] [--here] [--missing] [NAME ..]
    bench/edits.py --released
    bench/edits.py --applies

Without NAME all edits of all crates are tried. It works in temporary clones of the last commit. First one `rt all check`
proves the crates, and those below them, over what earlier checks on this machine kept. Then edits that change the bodies of
different functions of a crate are tried together, in one check that tells of each function whether it is still proved
(bench/batches.py), and one `rt must-fail` a crate tries the others one by one, crates side by side. --alone tries each one by
one. A line says of each edit what its try came to, its seconds of processor time (of a check of many, its share), and what
the prover told. An edit that an earlier `rt must-fail` tried on the same files is kept by rt, and isn't tried again; --anew
tries it too. --here begins with what `rt check` kept in this checkout, and checks only the crates that are tried and not
those below them. --missing tries the edits that --released lists, and no others of their crates. --jobs says how many provers
work side by side: RT_JOBS, or else one a processor, as far as each finds 5 GB of memory.

--write keeps what was seen in docs/EDITS.md, crate by crate as each ends. It leaves the rows of crates that weren't tried,
drops those of edits that are gone, and has `not tried` for new ones.

--released tries nothing: it lists the edits that docs/EDITS.md doesn't show as refused on the files as they are. A release
needs all of them.

--applies tries nothing: it tests that each edit can be applied to the files as they are, which takes no time. It also
refuses two edits of one name, a crate with a public function and without an edit, and fewer edits than there were. The
gate calls it so, since rt ci passes an edit that can't be applied.

The exit status is 0 if all is well, 1 if an edit was not refused or could not be applied, read or tried, and 2 if there is
no such crate.
"""
import argparse
import os
import queue
import re
import resource
import shutil
import subprocess
import sys
import tempfile
import threading
import time
from concurrent.futures import ThreadPoolExecutor
from pathlib import Path

import batches
import provers
import verdicts
from repository import TOP, files_of, keep_only, uses_of, version_of, with_those_below
from ends import run_main

MEMORY = 5_000_000_000


def options():
    parser = argparse.ArgumentParser(description=__doc__, formatter_class=argparse.RawDescriptionHelpFormatter)
    parser.add_argument("names", nargs="*", metavar="NAME", help="a crate")
    parser.add_argument("--jobs", type=int, default=0, help="provers side by side")
    parser.add_argument("--write", action="store_true", help="keep what was seen in docs/EDITS.md")
    parser.add_argument("--alone", action="store_true", help="try no edits together")
    parser.add_argument("--anew", action="store_true", help="also try what an earlier run tried")
    parser.add_argument("--here", action="store_true", help="begin with what rt check kept in this checkout")
    parser.add_argument("--missing", action="store_true", help="only the edits that --released lists")
    parser.add_argument("--released", action="store_true", help="only compare docs/EDITS.md with the files")
    parser.add_argument("--applies", action="store_true", help="only test that each edit can be applied")
    return parser.parse_args()


# ---- what needs no prover


def pairs_of(text):
    """The changes of an edit: the file, the text that must stand there once, and the text that replaces it."""
    path = old = None
    for line in text.splitlines():
        if line.startswith("file: "):
            path = line[len("file: "):].strip()
        elif line.startswith("old: "):
            old = line[len("old: "):]
        elif line.startswith("new:") and path and old:
            yield path, old, line[len("new:"):].removeprefix(" ")
            old = None


def why_not(crate, edit):
    """Why an edit can't be applied to its crate; nothing if it can."""
    texts, changed = {}, False
    for path, old, new in pairs_of(edit.read_text()):
        if path not in texts:
            if not (crate / path).is_file():
                return f"there is no file {path}"
            texts[path] = (crate / path).read_text()
        count = texts[path].count(old)
        if count != 1:
            return f"an 'old:' text is in {path} {count} times, and not once"
        texts[path], changed = texts[path].replace(old, new), changed or old != new
    return "" if changed else "it changes nothing"


def has_public_function(crate):
    """Whether a crate is a library with a public function; a program or a crate of tests has none."""
    sources = [it for it in (TOP / "crates" / crate / "src").rglob("*.rt") if it.name != "tests.rt"]
    if any(it.name == "main.rt" for it in sources):
        return False
    return any(re.search(r"(?m)^\s*pub (const )?(unsafe )?fn ", it.read_text()) for it in sources)


def faults_of(edits):
    """What is wrong with the edits of the repository as they stand."""
    for crate in sorted(uses_of(TOP)):
        of_crate = edits.get(crate, [])
        names = [it.name for it in of_crate]
        if not names and has_public_function(crate):
            yield f"{crate} has no edit"
        for name in sorted({it for it in names if names.count(it) > 1}):
            yield f"{crate} has two edits of the name {name}"
        for edit in of_crate:
            why = why_not(TOP / "crates" / crate, edit.path)
            if why:
                yield f"{edit.path.relative_to(TOP)}: {why}"
    count = sum(map(len, edits.values()))
    if count < verdicts.FEWEST:
        yield f"there are {count} edits, and there were {verdicts.FEWEST}"


def test_that_all_apply():
    """Prints each fault of the edits as they stand, and ends the script."""
    edits = verdicts.all_edits(TOP)
    faults = list(faults_of(edits))
    for it in faults:
        print(f"edits: {it}", file=sys.stderr)
    if not faults:
        print(f"edits: each of {sum(map(len, edits.values()))} can be applied")
    sys.exit(1 if faults else 0)


def test_that_all_are_refused():
    """Prints each edit that the table doesn't show as refused on these files, and ends the script."""
    lacking, edits = verdicts.lacking(TOP), verdicts.all_edits(TOP)
    for crate, whys in lacking.items():
        if len(whys) == len(edits[crate]) and len({*whys.values()}) == 1:
            print(f"{crate}: all {len(whys)} edits: {next(iter(whys.values()))}")
        else:
            for name, why in whys.items():
                print(f"{crate}/{name}: {why}")
    count = sum(map(len, lacking.values()))
    print(f"{sum(map(len, edits.values())) - count} edits are refused on these files, {count} aren't shown to be")
    sys.exit(1 if count else 0)


# ---- the tries


def default_jobs():
    """How many provers may work side by side: one a processor, as far as the free memory holds them."""
    if os.environ.get("RT_JOBS", "").isdigit():
        return max(1, int(os.environ["RT_JOBS"]))
    free = re.search(r"MemAvailable:\s+(\d+)", Path("/proc/meminfo").read_text())
    return max(1, min(len(os.sched_getaffinity(0)), 1024 * int(free[1]) // MEMORY))


def prove(clone, jobs):
    """Proves the crates of a clone: the names of those that aren't proved, and the end of what rt said."""
    how = {"stdin": subprocess.DEVNULL, "stdout": subprocess.PIPE, "stderr": subprocess.STDOUT, "errors": "replace"}
    said = subprocess.run(["rt", "all", "check", "--jobs", str(jobs)], cwd=clone, check=False, **how).stdout
    proved = {*re.findall(r"(?m)^(\w+): ok$", said)}
    return {it.name for it in (clone / "crates").iterdir()} - proved, "\n".join(said.splitlines()[-20:])


def prove_over_what_is_here(clone, names):
    """Proves these crates of a clone over what `rt check` and its builds of libraries kept in this checkout: the names of
    those that aren't proved, and the end of what rt said of them."""
    unproved, told = set(), []
    for name in with_those_below(names, uses_of(clone)):
        for part in ("rlib", "incremental") if name in names else ("rlib",):
            kept, there = (top / "crates" / name / "out" / part for top in (TOP, clone))
            if kept.is_dir() and not there.exists():
                shutil.copytree(kept, there)
    for name in names:
        how = {"stdin": subprocess.DEVNULL, "stdout": subprocess.PIPE, "stderr": subprocess.STDOUT, "errors": "replace"}
        said = subprocess.run(["rt", "check"], cwd=clone / "crates" / name, check=False, **how).stdout
        if not re.search(r"(?m)^logic=proved ", said):
            unproved.add(name)
            told += said.splitlines()[-20:]
    return unproved, "\n".join(told)


class Trial:
    """The tries of one run, over a clone whose crates are proved."""

    def __init__(self, clone, given, names):
        self.clone, self.given, self.names = clone, given, names
        self.uses, self.version = uses_of(clone), version_of(clone)
        self.edits = {it: verdicts.edits_of(clone, it) for it in names}
        if given.missing:
            lacking = verdicts.lacking(TOP)
            self.edits = {it: [edit for edit in edits if edit.name in lacking[it]] for it, edits in self.edits.items()}
        self.sums = {it: verdicts.files_sum(clone, it, self.uses) for it in names}
        self.sections, self.last_run = verdicts.read_page(TOP)
        self.counts, self.lock, self.sampler = [], threading.Lock(), provers.Sampler(os.getpid())
        self.lanes = queue.SimpleQueue()

    def cost(self, crate):
        """About what the edits of a crate cost, to begin with the dearest."""
        return len(self.edits[crate]) * sum(it.stat().st_size for it in files_of(self.clone, crate))

    def try_all(self):
        """Tries the edits of all crates, crates side by side."""
        for number in range(0 if self.given.alone else self.given.jobs):
            self.lanes.put(batches.Lane(self.clone, self.clone.with_name(f"lane{number}")))
        lanes = max(1, self.given.jobs // len(self.names))
        with self.sampler, ThreadPoolExecutor(self.given.jobs) as pool:
            dearest_first = sorted(self.names, key=self.cost, reverse=True)
            for ended in [pool.submit(self.try_crate, it, lanes) for it in dearest_first]:
                ended.result()

    def try_together(self, crate):
        """Tries the edits of a crate that can be tried together: the seconds of each that is refused, by its name."""
        found, places, folder = {}, {}, self.clone / "crates" / crate
        paths = {it.name: it.path for it in self.edits[crate]}
        for name, path in paths.items():
            place = batches.changed_function(folder, list(pairs_of(path.read_text())))
            if place:
                places[name] = place
        lane = self.lanes.get()
        for batch in batches.in_batches(places):
            refused, seconds = lane.try_batch(crate, batch, lambda it: pairs_of(paths[it].read_text()))
            found |= dict.fromkeys(refused, seconds / len(batch))
        self.lanes.put(lane)
        return found

    def try_alone(self, crate, left, lanes):
        """Tries these edits of a crate one by one: what rt said, and the minutes of processor time."""
        texts, folder = {it.path.name: it.path.read_bytes() for it in left}, verdicts.folder_of(self.clone, crate, True)
        shutil.rmtree(folder, ignore_errors=True)
        folder.mkdir()
        for name, text in texts.items():
            (folder / name).write_bytes(text)
        words = ["rt", "must-fail", crate, *(["--anew"] if self.given.anew else [])]
        how = {"stdin": subprocess.DEVNULL, "stdout": subprocess.PIPE, "stderr": subprocess.STDOUT, "errors": "replace"}
        child = subprocess.Popen(words, cwd=self.clone, env={**os.environ, "RT_JOBS": str(lanes)}, **how)
        said = child.stdout.read()
        _, status, usage = os.wait4(child.pid, 0)
        child.returncode = os.waitstatus_to_exitcode(status)
        return said, (usage.ru_utime + usage.ru_stime) / 60

    def try_crate(self, crate, lanes):
        """Tries the edits of a crate and gives what was seen."""
        together = {} if self.given.alone else self.try_together(crate)
        left = [it for it in self.edits[crate] if it.name not in together]
        said, minutes = self.try_alone(crate, left, lanes) if left else ("", 0)
        shutil.rmtree(self.clone / "crates" / crate / "out/incremental", ignore_errors=True)
        with self.lock:
            self.tell(crate, said, minutes + sum(together.values()) / 60, together, left)

    def seconds_of(self, crate, left):
        """The processor seconds of each edit that was tried alone and that a prover was seen at, by its name."""
        found = {}
        for work, seconds in self.sampler.seconds().items():
            number = 0 if len(left) == 1 else work.number
            if work.crate == crate and work.kind == "edits" and number is not None:
                found[left[number].name] = f"{seconds:.0f}"
        return found

    def tell(self, crate, said, minutes, together, left):
        """Prints what the tries of a crate came to, and puts it into the page."""
        lines = {it[1]: it[0] for it in re.findall(r"(?m)^(rt: must-fail \w+/([\w.-]+)\.edit: .*)$", said)}
        lines |= {it: "refused, as it must be: a goal of its own function is open" for it in together}
        seconds = {it: f"{much:.0f}" for it, much in together.items()} | self.seconds_of(crate, left)
        was = self.sections.get(crate, verdicts.Section())
        # (what an earlier run saw on the same files stays)
        rows = dict(was.rows) if was.files == self.sums[crate] else {}
        for edit in self.edits[crate]:
            old = was.rows.get(edit.name, verdicts.Row(""))
            row = verdicts.Row(edit.stands, verdicts.verdict_in(lines.get(edit.name, "")), text=edit.text)
            row.refused_at = self.version if row.is_refused() else old.refused_at
            row.seconds, rows[edit.name] = seconds.get(edit.name, old.seconds), row
            why = lines.get(edit.name, "").partition("as it must be: ")[2][:100]
            shown = f"{crate:<15} {edit.name:<62} {seconds.get(edit.name, 'kept'):>4}   {row.verdict}"
            print(f"{shown}: {why}" if why else shown, flush=True)
        refused = sum(rows[it.name].is_refused() for it in self.edits[crate])
        self.counts.append((refused, len(self.edits[crate]) - refused))
        if refused < len(self.edits[crate]):
            print(said, file=sys.stderr, flush=True)
        moment, took = time.strftime("%Y-%m-%d %H:%M"), f"{minutes:.1f}"
        if not seconds and was.files == self.sums[crate]:
            # (rt had all of them from that run)
            moment, took = was.moment, was.minutes
        self.sections[crate] = verdicts.Section(self.sums[crate], self.version, moment, took, rows)
        if self.given.write:
            verdicts.write_page(TOP, self.sections, self.last_run)

    def end(self, began, without):
        """Says what the run came to and how long it took, and puts that into the page."""
        refused, others = (sum(it[place] for it in self.counts) for place in (0, 1))
        usage = resource.getrusage(resource.RUSAGE_CHILDREN)
        minutes, wall = (usage.ru_utime + usage.ru_stime) / 60, (time.monotonic() - began) / 60
        crates = f"{len(self.names)} crates" if len(self.names) > 3 else ", ".join(f"`{it}`" for it in self.names)
        took = f"{minutes:.0f} minutes of processor time with the proofs, {wall:.0f} by the clock "
        took += f"on {os.cpu_count()} processors"
        self.last_run = (
            f"The last run ended on {time.strftime('%Y-%m-%d %H:%M')}: {refused} edits refused and {others} not, "
            f"of {crates}, at version {self.version}, in {took}."
        )
        if self.given.write:
            verdicts.write_page(TOP, self.sections, self.last_run)
        print(f"{refused} refused, {others} not{f', {without} crates not proved' if without else ''}, in {took}")
        return 1 if others or without else 0


def names_to_try(given):
    """The crates to try, or the end of the script if there is no such crate, or none to try."""
    every = verdicts.all_edits(TOP)
    unknown = [it for it in given.names if it not in every]
    if unknown:
        print(f"there are no edits of {' '.join(unknown)}", file=sys.stderr)
        sys.exit(2)
    names = given.names or list(every)
    if given.missing:
        lacking = verdicts.lacking(TOP)
        names = [it for it in names if it in lacking]
    if not names:
        print("all edits are refused on these files")
        sys.exit(0)
    return names


def try_in(clone, names, given, began):
    """Proves the crates in a clone and tries their edits: the exit status."""
    keep_only(clone, with_those_below(names, uses_of(clone)))
    unproved, said = prove_over_what_is_here(clone, names) if given.here else prove(clone, given.jobs)
    lost = [it for it in names if it in unproved]
    if unproved:
        print(f"{said}\nnot proved as they stand, so their edits were not tried: {' '.join(lost)}", file=sys.stderr)
    names = [it for it in names if it not in unproved]
    if not names:
        return 1
    trial = Trial(clone, given, names)
    trial.try_all()
    return trial.end(began, len(lost))


def main():
    given = options()
    if given.applies:
        test_that_all_apply()
    if given.released:
        test_that_all_are_refused()
    names = names_to_try(given)
    if shutil.which("rt") is None:
        sys.exit("the command rt of the Rattle kit isn't on the PATH")
    provers.need_proc()
    given.jobs, began = given.jobs if given.jobs > 0 else default_jobs(), time.monotonic()
    with tempfile.TemporaryDirectory(prefix="auc-edits-") as folder:
        clone = Path(folder) / "clone"
        subprocess.run(["git", "clone", "-q", TOP, clone], check=True)
        status = try_in(clone, names, given, began)
    sys.exit(status)


if __name__ == "__main__":
    run_main(main)
