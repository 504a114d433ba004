"""Proves and builds the program.

`rt ci` proves each crate that the program stands on and builds the program. What an earlier run on this machine passed isn't
proved again, unless --anew asks for it. It works on a copy of these crates alone, without their must-fail edits: the gate tries
those. The new program is then run at the first test set of TS 35.208, and moved to its place at the very end, so the old one
stays until then.

That program is for the kit's default processor. If this one has more, the program is built for it, too, and kept beside the
first one: tools/launcher/processor.py.
"""
import contextlib
import fcntl
import math
import os
import re
import shutil
import signal
import subprocess
import sys
import tempfile
import time
from dataclasses import dataclass
from pathlib import Path

from . import compiling, costs, processor, sources
from .following import Builder
from .places import CRATE, OUT, TOP, Stopped, say

PROVED = OUT / "proved/auc"
GATES = OUT / "auc_cli"
LOG = OUT / "build.log"
LOCK = OUT / "build.lock"
K, OPC, RAND = "465b5ce8b199b49faa5f0a2ee238a6bc", "cd63cb71954a9f4e48a5994e37a02baf", "23553cbe9637a89d218ae64dae47bf35"
TRIAL = ["vector", K, OPC, RAND, "ff9bb4d0b607", "b9b9"]
# The mode of a folder that any user passes through: as root, rt runs what it built as nobody.
PASSABLE = 0o711


def place_of(cpu):
    """Where the program for a processor is kept. Its name tells which one."""
    return PROVED if cpu == processor.DEFAULT else PROVED.with_name(f"{PROVED.name}.{cpu}")


def cpu_of(program):
    """The processor that a program which was proved here is for. The gate's is for the default."""
    return processor.V3 if program == place_of(processor.V3) else processor.DEFAULT


def built(portable=False):
    """The programs that were proved here, by this script or by the gate, and that run on this processor: first the one for it.
    Those for the default alone, if they are asked for."""
    programs = [it for it in (place_of(processor.V3), PROVED, GATES) if os.access(it, os.X_OK) and it.is_file()]
    cpus = (processor.DEFAULT,) if portable else (processor.DEFAULT, processor.V3)
    return [it for it in programs if cpu_of(it) in cpus and processor.runs(cpu_of(it))]


def current(portable=False):
    """A proved program that no source is newer than; nothing if there is none."""
    return next((it for it in built(portable) if sources.are_older_than(it)), None)


def last(portable=False):
    """The program that was proved last; nothing if there is none."""
    return max(built(portable), key=lambda it: it.stat().st_mtime_ns, default=None)


def need_rt():
    if not shutil.which("rt"):
        raise Stopped("the command rt of the Rattle kit isn't on the PATH, so nothing can be proved or built here")


@contextlib.contextmanager
def leaving_nothing():
    """Has a signal that would end this process at once end it by its own clean-up."""
    for number in (signal.SIGTERM, signal.SIGHUP):
        if signal.getsignal(number) is signal.SIG_DFL:
            signal.signal(number, lambda number, _: sys.exit(128 + number))
    with tempfile.TemporaryDirectory(prefix="auc-prove-") as room:
        os.chmod(room, PASSABLE)
        yield Path(room)


def passable(folder):
    """A new folder that any user passes through."""
    folder.mkdir()
    folder.chmod(PASSABLE)
    return folder


def copy_crates(to):
    """Copies the crates that the program stands on into a repository of their own."""
    to.mkdir()
    names = costs.crates_of_program()
    lines = (TOP / sources.LIST).read_text(encoding="utf-8").splitlines(keepends=True)
    listed = [it for it in lines if re.split(r"[\s:]", it)[0] in names]
    (to / sources.LIST).write_text("".join(listed), encoding="utf-8")
    (to / ".git").mkdir()
    shutil.copy2(TOP / "HANDLES", to)
    for name in names:
        crate = TOP / "crates" / name
        left = {str(crate): {"out", "must-fail"}}
        shutil.copytree(crate, to / "crates" / name, ignore=lambda at, _, left=left: left.get(str(at), ()))


def announce(jobs, choice):
    measured = costs.build(is_for_two=choice.cpu != processor.DEFAULT)
    how = f"{jobs} jobs side by side" if jobs > 1 else "one crate after the other"
    say(
        f"proving and building the program, {how}: {measured.work} minutes of processor time, about {math.ceil(measured.minutes(jobs))}"
        f" by the clock where it was measured, less if some crates are proved; the log is {LOG}"
    )
    say(choice.sentence())


def keep(program, place, began):
    """Moves a copy of a new program to its place, whole. A source that was changed since the beginning makes it an old one."""
    os.utime(program, ns=(began, began))
    beside = place.with_name(f"{place.name}.new")
    shutil.copy2(program, beside)
    os.replace(beside, place)


def passes_trial(program, log):
    try:
        return subprocess.run([program, *TRIAL], stdin=subprocess.DEVNULL, stdout=log, stderr=log).returncode == 0
    except OSError:
        return False


def default_program(given, builder, crate):
    """The program for the default, proved and built in the folder of its crate."""
    made = crate / "out" / CRATE.name
    is_proved = builder.run(["ci", *(["--anew"] if given.anew else [])], given.jobs)
    if is_proved and not made.exists():
        # (the gate of this kit leaves no program)
        builder.run(["run", "--", *TRIAL], given.jobs, crate)
    if not is_proved or not passes_trial(made, builder.log):
        raise Stopped(f"the program was not built; see {LOG}. If the memory ran out, `./auc prove --jobs 1` takes less")
    return made


def program_for(cpu, given, builder, crate):
    """The program for another processor, from what the default one was built from; nothing if it couldn't be built."""
    say(f"now {CRATE.name} is proved once more, and the program compiled for {cpu}")
    made = compiling.built(cpu, crate, builder, min(costs.MOST, given.jobs or costs.jobs_here()))
    if made and passes_trial(made, builder.log):
        return made
    say(f"the program could not be built for {cpu}, so it is that for {processor.DEFAULT}; see {LOG}")
    return None


def prove(given, cpu):
    """Proves and builds. The caller holds the lock."""
    began = time.time_ns()
    with contextlib.ExitStack() as stack:
        room, log = stack.enter_context(leaving_nothing()), stack.enter_context(LOG.open("w", encoding="utf-8"))
        builder = stack.enter_context(Builder(room / "repository", passable(room / "aside"), log))
        copy_crates(builder.folder)
        crate = builder.folder / "crates" / CRATE.name
        keep(default_program(given, builder, crate), PROVED, began)
        other = program_for(cpu, given, builder, crate) if cpu != processor.DEFAULT else None
        if other:
            keep(other, place_of(cpu), began)


@dataclass
class Options:
    """How to build: with so many jobs side by side, whether a crate is proved anew that an earlier run passed, and whether the
    program is that for the default alone."""

    jobs: int = None
    anew: bool = False
    portable: bool = False


def is_there(choice, portable):
    """Whether the program to run here is current, and for the processor that was chosen."""
    found = current(portable)
    return found is not None and cpu_of(found) == choice.cpu


def build(given=Options()):
    """The proved program of the sources at hand. If another call builds it already, this one waits for it."""
    need_rt()
    PROVED.parent.mkdir(parents=True, exist_ok=True)
    with LOCK.open("w") as lock:
        try:
            fcntl.flock(lock, fcntl.LOCK_EX | fcntl.LOCK_NB)
        except BlockingIOError:
            say("another call builds the program; waiting for it")
            fcntl.flock(lock, fcntl.LOCK_EX)
        choice = processor.choice(given.portable)
        if given.anew or not is_there(choice, given.portable):
            announce(given.jobs or costs.jobs_here(), choice)
            prove(given, choice.cpu)
            say("the program is proved and built")
    return current(given.portable) or last(given.portable)
