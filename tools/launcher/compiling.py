"""Proves and compiles the program for another processor than the kit's default.

crates.txt has no word for a processor, and `rt ci` builds for the default. So rattle itself is called, with the words that rt
has for it and with `--cpu`, over the libraries that an `rt ci` left: it proves the program's crate once more, and the last line
of that proof names the processor. Libraries hold no compiled code, so the whole program is compiled for it. Such a program
looks at the processor first, and ends with status 127 if that lacks a feature.
"""
import os
import re
import subprocess
from pathlib import Path

from . import costs

TARGET = "x86_64-unknown-linux-gnu"
# The last line of a proof that leaves out nothing, as rt ci wants it of a crate without functions in C.
VERDICT = re.compile(
    r"logic=proved (?:(?:functions|axioms|target|threads|main|may-wait|sum)=\S+ |cpu=(\S+) )+"
    r"native=nat,char,string logic-built=trusted libraries-built=trusted(?: statements=trusted)?"
)


def output(*words):
    """What a command prints; nothing if it can't be called or fails."""
    try:
        done = subprocess.run(words, stdin=subprocess.DEVNULL, stdout=subprocess.PIPE, stderr=subprocess.DEVNULL)
    except OSError:
        return ""
    return done.stdout.decode(errors="replace") if done.returncode == 0 else ""


def kit():
    """The folder of the kit: rt tells the path of its first page. Nothing if it doesn't."""
    page = Path(output("rt", "doc").strip())
    return page.parent if page.is_absolute() else None


def can_build_for(cpu):
    """Whether the kit's rattle knows that processor."""
    folder = kit()
    return folder is not None and f"`{cpu}`" in output(folder / "bin/rattle", "build", "--help")


def libraries(folder):
    """The words that name the libraries of the program's crate, from its folder, and where those below them lie."""
    used, own = costs.uses()[costs.PROGRAM], costs.crates_of_program()[:-1]
    places = {it: f"../{it}/out/rlib" if it in own else f"{folder}/rlibs" for it in ("std", *used)}
    for name, place in places.items():
        yield from ("--extern", f"{name}={place}/{name}.rlib")
    for place in (f"{folder}/rlibs", *(f"../{it}/out/rlib" for it in own)):
        yield from ("-L", f"dependency={place}")


def to_prove(folder, cpu, jobs):
    """The command that proves the program's crate, in its folder, and compiles it."""
    words = [f"{folder}/bin/rattle", "build", "--crate-name", costs.PROGRAM, "src/main.rt", *libraries(folder)]
    words += ["--antt-project", f"{folder}/rattle/logic/antt-project.json", "--logic-built", f"{folder}/logic_built"]
    words += ["--toolchain", f"{folder}/toolchain", "--backend", "llvm", "--links", f"{costs.PROGRAM}="]
    return [*words, f"--cpu={cpu}", "--jobs", str(jobs), "-o", f"out/{cpu}.o"]


def to_link(folder, cpu):
    """The command that links it."""
    words = [f"{folder}/bin/rattle-link", "--target", TARGET, "--toolchain", f"{folder}/toolchain", "-o", f"out/{cpu}"]
    return [*words, f"out/{cpu}.o", f"{folder}/c/libos_c.a", f"{folder}/c/liblibc_c.a"]


def is_proved(lines, cpu):
    """Whether the last verdict in these lines is that of a program for that processor."""
    found = VERDICT.fullmatch(next((it for it in reversed(lines) if it.startswith("logic=")), ""))
    return found is not None and found[1] == cpu


def built(cpu, crate, builder, jobs):
    """The program for that processor, built in the folder of its crate; nothing if it couldn't be."""
    folder = kit()
    is_built, lines = builder.followed(to_prove(folder, cpu, jobs), folder=crate)
    if not is_built or not is_proved(lines, cpu):
        return None
    is_linked, _ = builder.followed(to_link(folder, cpu), folder=crate)
    return crate / "out" / cpu if is_linked and os.access(crate / "out" / cpu, os.X_OK) else None
