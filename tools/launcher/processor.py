"""For which processor the program is built: for x86-64-v3, if this one has it and the kit can, and else for the kit's default.

The names are those of the x86-64 psABI, which the kit takes. x86-64-v3 is AVX2 and its neighbours. A machine has it if
/proc/cpuinfo lists each feature for each of its processors.
"""
import re
from pathlib import Path
from typing import NamedTuple

from . import compiling

DEFAULT, V3 = "x86-64-v2", "x86-64-v3"
CPUINFO = Path("/proc/cpuinfo")
# What x86-64-v3 adds, as Linux names it. LZCNT is a part of abm.
FEATURES = ("abm", "avx", "avx2", "bmi1", "bmi2", "f16c", "fma", "movbe", "xsave")


class Choice(NamedTuple):
    """A processor to build for, and why."""

    cpu: str
    why: str

    def sentence(self):
        return f"the program is built for {self.cpu}{', the default' if self.cpu == DEFAULT else ''}: {self.why}"


def lacking():
    """What of x86-64-v3 this machine lacks; nothing if the system doesn't tell."""
    try:
        lines = re.findall(r"^flags\s*:(.*)$", CPUINFO.read_text(encoding="ascii", errors="replace"), re.M)
    except OSError:
        lines = []
    found = [{*line.replace("lzcnt", "abm").split()} for line in lines]
    return [it for it in FEATURES if not all(it in flags for flags in found)] if found else None


def runs(cpu):
    """Whether a program for that processor runs here."""
    return cpu == DEFAULT or lacking() == []


def choice(portable):
    """The processor to build for; the default if that is asked for."""
    lost = lacking()
    if portable:
        return Choice(DEFAULT, "--portable asks for it")
    if lost is None:
        return Choice(DEFAULT, "the system doesn't tell what this processor has")
    if lost:
        return Choice(DEFAULT, f"this processor lacks {', '.join(lost)} of {V3}")
    if not compiling.can_build_for(V3):
        return Choice(DEFAULT, f"this kit doesn't build for {V3}")
    return Choice(V3, f"this processor has it. The default, {DEFAULT}, is built too")
