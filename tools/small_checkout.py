"""A small checkout for tests of the script `auc`, with stand-ins for rt and for the program."""
import ctypes
import os
import shutil
import signal
import subprocess
import sys
import tempfile
import time
import unittest
from pathlib import Path

TOP = Path(__file__).resolve().parent.parent
SECONDS = 60
PIPES = {"stdout": subprocess.PIPE, "stderr": subprocess.PIPE, "text": True}
DROP_FROM_BOUNDING_SET, DAC_OVERRIDE, DAC_READ_SEARCH = 24, 1, 2

# The stand-in for the program: it notes its words and folder, makes a journal if JOURNAL is set, and prints SAYS.
PROGRAM = """#!/bin/sh
[ -z "$CALLS" ] || echo "$PWD: $*" >>"$CALLS"
[ -z "$JOURNAL" ] || [ "$1" != run ] || printf AUC-SQN-JOURNAL1 >auc.journal
[ -z "$SAYS" ] || printf '%s\\n' "$SAYS"
[ "$1" = vector ] || exit "${STATUS:-0}"
"""
# The stand-in for rt: it notes its words, builds by a copy, and fails or waits if it is told to.
RT = """#!/bin/sh
[ "$1" = version ] && echo "stand-in kit" && exit
[ "$1" = doc ] && echo "$KIT/START-HERE.md" && exit
echo "$*" >>"$CALLS"
[ -z "$RT_NAP" ] || { echo $$ >"$RT_PID"; exec sleep "$RT_NAP"; }
while [ -n "$RT_GATE" ] && [ ! -e "$RT_GATE" ]; do sleep 0.05; done
[ -z "$RT_EDITS" ] || echo more >>"$RT_EDITS"
[ -z "$RT_FAILS" ] || { echo "rt: auc_low NOT PROVED"; exit 1; }
case $1 in
    ci) printf 'jobs=%s\\n' "$RT_JOBS" >>"$CALLS"; find . -type f | LC_ALL=C sort >"$RT_FILES"
        printf 'rt: auc_low is kept: earlier\\n'; sleep ${RT_PAUSE-0.6}; printf '== auc_cli\\n'
        [ -n "$RT_LEAVES_NONE" ] || { mkdir -p crates/auc_cli/out; cp "$RT_PROGRAM" crates/auc_cli/out/auc_cli; } ;;
    run) mkdir -p out; cp "$RT_PROGRAM" out/auc_cli; shift 2; exec out/auc_cli "$@" ;;
    try) printf '%s\\n' "$SAYS"; echo run=ended >&2; exit "${STATUS:-0}" ;;
esac
"""
# Stand-ins for the kit's rattle and its linker: they note their words. What they build has the processor's name in a comment.
RATTLE = """#!/bin/sh
[ "$2" != --help ] || { echo 'For x86-64: `x86-64-v2`, the default, `x86-64-v3`'; exit; }
echo "rattle $*" >>"$CALLS"
echo "logic=proved functions=1 target=x86_64-unknown-linux-gnu cpu=${RATTLE_CPU-x86-64-v3} sum=0 native=nat,char,string" \\
    "logic-built=trusted libraries-built=trusted statements=trusted"
"""
LINKER = """#!/bin/sh
echo "rattle-link $*" >>"$CALLS"
while [ "$1" != -o ]; do shift; done
{ cat "${LINKED-$RT_PROGRAM}"; echo "# $2"; } >"$2"
chmod +x "$2"
"""
# A program that writes which of its first nine descriptors are open.
OPEN = """#!/bin/sh
exec 9>{}
for place in 0 1 2 3 4 5 6 7 8; do [ ! -e /proc/$$/fd/$place ] || echo $place >&9; done
"""
TABLE = """At version 1.2.3 it took 60 minutes of
processor time, and 24 minutes on 4 free processors.
<!-- begin: bench/gate.py -->
| Crate | Proof | Tests | Together |
|---|---:|---:|---:|
| `auc_low` | 30.0 | 9.0 | 39.0 |
| all of these | 30.0 | 9.0 | 39.0 |
<!-- end: bench/gate.py -->
"""


def heed_signals():
    """Has signals end the process to come, also in a gate that runs in the background."""
    for number in (signal.SIGINT, signal.SIGTERM, signal.SIGHUP):
        signal.signal(number, signal.SIG_DFL)


def as_a_user():
    """Has permissions count in the process to come, also for root."""
    for capability in (DAC_OVERRIDE, DAC_READ_SEARCH):
        ctypes.CDLL(None).prctl(DROP_FROM_BOUNDING_SET, capability)


class Checkout(unittest.TestCase):
    """A checkout with two crates, and a folder that the calls are made in."""

    def setUp(self):
        self.room = Path(tempfile.mkdtemp(prefix="auc-test-"))
        self.addCleanup(shutil.rmtree, self.room, ignore_errors=True)
        self.room.chmod(0o755)
        self.top, self.here, self.calls = self.room / "top", self.room / "here", self.room / "calls"
        self.out = self.top / "crates/auc_cli/out"
        for folder in ("top/bench", "top/tools", "top/crates/auc_low/src", "top/crates/auc_cli/src", "here", "bin", "tmp"):
            (self.room / folder).mkdir(parents=True)
        for name in ("auc", "bench/release.py", "tools/ends.py"):
            shutil.copy(TOP / name, self.top / name)
        shutil.copytree(TOP / "tools/launcher", self.top / "tools/launcher")
        texts = {
            "CHANGELOG.md": "# Changelog\n\n## 1.2.3\n\n## 1.2.2\n",
            "CONTRIBUTING.md": TABLE,
            "crates.txt": "auc_cli: auc_low\nauc_low:\n",
            "crates/auc_low/src/lib.rt": "low",
            "crates/auc_cli/src/main.rt": "cli",
            "HANDLES": "Handles allowed: none.\n",
        }
        for name, text in texts.items():
            (self.top / name).write_text(text)
        self.executable("bin/rt", RT)
        self.executable("kit/bin/rattle", RATTLE)
        self.executable("kit/bin/rattle-link", LINKER)
        with (self.top / "tools/launcher/processor.py").open("a") as file:
            file.write(f"\n\nCPUINFO = Path({str(self.room / 'cpuinfo')!r})\n")
        self.program = self.executable("program", PROGRAM)
        self.environment = {
            **os.environ,
            "PATH": f"{self.room}/bin:{os.environ['PATH']}",
            "CALLS": str(self.calls),
            "RT_PROGRAM": str(self.program),
            "RT_PID": f"{self.room}/pid",
            "RT_FILES": f"{self.room}/files",
            "KIT": f"{self.room}/kit",
            "TMPDIR": f"{self.room}/tmp",
            "XDG_CACHE_HOME": f"{self.room}/cache",
        }
        for name in ("AUC_JOURNAL_DIR", "RT_JOBS"):
            self.environment.pop(name, None)

    def executable(self, name, text):
        path = self.room / name
        path.parent.mkdir(parents=True, exist_ok=True)
        path.write_text(text)
        path.chmod(0o755)
        return path

    def command(self, *words, script="auc"):
        return [sys.executable, "-S", str(self.top / script), *map(str, words)]

    def how(self, more):
        """The folder and the environment of a call. Capital names go from `more` to the environment."""
        return {"cwd": self.here, "env": {**self.environment, **{it: str(more.pop(it)) for it in [*more] if it.isupper()}}}

    def auc(self, *words, script="auc", without_rt=False, **more):
        """A call of the script that ended."""
        if without_rt:
            more["PATH"] = "/usr/bin:/bin"
        how = {**self.how(more), "stdin": subprocess.DEVNULL, **PIPES, **more}
        return subprocess.run(self.command(*words, script=script), timeout=SECONDS, **how)

    def started(self, *words, **more):
        child = subprocess.Popen(self.command(*words), **self.how(more), preexec_fn=heed_signals, **more)
        self.addCleanup(child.wait)
        self.addCleanup(child.kill)
        return child

    def noted(self):
        """The calls of the stand-ins so far."""
        return self.calls.read_text().splitlines() if self.calls.exists() else []

    def proved(self, name="auc"):
        """Puts a proved program into its place, as a build leaves it."""
        place = self.out / "proved" / name
        place.parent.mkdir(parents=True, exist_ok=True)
        shutil.copy(self.program, place)
        return place

    def processors(self, *flags):
        """Has the machine of the calls to come processors with these flags, one for each argument."""
        lines = [f"processor\t: {place}\nflags\t\t: fpu {it}\n" for place, it in enumerate(flags)]
        (self.room / "cpuinfo").write_text("".join(lines))

    def aged(self, path, seconds=60):
        then = time.time() - seconds
        os.utime(path, (then, then))

    def wait_for(self, path):
        end = time.monotonic() + SECONDS
        while not path.exists() or not path.read_text():
            self.assertLess(time.monotonic(), end, f"{path} didn't come")
            time.sleep(0.02)
        return path.read_text().strip()

    def assert_ends(self, pid):
        """Whether a process that isn't a child of this one ends soon."""
        end = time.monotonic() + 5
        while Path(f"/proc/{pid}").exists() and " Z " not in Path(f"/proc/{pid}/stat").read_text():
            self.assertLess(time.monotonic(), end, f"process {pid} goes on")
            time.sleep(0.05)
