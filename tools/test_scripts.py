#!/usr/bin/env python3
"""Tests of how each script of tools/, bench/, docs/ and examples/ tells its help, and of how the tools end if their output can't
be written or if they are interrupted.

The help is asked for with no command on the PATH, in an empty folder, and without the modules of others.
"""
import ast
import os
import signal
import subprocess
import sys
import tempfile
import unittest
from concurrent.futures import ThreadPoolExecutor
from pathlib import Path

from ends import INTERRUPTED, MISSING, UNWRITTEN, run_main

TOP = Path(__file__).resolve().parent.parent
TOOLS, EXAMPLES = TOP / "tools", TOP / "examples"
FULL, NAMED = EXAMPLES / "session-full-print.expected", EXAMPLES / "pseudonyms-full-print.expected"
FILES = sorted(path for folder in ("tools", "bench", "docs", "examples") for path in (TOP / folder).iterdir() if path.is_file())
SCRIPTS = [path for path in FILES if path.read_bytes().startswith(b"#!/usr/bin/env python3\n")]
FULL_DISK = "standard output: No space left on device\n"
SUBSCRIBER = "232010000000000 90dca4eda45b53cf0f12d7c9c3bc6a89 cb9cccc4b9258e6dca4760379fb82581 61df 000000000000\n"


def ran(words, **more):
    """A run of Python alone, and what it wrote to standard error."""
    done = subprocess.run([sys.executable, *words], stderr=subprocess.PIPE, text=True, timeout=60, **more)
    return done.returncode, done.stderr


def into_closed_pipe(words, **more):
    reading, writing = os.pipe()
    os.close(reading)
    try:
        return ran(words, stdout=writing, **more)
    finally:
        os.close(writing)


def into_full_disk(words, **more):
    with open("/dev/full", "wb") as full:
        return ran(words, stdout=full, **more)


def with_closed(descriptors, words, **more):
    """A run with some of descriptors 0 to 2 closed: its status."""
    closed = " ".join(f"{it}>&-" for it in descriptors)
    done = subprocess.run(["/bin/sh", "-c", f'exec "$0" "$@" {closed}', sys.executable, *words], timeout=60, **more)
    return done.returncode, (done.stderr or b"").decode()


def heed_interrupts():
    """Lets a child be interrupted, also if this script runs in the background of a shell, which ignores interrupts."""
    signal.signal(signal.SIGINT, signal.SIG_DFL)


class Helps(unittest.TestCase):
    def each(self, run, scripts):
        """What each script does if it is asked for its help. Python's -S takes the modules of others away."""
        with tempfile.TemporaryDirectory() as folder, ThreadPoolExecutor(4) as pool:
            alone = {"cwd": folder, "env": {"PATH": folder, "LC_ALL": "C.UTF-8"}}
            found = list(pool.map(lambda path: run(["-S", path, "--help"], **alone), scripts))
            self.assertEqual(os.listdir(folder), [])
        return {str(path.relative_to(TOP)): it for path, it in zip(scripts, found)}

    def all_are(self, run, status, reason="", scripts=SCRIPTS):
        wanted = {str(path.relative_to(TOP)): (status, reason and f"{path.name}: {reason}") for path in scripts}
        self.assertEqual(self.each(run, scripts), wanted)

    def test_each_file_with_a_main_part_is_a_script_that_can_be_run(self):
        for path in FILES:
            if path.suffix == ".py" and "run_main(" in path.read_text() and path.name != "ends.py":
                self.assertIn(path, SCRIPTS)
        self.assertEqual([path.name for path in SCRIPTS if not os.access(path, os.X_OK)], [])
        self.assertGreater(len(SCRIPTS), 20)

    def test_help_has_the_text_of_the_script(self):
        def printed(words, **more):
            return subprocess.run([sys.executable, *words], capture_output=True, text=True, timeout=60, **more)
        for (name, done), path in zip(self.each(printed, SCRIPTS).items(), SCRIPTS):
            self.assertEqual((done.returncode, done.stderr), (0, ""), name)
            self.assertIn(ast.get_docstring(ast.parse(path.read_text())), done.stdout, name)

    def test_help_without_a_reader_is_no_fault(self):
        self.all_are(into_closed_pipe, 0)

    def test_help_on_a_full_disk_is_told(self):
        self.all_are(into_full_disk, UNWRITTEN, FULL_DISK)

    def test_help_without_standard_output_is_told(self):
        run = lambda words, **more: with_closed([1], words, stderr=subprocess.PIPE, **more)
        some = [TOOLS / "import", TOOLS / "eap_rows.py", TOP / "bench/crash.py", TOP / "docs/layers.py", EXAMPLES / "compare.py"]
        self.all_are(run, UNWRITTEN, "standard output: Bad file descriptor\n", some)


class Outputs(unittest.TestCase):
    def setUp(self):
        self.folder = Path(self.enterContext(tempfile.TemporaryDirectory()))
        (self.folder / "milenage").write_text(SUBSCRIBER)
        self.runs = {
            "import": [TOOLS / "import", "hostapd", self.folder / "milenage"],
            "chart": [TOOLS / "chart", FULL],
            "pcap": [TOOLS / "pcap", FULL, "-"],
            "seqs": [TOOLS / "seqs", EXAMPLES / "subscribers.csv", "--reserved", "/dev/null", "--margin", "0"],
            "report": [TOOLS / "report", FULL],
            "transcript": [TOOLS / "transcript", "--json", FULL],
        }
        self.runs_of_pictures = {"chart": [TOOLS / "chart", FULL, "--svg", "-"]}

    def each(self, run):
        for runs in self.runs, self.runs_of_pictures:
            for name, words in runs.items():
                with self.subTest(words=words):
                    yield name, run(words)

    def test_failed_output_has_a_sentence_and_a_status(self):
        cases = [
            (into_closed_pipe, "standard output: Broken pipe\n"),
            (into_full_disk, FULL_DISK),
            (lambda words: with_closed([1], words, stderr=subprocess.PIPE), "standard output: Bad file descriptor\n"),
        ]
        for run, reason in cases:
            for name, found in self.each(run):
                self.assertEqual(found, (UNWRITTEN, f"{name}: {reason}"))

    def test_large_output_fails_in_its_middle_with_the_same_sentence(self):
        rows = "".join(f"{number:015} {SUBSCRIBER.partition(' ')[2]}" for number in range(20_000))
        (self.folder / "milenage").write_text(rows)
        with subprocess.Popen([sys.executable, *self.runs["import"]], stdout=subprocess.PIPE, stderr=subprocess.PIPE) as child:
            self.assertEqual(child.stdout.read(5), b"imsi,")
            child.stdout.close()
            self.assertEqual(child.stderr.read(), b"import: standard output: Broken pipe\n")
        self.assertEqual(child.returncode, UNWRITTEN)

    def test_file_on_a_full_disk_is_named(self):
        for words in (["chart", FULL, "--svg", "/dev/full"], ["pcap", FULL, "/dev/full"]):
            done = ran([TOOLS / words[0], *words[1:]])
            self.assertEqual(done, (UNWRITTEN, f"{words[0]}: /dev/full: No space left on device\n"))

    def test_file_is_written_without_standard_output(self):
        for descriptors in ([1], [0, 1], [0, 1, 2]):
            for words in (["chart", FULL, "--svg"], ["pcap", FULL]):
                path = self.folder / "file"
                done = with_closed(descriptors, [TOOLS / words[0], *words[1:], path], stderr=subprocess.PIPE)
                self.assertEqual(done, (0, ""), words)
                self.assertGreater(path.stat().st_size, 500)

    def test_closed_standard_input_is_an_input_that_cannot_be_read(self):
        for words in (["chart", "-"], ["pcap", "-", "/dev/null"], ["report", "-"], ["transcript", "--json", "-"]):
            done = with_closed([0], [TOOLS / words[0], *words[1:]], stderr=subprocess.PIPE)
            self.assertEqual(done, (2, f"{words[0]}: -: Bad file descriptor\n"))

    def test_no_sentence_goes_into_the_output_if_standard_error_is_closed(self):
        (self.folder / "milenage").write_text("abc\n" + SUBSCRIBER)
        out = self.folder / "out"
        for closed in [2], []:
            with out.open("wb") as file, open("/dev/full", "wb") as full:
                self.assertEqual(with_closed(closed, self.runs["import"], stdout=file, stderr=full)[0], 1)
            self.assertEqual(out.read_text().count("\n"), 2)

    def test_interrupted_script_ends_with_a_sentence(self):
        waiting = self.folder / "waiting"
        os.mkfifo(waiting)
        for words in (["import", "hostapd", waiting], ["chart", waiting], ["pcap", waiting, "-"], ["report", waiting],
                      ["transcript", "--json", waiting]):
            run = [sys.executable, TOOLS / words[0], *words[1:]]
            child = subprocess.Popen(run, stdout=subprocess.PIPE, stderr=subprocess.PIPE, preexec_fn=heed_interrupts)
            # It opens only after the script has come to read it. It closes after the signal: if an interrupt comes just before Python
            # waits for bytes, Python waits all the same, and is interrupted only after them.
            with waiting.open("wb"):
                child.send_signal(signal.SIGINT)
            self.assertEqual(child.communicate(timeout=60), (b"", f"{words[0]}: interrupted\n".encode()))
            self.assertEqual(child.returncode, INTERRUPTED)

    def test_dash_is_standard_output(self):
        for words in (["chart", NAMED, "--svg"], ["pcap", NAMED]):
            path = self.folder / "file"
            self.assertEqual(ran([TOOLS / words[0], *words[1:], path]), (0, ""))
            done = subprocess.run([sys.executable, TOOLS / words[0], *words[1:], "-"], capture_output=True)
            self.assertEqual((done.returncode, done.stderr), (0, b""))
            self.assertEqual(done.stdout, path.read_bytes())


class WithoutProgram(unittest.TestCase):
    def test_script_that_runs_it_says_what_builds_it(self):
        named = ["crash", "durable", "groups", "load", "longest", "reading", "sessions", "soak", "vectors"]
        asked = [["service", "--program"], ["sites", "--program"], ["peers", "--program"], ["../docs/charts", "--program"]]
        for name, *words in [[it] for it in named] + asked:
            with self.subTest(script=name):
                reason = f"{Path(name).name}.py: /none is missing: `rt run` in crates/auc_cli proves and builds the program\n"
                self.assertEqual(ran([TOP / "bench" / f"{name}.py", *words, "/none"], stdout=subprocess.DEVNULL), (MISSING, reason))


    def test_script_that_runs_another_one_says_what_builds_that(self):
        for name in ("live", "peers", "rates"):
            words = [TOP / "bench" / f"{name}.py", "--program", "/bin/sh", "--hlr-auc-gw", "/none"]
            reason = f"{name}.py: /none is missing: bench/peers.py --help says how it is built\n"
            self.assertEqual(ran(words, stdout=subprocess.DEVNULL), (MISSING, reason))


class OldPython(unittest.TestCase):
    def test_script_that_needs_a_later_one_says_so(self):
        for name in ("chart", "foreign", "pcap", "report", "transcript"):
            script = f"import runpy, sys; sys.version_info, sys.argv = (3, 9), [{name!r}]; runpy.run_path({str(TOOLS / name)!r})"
            done = subprocess.run([sys.executable, "-c", script], capture_output=True, text=True, env={**os.environ, "PYTHONPATH": str(TOOLS)})
            said = f"{name}: Python 3.10 or later is missing: this is {sys.version.split()[0]}\n"
            self.assertEqual((done.returncode, done.stderr), (MISSING, said))


class WithoutCryptography(unittest.TestCase):
    def test_script_that_needs_it_says_how_to_install_it(self):
        need = ["tools/eap_rows.py", "bench/random_sessions.py", "bench/foreign_keys.py", "bench/foreign_ends.py"]
        foreign = [TOOLS / "foreign", "server", "127.0.0.1:1", "--secret-file", "/dev/null", "--ends", "python"]
        for words in [[TOP / it] for it in need] + [[TOOLS / "pcap", NAMED, "-"], [TOOLS / "report", NAMED], foreign]:
            reason = f"{words[0].name}: Python's module cryptography is missing: apt-get install python3-cryptography\n"
            with self.subTest(words=words):
                done = subprocess.run([sys.executable, "-S", *words], capture_output=True, text=True)
                self.assertEqual((done.returncode, done.stdout, done.stderr), (MISSING, "", reason))

    def test_script_that_does_not_need_it_says_nothing(self):
        for words in ([TOOLS / "pcap", FULL, "/dev/null"], [TOOLS / "chart", NAMED, "--svg", "/dev/null"]):
            self.assertEqual(ran(["-S", *words]), (0, ""))


if __name__ == "__main__":
    run_main(unittest.main, __doc__)
