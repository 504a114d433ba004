#!/usr/bin/env python3
"""Tests of `auc install`, of an installed copy, and of the archive of bench/release.py, with a stand-in for the program.

The exit status is 0 only if each test passes.
"""
import hashlib
import json
import os
import re
import resource
import shutil
import subprocess
import tarfile
import unittest
from unittest import mock

from ends import run_main
from launcher import help as texts
from launcher import install, processor
from small_checkout import PIPES, SECONDS, TOP, Checkout
from trial import HEADER, K, OPC

# The stand-in for a program that runs while it is replaced.
SLOW = "#!/bin/sh\necho $$ >{0}/pid\nwhile [ ! -e {0}/gate ]; do sleep 0.05; done\necho old\n"
PLACES = [
    "bin/auc", "bin/auc-import", "bin/auc-seqs", "bin/auc-gateway", "bin/auc-master", "bin/auc-usim", "bin/auc-chart", "bin/auc-pcap",
    "bin/auc-report", "bin/auc-transcript", "lib/auc/tools/report_page.html",
    "lib/auc/program", "lib/auc/installed.json", "share/man/man1/auc.1", "share/bash-completion/completions/auc",
    "share/doc/auc/docs/USER-GUIDE.md", "share/doc/auc/docs/OPERATOR.md", "share/doc/auc/examples/first.scenario",
]


class Prefix(Checkout):
    """A checkout with a release, and a prefix."""

    def setUp(self):
        super().setUp()
        for name in [f"tools/{it}" for it in (*install.TOOLS, *install.MODULES, "completion.bash")]:
            shutil.copy(TOP / name, self.top / name)
        for name in {*install.PACKAGES} - {"launcher"}:
            shutil.copytree(TOP / "tools" / name, self.top / "tools" / name)
        for name in ("docs/auc.1", "docs/USER-GUIDE.md", "docs/OPERATOR.md", "docs/INSTALL.md", "examples/first.scenario"):
            (self.top / name).parent.mkdir(exist_ok=True)
            shutil.copy(TOP / name, self.top / name)
        self.prefix = self.room / "prefix"
        for name in ("DESTDIR", "PYTHONDONTWRITEBYTECODE", "PYTHONPYCACHEPREFIX"):
            self.environment.pop(name, None)
        # An installed script has no -S.
        self.environment["PYTHONNOUSERSITE"] = "1"
        self.release(self.program.read_bytes())

    def release(self, content, version="1.2.3"):
        (self.top / "CHANGELOG.md").write_text(f"# Changelog\n\n## {version}\n")
        self.out.mkdir(exist_ok=True)
        (self.out / "auc_cli").write_bytes(content)
        (self.room / "log").write_text("rt: ok\n3 passed, 0 failed\n")
        self.assertEqual(self.auc(self.room / "log", script="bench/release.py").returncode, 0)
        shutil.rmtree(self.out)

    def install(self, *words, **more):
        return self.auc("install", *(words or [self.prefix]), without_rt=True, **more)

    def installed(self, *words, name="auc", prefix=None, **more):
        """A call of what is installed."""
        how = {**self.how(more), "stdin": subprocess.DEVNULL, **PIPES, **more}
        return subprocess.run([(prefix or self.prefix) / "bin" / name, *map(str, words)], timeout=SECONDS, **how)

    def files(self, folder=None):
        folder = folder or self.prefix
        return sorted(str(it.relative_to(folder)) for it in folder.rglob("*") if it.is_symlink() or not it.is_dir())


class Installs(Prefix):
    def test_tools_that_ask_the_program_find_it_by_themselves(self):
        self.install()
        (self.here / "subscribers.csv").write_text(f"{HEADER}\n001010000000001,{K},opc,{OPC},8000,0,0\n")
        (self.here / "auc.journal").touch()
        calls = {
            "seqs": (["subscribers.csv", "--margin", 1], {"SAYS": "reserved 001010000000001 64"}, "reserved"),
            "gateway": (["subscribers.csv", "--socket", "s", "--patience", "0.1"], {"STATUS": 7}, "serve"),
        }
        for tool, (words, how, form) in calls.items():
            with self.subTest(tool=tool):
                for ran in (self.auc(*words, script=f"tools/{tool}", **how), self.installed(*words, name=f"auc-{tool}", **how)):
                    self.assertNotIn("Traceback", ran.stderr)
                self.assertEqual([it.split()[1] for it in self.noted()], [form, form])
                self.calls.unlink()

    def test_all_is_in_place(self):
        done = self.install(preexec_fn=lambda: os.umask(0o077))
        said = f"auc: version 1.2.3 is installed in {self.prefix}; its command is {self.prefix}/bin/auc\n"
        self.assertEqual((done.returncode, done.stdout, done.stderr), (0, "", said))
        self.assertEqual([it for it in PLACES if it not in self.files()], [])
        known = json.loads((self.prefix / "lib/auc/installed.json").read_text())
        self.assertEqual(sorted([*known["files"], *known["links"], install.MANIFEST]), self.files())
        runs = [it for it in self.files() if (self.prefix / it).stat().st_mode & 0o777 == 0o755]
        tools = [f"lib/auc/tools/{it}" for it in install.TOOLS]
        self.assertEqual(runs, sorted([*known["links"], "lib/auc/auc", "lib/auc/program", *tools]))
        modes = {(self.prefix / it).stat().st_mode & 0o777 for it in known["files"]}
        self.assertEqual(modes, {0o644, 0o755})
        self.assertEqual({it.stat().st_mode & 0o777 for it in [self.prefix, *self.prefix.rglob("*")] if it.is_dir()}, {0o755})
        self.assertEqual(self.noted(), [])

    def test_the_released_program_goes_before_the_one_that_was_proved_here(self):
        self.processors(" ".join(processor.FEATURES))
        self.proved("auc.x86-64-v3").write_text("#!/bin/sh\necho for this processor alone\n")
        self.proved().write_text("#!/bin/sh\necho proved here\n")
        self.install()
        self.assertEqual(self.installed("run", "x", SAYS="released").stdout, "released\n")
        shutil.rmtree(self.top / "release")
        self.install()
        self.assertEqual(self.installed("run", "x").stdout, "proved here\n")
        self.assertIn("and not released", self.installed("--version").stdout)

    def test_without_a_proved_program_nothing_is_installed(self):
        (self.top / "crates/auc_low/src/lib.rt").write_text("other")
        done = self.install()
        self.assertEqual((done.returncode, self.prefix.exists()), (70, False))
        self.assertIn("no program was proved from these sources", done.stderr)

    def test_destdir_is_put_before_the_prefix(self):
        room = self.room / "package"
        self.assertEqual(self.install("/usr", DESTDIR=room).returncode, 0)
        self.assertTrue((room / "usr/bin/auc").is_file())
        self.assertEqual(self.installed("run", "x", SAYS="hello", prefix=room / "usr").stdout, "hello\n")
        self.assertEqual(self.install("--remove", "/usr", DESTDIR=room).returncode, 0)
        self.assertEqual(list(room.iterdir()), [])

    def test_a_prefix_counts_from_the_folder_of_the_call_and_can_be_moved(self):
        self.assertEqual(self.install("own").returncode, 0)
        (self.here / "own").rename(self.prefix)
        self.assertEqual(self.installed("run", "x", SAYS="hello").stdout, "hello\n")

    def test_a_file_that_the_disk_has_no_room_for_is_named(self):
        done = self.install(preexec_fn=lambda: resource.setrlimit(resource.RLIMIT_FSIZE, (1000, 1000)))
        self.assertEqual((done.returncode, done.stdout), (70, ""))
        self.assertEqual(done.stderr, f"auc: {self.prefix}/lib/auc/.installed.json.auc-new: File too large\n")

    def test_other_words_get_the_help(self):
        for words in ([], [""], ["a", "b"], ["--remove"], ["--remove", "a", "b"], ["--force", "a"], ["-x"]):
            done = self.auc("install", *words)
            self.assertEqual((done.returncode, done.stdout), (1, ""), words)
            self.assertIn("auc install PREFIX", done.stderr)
        self.assertEqual(list(self.here.iterdir()), [])


class Replacements(Prefix):
    def test_a_second_install_replaces_it_whole_and_breaks_no_run(self):
        self.release(SLOW.format(self.room).encode())
        (self.top / "examples/old.scenario").write_text("round\n")
        self.install()
        running = subprocess.Popen([self.prefix / "bin/auc", "run", "x"], cwd=self.here, env=self.environment, **PIPES)
        self.addCleanup(running.kill)
        self.wait_for(self.room / "pid")
        (self.top / "examples/old.scenario").unlink()
        self.release(self.program.read_bytes(), version="1.2.4")
        self.assertEqual(self.install().returncode, 0)
        self.assertEqual(self.installed("run", "x", SAYS="new").stdout, "new\n")
        self.assertEqual(self.installed("--version").stdout.splitlines()[0], "auc 1.2.4")
        (self.room / "gate").touch()
        self.assertEqual((running.communicate(timeout=SECONDS)[0], running.returncode), ("old\n", 0))
        self.assertFalse((self.prefix / "share/doc/auc/examples/old.scenario").exists())
        self.assertEqual([it for it in self.files() if ".auc-new" in it], [])

    def test_what_another_program_put_there_is_not_replaced(self):
        (self.prefix / "bin").mkdir(parents=True)
        (self.prefix / "bin/auc").write_text("other")
        done = self.install()
        self.assertEqual((done.returncode, self.files()), (70, ["bin/auc"]))
        self.assertIn(f"{self.prefix}/bin/auc is there, and isn't of an earlier install", done.stderr)
        self.assertEqual((self.prefix / "bin/auc").read_text(), "other")

    def small_tree(self, *names):
        facts = {"version": "1", "sources": "2", "program": "3", "kit": "4", "verdict": ["5"]}
        tree = {**{f"share/doc/auc/{it}": install.File(str(names).encode()) for it in names}, "bin/auc": f"to/{names[0]}"}
        return {**tree, install.MANIFEST: install.manifest_of(tree, facts)}

    def ended_at(self, place, tree):
        """An install that ends at one of its renames: whether it came there."""
        calls, replace = [], os.replace

        def until(*words):
            calls.append(words)
            if len(calls) == place:
                raise KeyboardInterrupt
            replace(*words)

        with mock.patch("os.replace", until):
            try:
                install.install(self.prefix, tree)
            except KeyboardInterrupt:
                return True
        return False

    def test_an_install_that_ended_early_can_be_made_again_and_taken_back(self):
        old, new, place = self.small_tree("a", "b"), self.small_tree("b", "c"), 1
        while True:
            install.install(self.prefix, old)
            came = self.ended_at(place, new)
            install.remove(self.prefix)
            self.assertFalse(self.prefix.exists(), place)
            install.install(self.prefix, old)
            self.ended_at(place, new)
            install.install(self.prefix, new)
            self.assertEqual(self.files(), sorted(new), place)
            install.remove(self.prefix)
            self.assertFalse(self.prefix.exists(), place)
            if not came:
                break
            place += 1
        self.assertGreater(place, 4)


class Removals(Prefix):
    def test_exactly_its_own_files_go(self):
        (self.prefix / "share/man").mkdir(parents=True)
        self.install()
        self.installed("reserved")
        (self.prefix / "lib/auc/tools/own").write_text("mine")
        (self.prefix / "share/doc/auc/examples/first.scenario").write_text("mine")
        done = self.install("--remove", self.prefix)
        self.assertEqual((done.returncode, done.stdout), (0, ""))
        changed = f"{self.prefix}/share/doc/auc/examples/first.scenario was changed since it was installed, so it stays"
        self.assertIn(changed, done.stderr)
        self.assertEqual(self.files(), ["lib/auc/tools/own", "share/doc/auc/examples/first.scenario"])
        self.assertEqual(self.install("--remove", self.prefix).returncode, 70, "nothing is installed any more")

    def test_folders_that_were_there_stay(self):
        (self.prefix / "share/man").mkdir(parents=True)
        for _ in range(2):
            self.install()
        self.installed("reserved")
        self.assertTrue((self.prefix / "lib/auc/tools/launcher/__pycache__").is_dir())
        self.assertEqual(self.installed("install", "--remove", self.prefix).returncode, 0)
        self.assertEqual(sorted(str(it.relative_to(self.prefix)) for it in self.prefix.rglob("*")), ["share", "share/man"])

    def test_a_manifest_that_leads_elsewhere_is_refused(self):
        self.install()
        path = self.prefix / "lib/auc/installed.json"
        known = json.loads(path.read_text())
        (self.room / "other").write_text("mine")
        for name in ("../other", str(self.room / "other")):
            path.write_text(json.dumps({**known, "files": {name: hashlib.sha256(b"mine").hexdigest()}}))
            self.assertEqual(self.install("--remove", self.prefix).returncode, 70, name)
        self.assertTrue((self.room / "other").exists())

    def test_a_manifest_of_another_form_is_refused(self):
        self.install()
        path = self.prefix / "lib/auc/installed.json"
        before, known = path.read_text(), json.loads(path.read_text())
        others = {"files": [], "links": {"bin/auc": 1}, "folders": [1], "verdict": [], "earlier": [], "version": None}
        contents = [before[:50], "[]", "{}", *(json.dumps({**known, **{name: it}}) for name, it in others.items())]
        for content in contents:
            path.write_text(content)
            calls = [self.install(), self.install("--remove", self.prefix), self.installed("--version"), self.installed("prove")]
            for done in calls:
                self.assertEqual((done.returncode, done.stdout), (70, ""), content)
                self.assertIn(f"auc: {path} can't be read: ", done.stderr, content)
        path.write_text(before)
        self.assertEqual(self.install("--remove", self.prefix).returncode, 0)


class Copies(Prefix):
    def setUp(self):
        super().setUp()
        self.install()
        shutil.rmtree(self.top)
        self.environment["PATH"] = f"{self.room}/bin:/usr/bin:/bin"

    def test_it_runs_and_explains_and_needs_no_kit(self):
        done = self.installed("run", "x", SAYS="hello", PATH="/usr/bin:/bin")
        self.assertEqual((done.returncode, done.stdout, done.stderr), (0, "hello\n", ""))
        (self.here / "a").write_text("draw 1\n")
        done = self.installed("run", "a", SAYS="refused scenario 1 outoforder", STATUS=3)
        self.assertEqual((done.returncode, done.stderr), (3, "a:1: draw 1: the line is in the wrong place (outoforder)\n"))
        guide = re.search(r"Don't delete it: (\S+) has", self.installed("run", "a", STATUS=7).stderr)[1]
        self.assertTrue(os.path.isfile(guide), guide)

    def test_it_keeps_the_journal_where_it_is_told(self):
        centre = self.room / "centre"
        centre.mkdir()
        for words, more in ((["--journal-dir", centre], {}), ([], {"AUC_JOURNAL_DIR": centre})):
            done = self.installed(*words, "run", "x", JOURNAL=1, **more)
            self.assertEqual(done.stderr, f"auc: a new journal was begun: {centre}/auc.journal\n")
            (centre / "auc.journal").unlink()
        done = self.installed("reserved")
        self.assertEqual((done.returncode, done.stderr), (4, f"auc: no journal in {self.here}\n"))

    def test_it_never_builds_and_says_where_the_sources_are(self):
        known = json.loads((self.prefix / "lib/auc/installed.json").read_text())
        for words in (["prove"], ["prove", "--jobs", "2"], ["--unproved", "run", "x"]):
            done = self.installed(*words)
            self.assertEqual((done.returncode, done.stdout), (70, ""))
            self.assertIn("Take the project's repository", done.stderr)
            self.assertIn(f"the sources of version 1.2.3 have the checksum {known['sources']}", done.stderr)
        self.assertEqual(self.installed("--old", "run", "x", SAYS="hello").stdout, "hello\n")
        self.assertFalse([it for it in self.noted() if not it.startswith(f"{self.here}: ")], "rt wasn't called")

    def test_version_tells_a_program_that_was_changed(self):
        said = self.installed("--version").stdout
        self.assertRegex(said, r"^auc 1\.2\.3\nthe proved program of version 1\.2\.3, built with stand-in kit .*3 passed, 0 failed\n")
        with (self.prefix / "lib/auc/program").open("a") as file:
            file.write("#")
        said = self.installed("--version").stdout
        self.assertEqual(said, f"auc 1.2.3\nnot proved: {self.prefix}/lib/auc/program isn't the program that was installed\n")

    def test_help_has_what_it_does_and_names_files_that_are_there(self):
        said = self.installed("--help").stdout
        self.assertIn("usage: auc run SCENARIO", said)
        for absent in ("prove ", "--old", "--unproved", "./auc", "minutes"):
            self.assertNotIn(absent, said)
        for path in re.findall(rf"{self.prefix}/\S+", said):
            self.assertTrue(os.path.isfile(path), path)

    def test_each_tool_has_all_that_it_imports(self):
        for tool in install.TOOLS:
            done = self.installed("--help", name=f"auc-{tool}")
            self.assertEqual((done.returncode, done.stderr), (0, ""), tool)
            self.assertIn(f"usage: auc-{tool} ", done.stdout)

    def test_a_copy_that_was_moved_out_of_its_prefix_runs_and_installs_nothing(self):
        moved = (self.prefix / "lib/auc").rename(self.room / "moved")

        def called(*words):
            return subprocess.run([moved / "auc", *map(str, words)], cwd=self.here, env=self.environment, timeout=SECONDS, **PIPES)

        self.assertIn("the proved program of version 1.2.3", called("--version").stdout)
        self.assertEqual(called("run", "x").returncode, 0)
        done = called("install", self.room / "other")
        told = f"auc: {moved} was moved out of its prefix, so nothing is installed of it\n"
        self.assertEqual((done.returncode, done.stderr, (self.room / "other").exists()), (70, told, False))

    def test_it_installs_itself_elsewhere_unless_it_was_changed(self):
        other = self.room / "other"
        self.assertEqual(self.installed("install", other).returncode, 0)
        self.assertEqual(self.files(other), [it for it in self.files() if "__pycache__" not in it])
        self.assertEqual(self.installed("run", "x", SAYS="hello", prefix=other).stdout, "hello\n")
        (self.prefix / "share/man/man1/auc.1").write_text("mine")
        done = self.installed("install", self.room / "third")
        self.assertEqual((done.returncode, (self.room / "third").exists()), (70, False))
        self.assertIn("auc.1 was changed since it was installed", done.stderr)


class Archives(Prefix):
    def archive(self, name="auc.tar.gz"):
        done = self.auc("--archive", self.room / name, script="bench/release.py")
        self.assertEqual((done.returncode, done.stderr), (0, ""))
        content = (self.room / name).read_bytes()
        self.assertIn(f"{hashlib.sha256(content).hexdigest()}  {name}\n", done.stdout)
        return content

    def unpacked(self):
        self.archive()
        with tarfile.open(self.room / "auc.tar.gz") as file:
            file.extractall(self.room)
        return self.room / "auc-1.2.3"

    def test_it_is_a_function_of_the_checkout(self):
        first = self.archive()
        for path in self.top.rglob("*"):
            os.utime(path, (0, 0))
        (self.top / "tools/launcher/__pycache__").mkdir(exist_ok=True)
        (self.top / "examples/auc.journal").write_text("not an example")
        self.assertEqual(self.archive("again.tar.gz"), first)
        with tarfile.open(self.room / "auc.tar.gz") as file:
            names = [it.name for it in file]
            self.assertEqual({(it.uid, it.gid, it.mtime) for it in file}, {(0, 0, 946684800)})
        self.assertEqual(names, sorted(names))

    def test_it_runs_where_it_is_unpacked_and_installs_itself(self):
        folder = self.unpacked()
        self.assertEqual(self.installed("run", "x", SAYS="hello", prefix=folder).stdout, "hello\n")
        checked = subprocess.run(["sha256sum", "--strict", "-c", "SHA256SUMS"], cwd=folder, **PIPES)
        self.assertEqual(checked.returncode, 0, checked.stderr)
        self.assertIn("3 passed, 0 failed\n", (folder / "VERDICT").read_text())
        # The prefix counts from the folder of the call.
        done = subprocess.run([folder / "install", "../prefix"], **self.how({}), **PIPES)
        self.assertEqual((done.returncode, done.stdout), (0, ""), done.stderr)
        shutil.rmtree(folder)
        self.assertEqual(self.installed("run", "x", SAYS="hello").stdout, "hello\n")

    def test_one_byte_changed_is_not_installed(self):
        folder = self.unpacked()
        for name in ("lib/auc/program", "lib/auc/installed.json", "VERDICT"):
            was = (folder / name).read_bytes()
            (folder / name).write_bytes(was[:-1] + b" ")
            done = subprocess.run([folder / "install", self.prefix], **self.how({}), **PIPES)
            self.assertEqual((done.returncode, self.prefix.exists()), (70, False), name)
            self.assertIn("FAILED", done.stdout)
            (folder / name).write_bytes(was)

    def test_other_sources_or_no_release_give_no_archive(self):
        (self.top / "crates/auc_low/src/lib.rt").write_text("other")
        for _ in range(2):
            done = self.auc("--archive", self.room / "auc.tar.gz", script="bench/release.py")
            self.assertEqual((done.returncode, (self.room / "auc.tar.gz").exists()), (1, False))
            shutil.rmtree(self.top / "release", ignore_errors=True)


class Completions(unittest.TestCase):
    def offered(self, *words):
        """What bash offers for the last of these words."""
        script = (
            f'. {TOP}/tools/completion.bash; compopt() {{ :; }}; COMP_WORDS=("$@"); COMP_CWORD=$(($# - 1)); _auc;'
            ' printf "%s\\n" "${COMPREPLY[@]}"'
        )
        done = subprocess.run(["bash", "-c", script, "bash", "auc", *words], cwd=TOP, stdout=subprocess.PIPE, text=True)
        return sorted(done.stdout.split())

    def test_first_words_are_those_of_the_help(self):
        rows = [*texts.served(texts.FORMS, True), *texts.served(texts.OPTIONS, True)]
        self.assertEqual(self.offered(""), sorted({it.split()[0] for it, _ in rows}))

    def test_files_come_after_run_and_folders_after_install(self):
        cases = [
            (["re"], ["reserved"]), (["run", "examples/first.s"], ["examples/first.scenario"]),
            (["run", "examples/first.scenario", "examples/subs"], ["examples/subscribers.csv"]),
            (["serve", "examples/subs"], ["examples/subscribers.csv"]), (["serv"], ["serve"]),
            (["--journal-dir", "exam"], ["examples"]), (["--journal-dir", "examples", "res"], ["reserved"]), (["comp"], ["compact"]),
            (["install", "exam"], ["examples"]), (["install", "--r"], ["--remove"]), (["install", "--remove", "exam"], ["examples"]),
            (["reserved", ""], []), (["vector", ""], []), (["vector", *"abcde", ""], ["autn"]), (["vector", *"abcdef", ""], []),
        ]
        for words, found in cases:
            self.assertEqual(self.offered(*words), found, words)


if __name__ == "__main__":
    run_main(unittest.main, __doc__)
