#!/usr/bin/env python3
"""Tests the script `auc` and bench/release.py in a small checkout of their own, with stand-ins for rt and the program.

The exit status is 0 only if each test passes.
"""
import fcntl
import json
import math
import os
import re
import resource
import shutil
import signal
import subprocess
import tempfile
import time
import unittest
from pathlib import Path
from unittest import mock

from ends import run_main
from launcher import compiling, costs, explain, following, processor, running
from launcher.places import Stopped
from small_checkout import OPEN, PIPES, SECONDS, TOP, Checkout, as_a_user
from trial import HEADER, K, OPC

WRONG = ["", "rnu", "--hlep", "-x run", "--old", "--journal-dir", "prove x", "prove --jobs 0", "prove --jobs", "--version x", "--portable"]
RECORD = f"001010000000001,{K},opc,{OPC},8000,0,0"


class Words(Checkout):
    def test_help_is_printed_where_it_is_asked_for(self):
        for word in ("--help", "-h", "help"):
            ran = self.auc(word)
            self.assertEqual((ran.returncode, ran.stderr), (0, ""), word)
            self.assertIn("usage: ./auc run SCENARIO", ran.stdout, word)
        self.assertEqual(self.noted(), [])

    def test_other_words_get_the_help_at_once_and_build_nothing(self):
        for words in [*(it.split() for it in WRONG), [""]]:
            ran = self.auc(*words)
            self.assertEqual((ran.returncode, ran.stdout), (1, ""), words)
            self.assertIn("usage: ./auc run SCENARIO", ran.stderr, words)
        self.assertEqual(self.noted(), [])

    def test_a_text_that_cannot_be_written_ends_with_a_line(self):
        with open("/dev/full", "wb") as full:
            for how in ({"stdout": full}, {"preexec_fn": lambda: os.close(1)}):
                for word in ("--help", "--version"):
                    ran = self.auc(word, **how)
                    self.assertEqual(ran.returncode, 70)
                    self.assertRegex(ran.stderr, r"^auc: the output could not be written: [A-Z][a-z ]+\n$")

    def test_help_is_printed_by_a_checkout_whose_name_is_no_utf_8(self):
        top = os.fsdecode(bytes(self.room) + b"/top\xff")
        self.top.rename(top)
        self.top = Path(top)
        ran = self.auc("--help", text=False)
        self.assertEqual((ran.returncode, ran.stderr), (0, b""))
        self.assertIn(b"To begin: ./auc run %s/examples/first.scenario\n" % os.fsencode(top), ran.stdout)

    def test_help_has_the_minutes_of_the_table(self):
        said = self.auc("--help").stdout
        self.assertRegex(said, r"took 60 minutes of processor time and, on 4 processors, 24\s+minutes; on as many as here it .* \d+\.")
        self.assertEqual([math.ceil(costs.Build(60, 24, 4).minutes(it)) for it in (1, 2, 4, 12)], [60, 36, 24, 16])

    def test_version_is_that_of_the_changelog_and_tells_whether_it_is_proved(self):
        self.assertRegex(self.auc("--version").stdout, r"^auc 1\.2\.3\nnot proved: ")
        program = self.proved()
        self.assertRegex(self.auc("--version").stdout, r"^auc 1\.2\.3\nproved and built here")
        self.aged(program)
        self.assertRegex(self.auc("--version").stdout, r"^auc 1\.2\.3\nnot proved: ")


class Runs(Checkout):
    def setUp(self):
        super().setUp()
        self.proved()

    def test_output_and_status_and_words_are_passed_on(self):
        for status in (0, 3, 77):
            ran = self.auc("vector" if status == 0 else "load", "a b", "*", STATUS=status, SAYS="one\ttwo")
            self.assertEqual((ran.returncode, ran.stdout), (status, "one\ttwo\n"))
        self.assertEqual(self.noted()[0], f"{self.here}: vector a b *")

    def test_the_program_gets_the_callers_descriptors_also_closed_ones(self):
        self.executable("top/crates/auc_cli/out/proved/auc", OPEN.format(self.room / "fds"))
        for closed in ((), (0,), (1,), (2,), (0, 1, 2)):
            self.auc("run", "x", preexec_fn=lambda it=closed: [os.close(fd) for fd in it])
            found = set(map(int, (self.room / "fds").read_text().split()))
            self.assertEqual(found, {0, 1, 2} - set(closed), closed)

    def test_progress_is_told_and_output_and_status_are_the_programs(self):
        ran = self.auc("--progress", "run", "x", SAYS="round 1\nvector\nround 2", STATUS=6)
        self.assertEqual((ran.returncode, ran.stdout), (6, "round 1\nvector\nround 2\n"))
        self.assertEqual(ran.stderr.splitlines()[0], "auc: rounds written: 2, lines: 3")
        slow = "#!/bin/sh\nfor it in 1 2 3; do echo round $it; sleep 0.6; done\n"
        self.executable("top/crates/auc_cli/out/proved/auc", slow)
        told = self.auc("--progress", "run", "x").stderr.splitlines()
        self.assertEqual((len(told), told[-1]), (2, "auc: rounds written: 3, lines: 3"))

    def test_with_progress_an_output_that_fails_is_the_programs_write_fault(self):
        many = "#!/bin/sh\ntrap '' PIPE\nfor it in 1 2 3; do echo round $it || exit 5; sleep 0.2; done\n"
        for program in (many, "#!/bin/sh\necho round 1\n"):
            self.executable("top/crates/auc_cli/out/proved/auc", program)
            with open("/dev/full", "wb") as full:
                ran = self.auc("--progress", "run", "x", stdout=full)
                self.assertEqual(ran.returncode, 5)
                self.assertIn("auc: rounds written: 0, lines: 0\n", ran.stderr, "what wasn't written isn't counted")
        self.executable("top/crates/auc_cli/out/proved/auc", OPEN.format(self.room / "fds"))
        self.auc("--progress", "run", "x", preexec_fn=lambda: os.close(1))
        self.assertEqual((self.room / "fds").read_text().split(), ["0", "2"], "a closed output stays closed")

    def test_a_signal_ends_the_program_too(self):
        for number in (signal.SIGTERM, signal.SIGINT, signal.SIGHUP):
            self.executable("top/crates/auc_cli/out/proved/auc", f"#!/bin/sh\necho $$ >{self.room}/pid\nexec sleep 60\n")
            (self.room / "pid").write_text("")
            child = self.started("run", "x", stderr=subprocess.DEVNULL)
            pid = self.wait_for(self.room / "pid")
            child.send_signal(number)
            self.assertEqual(child.wait(SECONDS), 128 + number)
            self.assert_ends(pid)

    def test_a_new_journal_is_told_once(self):
        told = f"auc: a new journal was begun: {self.here}/auc.journal\n"
        self.assertEqual(self.auc("run", "x").stderr, "")
        self.assertEqual(self.auc("run", "x", JOURNAL=1).stderr, told)
        self.assertEqual(self.auc("run", "x", JOURNAL=1).stderr, "")
        (self.here / "auc.journal").write_text("")
        self.assertEqual(self.auc("run", "x", JOURNAL=1).stderr, told)

    def test_a_service_hears_the_callers_input_and_is_heard_at_once(self):
        echo = "#!/bin/sh\necho \"$*\"\nwhile read -r line; do echo \"got $line\"; done\nexit 8\n"
        self.executable("top/crates/auc_cli/out/proved/auc", echo)
        for options in ([], ["--progress"]):
            child = self.started(*options, "serve", "s.csv", stdin=subprocess.PIPE, **PIPES)
            self.assertEqual(child.stdout.readline(), "serve s.csv\n")
            for line in ("round\n", "end\n"):
                child.stdin.write(line)
                child.stdin.flush()
                self.assertEqual(child.stdout.readline(), f"got {line}")
            self.assertEqual(child.communicate(timeout=SECONDS)[0], "")
            self.assertEqual(child.returncode, 8)

    def test_a_new_journal_is_told_while_a_service_goes_on(self):
        begins = "#!/bin/sh\nread -r line\nprintf AUC-SQN-JOURNAL1 >auc.journal\necho $line\ncat\n"
        self.executable("top/crates/auc_cli/out/proved/auc", begins)
        for options in ([], ["--progress"]):
            child = self.started(*options, "serve", stdin=subprocess.PIPE, **PIPES)
            child.stdin.write("end\n")
            child.stdin.flush()
            self.assertEqual(child.stderr.readline(), f"auc: a new journal was begun: {self.here}/auc.journal\n")
            said, told = child.communicate("more\n", timeout=SECONDS)
            self.assertEqual((child.returncode, said), (0, "end\nmore\n"))
            self.assertNotIn("a new journal was begun", told, "it is told once")
            (self.here / "auc.journal").unlink()

    def test_reserved_makes_no_journal(self):
        ran = self.auc("reserved")
        self.assertEqual((ran.returncode, ran.stdout, ran.stderr), (4, "", f"auc: no journal in {self.here}\n"))
        self.assertEqual((list(self.here.iterdir()), self.noted()), ([], []))
        (self.here / "auc.journal").write_text("AUC-SQN-JOURNAL1")
        self.assertEqual(self.auc("reserved", SAYS="reserved 1 64").stdout, "reserved 1 64\n")

    def test_another_folder_holds_the_journal(self):
        centre, other = self.room / "centre", self.room / "other"
        centre.mkdir()
        other.mkdir()
        ran = self.auc("--journal-dir", "../centre", "run", "day.scenario", "sub/s.csv", JOURNAL=1, AUC_JOURNAL_DIR=other)
        self.assertEqual(ran.stderr, f"auc: a new journal was begun: {centre}/auc.journal\n")
        self.auc("--journal-dir", "../centre", "serve", "sub/s.csv")
        calls = [f"{centre}: run {self.here}/day.scenario {self.here}/sub/s.csv", f"{centre}: serve {self.here}/sub/s.csv"]
        self.assertEqual(self.noted(), calls)
        ran = self.auc("reserved", AUC_JOURNAL_DIR=other)
        self.assertEqual((ran.returncode, ran.stderr), (4, f"auc: no journal in {other}\n"))
        self.assertEqual(self.auc("--journal-dir=../centre", "reserved", SAYS="x").stdout, "x\n")
        self.assertFalse((self.here / "auc.journal").exists() or list(other.iterdir()))

    def test_a_folder_that_is_not_there_is_refused_and_not_made(self):
        for folder in ("gone", "", "file"):
            (self.here / "file").write_text("")
            for how in ({"AUC_JOURNAL_DIR": folder}, {}):
                words = ["run", "x"] if how else ["--journal-dir", folder, "run", "x"]
                ran = self.auc(*words, **how)
                self.assertEqual((ran.returncode, ran.stdout), (70, ""))
                self.assertRegex(ran.stderr, f"^auc: the folder of the journal, '{folder}': .*\\n$")
        self.assertEqual((sorted(it.name for it in self.here.iterdir()), self.noted()), (["file"], []))

    def test_a_folder_that_was_removed_is_told(self):
        gone = self.room / "gone"
        for words in (["run", "x"], ["reserved"], ["compact"], ["--journal-dir", self.here, "serve", "x"]):
            gone.mkdir()
            ran = self.auc(*words, cwd=gone, preexec_fn=gone.rmdir)
            self.assertEqual((ran.returncode, ran.stderr), (70, "auc: the folder that you call it in was removed\n"), words)
        self.assertEqual(self.noted(), [])

    def test_a_program_that_cannot_be_started_is_told_with_the_reason(self):
        for error, reason in ((OSError(11, "No room"), "No room"), (OSError(2, "None there", "x/auc"), "x/auc: None there")):
            with mock.patch.object(subprocess, "Popen", side_effect=error), self.assertRaises(Stopped) as told:
                running.started("x/auc", ["run"])
            self.assertEqual(str(told.exception), f"the program can't be started: {reason}")


class Explanations(Checkout):
    def setUp(self):
        super().setUp()
        self.proved()

    def said(self, status, says="", *, words=("run", "a.scenario", "s.csv"), **more):
        ran = self.auc(*words, STATUS=status, SAYS=says, **more)
        self.assertEqual((ran.returncode, ran.stdout), (status, says and says + "\n"))
        self.assertEqual(ran.stderr.count("\n"), 1, ran.stderr)
        return ran.stderr.rstrip("\n")

    def write(self, name, text):
        (self.here / name).write_bytes(text.encode() if isinstance(text, str) else text)

    def test_a_refused_line_is_shown_with_its_cause(self):
        self.write("a.scenario", "round\r\n\njob\n  draw 00101\tx \nlast")
        self.assertEqual(
            self.said(3, "refused scenario 4 fields"),
            "a.scenario:4: draw 00101 x: the number of fields is wrong, or one has another form (fields)")
        self.assertEqual(
            self.said(3, "refused scenario 5 unknownword"),
            "a.scenario:5: last: no line begins with this word (unknownword)")
        self.assertEqual(self.noted()[-1].split(": ")[1], f"run {self.here}/a.scenario {self.here}/s.csv")
        self.assertNotEqual(self.noted()[-1].split(": ")[0], str(self.here), "the second run isn't in the journal's folder")

    def test_a_comment_that_is_no_line_of_its_own_is_told(self):
        subscriber = f"subscriber 00101 {K} opc {OPC} 8000 0 0#"
        lines = ["round # note", "draw 00101 1 # note", " # note", "randkey 00 # note", subscriber]
        self.write("a.scenario", "\n".join([*lines, "draw 1", "session 1 00101 aka - - - =a#b"]))
        told = "; a comment is a line of its own, with # as its first byte"
        for place, why in enumerate(("fields", "fields", "unknownword", "fields", "usim"), 1):
            said = self.said(3, f"refused scenario {place} {why}")
            self.assertTrue(said.endswith(f" ({why}){told}"), said)
        for place, why in ((6, "fields"), (7, "unknownsubscriber")):
            self.assertTrue(self.said(3, f"refused scenario {place} {why}").endswith(f" ({why})"))

    def test_a_refused_record_is_found_as_the_program_counts(self):
        self.write("a.scenario", "round\n")
        self.write("s.csv", b"\xef\xbb\xbf" + f"\n{HEADER}\r\n\r\n{RECORD}\r12345,\"{K}\n{K}\",opc\n".encode())
        self.assertEqual(self.said(2, "refused subscribers 0 header")[:42], "s.csv:2: " + HEADER + ": the ")
        self.assertEqual(
            self.said(2, "refused subscribers 1 imsi"),
            "s.csv:4: 001010000000001,[32 characters],opc,[32 characters],8000,0,0: IMSI isn't 6 to 15 decimal digits (imsi)")
        self.assertEqual(
            self.said(2, "refused subscribers 2 fieldcount"),
            "s.csv:6: 12345,[65 characters],opc: the record doesn't have as many fields as the header (fieldcount)")

    def assert_no_key(self, said):
        for part in (key[at:at + 9] for key in (K, OPC) for at in range(24)):
            self.assertNotIn(part, said)

    def test_no_key_is_shown(self):
        lines = [
            f"subscriber 001010000000001 {K} opc {OPC} 8000 0", f"subscribr 1 {K[:31]}g opc {OPC[:9]} 8",
            f"randkey {K}{OPC}", f"draw {K} 1", f"subscriber {K[:16]} {K[16:]} opc x{OPC} 8000 0 0", K, f"session 1 {K} aka - - - ={OPC}",
        ]
        self.write("a.scenario", "\n".join(lines))
        for place in range(1, len(lines) + 1):
            self.assert_no_key(self.said(3, f"refused scenario {place} fields"))
        self.write("s.csv", f"{HEADER}\n001010000000001;{K};opc;{OPC};8000;0;0\n001010000000001,{K[:12]},opc,{OPC[:9]}")
        for place in (1, 2):
            self.assert_no_key(self.said(2, f"refused subscribers {place} fieldcount"))

    def test_a_terminal_gets_no_bytes_to_obey(self):
        self.write("a.scenario", b"draw \x1b[31m \xff " + b"x " * 500)
        said = self.said(3, "refused scenario 1 fields")
        self.assertIn("\\x1b[31m \\xff x x", said)
        self.assertLess(len(said), 300)

    def test_each_cause_of_the_guide_has_its_words(self):
        guide = (TOP / "docs/USER-GUIDE.md").read_text()
        records, lines = (set(re.findall(r"^\| `(\w+)` \|", guide[guide.index(head):].split("\n\n")[at], re.M))
                          for head, at in (("| WHY | When | Example of a record |", 0), ("| WHY | When | Example |", 0)))
        self.assertEqual(records, set(explain.CAUSES_OF_SUBSCRIBERS))
        self.assertEqual(lines | records - {"header", "fieldcount"}, set(explain.CAUSES_OF_LINES))

    def test_a_file_that_changed_meanwhile_is_named_all_the_same(self):
        self.write("a.scenario", "round\n")
        self.assertEqual(self.said(3, "refused scenario 7 fields"), "a.scenario: refused scenario 7 fields")
        self.assertEqual(self.said(3, "round 1"), "auc: the file of the scenario is refused (status 3)")

    def test_a_refused_header_is_not_heard_again(self):
        self.assertEqual(
            self.said(3, "refused scenario 2 fields", words=("serve",)),
            "auc: the header is refused, by the line on standard output (status 3)")
        self.assertEqual(len(self.noted()), 1)

    def test_a_refused_record_of_a_service_is_found_without_its_input(self):
        self.write("s.csv", f"{HEADER}\n12345\n")
        judge = '#!/bin/sh\nreadlink /proc/$$/fd/0 >>"$CALLS"\necho refused subscribers 1 fieldcount\nexit 2\n'
        self.executable("top/crates/auc_cli/out/proved/auc", judge)
        child = self.started("serve", "s.csv", stdin=subprocess.PIPE, **PIPES)
        self.assertEqual(child.stderr.readline(), "s.csv:2: 12345: the record doesn't have as many fields as the header (fieldcount)\n")
        self.assertEqual((child.communicate(timeout=SECONDS), child.returncode), (("refused subscribers 1 fieldcount\n", ""), 2))
        first, second = self.noted()
        self.assertEqual((first[:5], second), ("pipe:", "/dev/null"), "the second run takes nothing of the input")

    def test_faults_of_a_services_input_and_length_have_their_words(self):
        words = ("serve", "s.csv")
        self.assertEqual(self.said(4, words=words), "s.csv: No such file or directory (status 4)")
        self.write("s.csv", RECORD)
        self.assertEqual(self.said(4, words=words), "auc: standard input could not be read (status 4)")
        self.assertIn("the service has heard all blocks that it can number", self.said(9, words=words))
        with open(self.here / "s.csv", "wb") as file:
            file.truncate(67108865)
        self.assertEqual(self.said(9, words=words), "s.csv: it has 67108865 bytes, more than 67108864 (status 9)")

    def test_a_file_that_is_no_journal_is_named(self):
        self.assertEqual(
            self.said(7, "refused journal 5"),
            f"{self.here}/auc.journal: byte 5 shows that it is no journal. Don't delete it:"
            f" {self.top}/docs/USER-GUIDE.md has the cases (status 7)")

    def test_a_file_that_cannot_be_read_is_named_with_the_reason(self):
        self.write("a.scenario", "round\n")
        self.assertEqual(self.said(4), "s.csv: No such file or directory (status 4)")
        (self.here / "s.csv").mkdir()
        self.assertEqual(self.said(4), "s.csv: Is a directory (status 4)")
        (self.here / "s.csv").rmdir()
        os.mkfifo(self.here / "s.csv")
        self.assertEqual(self.said(4), "s.csv: Illegal seek (status 4)")
        self.assertEqual(self.said(4, words=("run", "a.scenario")), "auc: a file could not be read (status 4)")

    def test_a_file_without_permission_is_named(self):
        self.write("a.scenario", "round\n")
        (self.here / "a.scenario").chmod(0)
        said = self.said(4, words=("run", "a.scenario"), preexec_fn=as_a_user)
        self.assertEqual(said, "a.scenario: Permission denied (status 4)")

    def test_a_file_that_is_too_long_is_named(self):
        self.write("s.csv", "x")
        with open(self.here / "a.scenario", "wb") as file:
            file.truncate(67108865)
        self.assertEqual(self.said(9), "a.scenario: it has 67108865 bytes, more than 67108864 (status 9)")

    def test_a_lock_and_a_permission_and_a_full_disk_differ(self):
        journal = self.here / "auc.journal"

        def assert_told(reason, **more):
            said = self.said(6, words=("run", "x"), CALLS="", **more)
            self.assertTrue(said.startswith(f"{journal}: {reason}"), said)

        journal.write_text("AUC-SQN-JOURNAL1")
        assert_told("it could not be opened")
        with journal.open("r+") as file:
            fcntl.flock(file, fcntl.LOCK_EX)
            assert_told("another process has it open")
        assert_told("File too large", preexec_fn=lambda: resource.setrlimit(resource.RLIMIT_FSIZE, (0, 0)))
        journal.chmod(0)
        assert_told("Permission denied", preexec_fn=as_a_user)
        journal.unlink()
        journal.mkdir()
        assert_told("Is a directory")
        self.assertEqual(len(list(self.here.iterdir())), 1, "a trial leaves no file")

    def test_a_journal_that_is_no_file_is_told(self):
        journal = self.here / "auc.journal"
        absent = self.room / "absent/auc.journal"
        links = {"/dev/full": "it is no file", absent: "No such file or directory", journal: "Too many levels of symbolic links"}
        for target, reason in links.items():
            journal.symlink_to(target)
            self.assertEqual(self.said(6, words=("run", "x")), f"{target}: {reason} (status 6)")
            journal.unlink()
        os.mkfifo(journal)
        self.assertEqual(self.said(6, words=("run", "x")), f"{journal}: it is no file (status 6)")

    def test_each_other_status_has_its_sentence(self):
        sentences = {
            1: "these words are no command line", 5: "the output could not be written", 8: "the journal is full",
            10: "the memory ran out",
        }
        for status, words in sentences.items():
            self.assertIn(words, self.said(status, words=("run", "x")))
        self.assertEqual(self.auc("run", "x", STATUS=77).stderr, "")
        ran = self.auc("run", "x", STATUS=5, preexec_fn=lambda: os.close(1))
        self.assertEqual(ran.returncode, 5)
        self.assertEqual(ran.stderr, "auc: the output could not be written: standard output is closed (status 5)\n")

    def test_a_run_without_proof_is_explained_too(self):
        self.write("a.scenario", "draw 1\n")
        ran = self.auc("--unproved", "run", "a.scenario", SAYS="refused scenario 1 outoforder", STATUS=3)
        self.assertEqual((ran.returncode, ran.stdout), (3, "refused scenario 1 outoforder\n"))
        self.assertEqual(
            ran.stderr.splitlines(),
            ["auc: nothing is proved in this run", "a.scenario:1: draw 1: the line is in the wrong place (outoforder)"])
        self.assertEqual(self.noted(), [f"try --data input1={self.here}/a.scenario -- run input1"])
        self.auc("--unproved", "serve", "a.scenario")
        self.assertEqual(self.noted()[1:], [f"try --data input1={self.here}/a.scenario -- serve input1"])


class Builds(Checkout):
    def test_the_first_call_proves_side_by_side_and_runs(self):
        ran = self.auc("run", "x", SAYS="hello")
        self.assertEqual((ran.returncode, ran.stdout), (0, "hello\n"))
        self.assertEqual(self.noted()[0], "ci")
        self.assertEqual(self.noted()[1], "jobs=", "rt shares the processors")
        self.assertRegex(self.noted()[2], r": vector ")
        self.assertRegex(ran.stderr, r"(side by side|one crate after the other): 60 minutes of processor time, about \d+ by the clock")
        self.assertEqual([int(it) for it in re.findall(r"(\d+) percent", ran.stderr)], [96, 100])
        self.assertEqual((self.out / "build.log").read_text(), "rt: auc_low is kept: earlier\n== auc_cli\nhello\n")
        self.assertEqual(self.auc("run", "x").stderr, "")
        self.assertEqual(len(self.noted()), 5, "the second call builds nothing")

    def test_the_rest_is_reckoned_by_the_pace_of_this_machine(self):
        said, minutes = [], {"auc_low": 10, "auc_text": 5, "auc_run": 20, "auc_cli": 5}
        lines = ["rt: auc_low is kept: earlier", "== auc_text", "== auc_other", "== auc_run", "== auc_cli"]
        with mock.patch.object(costs, "minutes_by_crate", lambda: minutes), mock.patch.object(following, "say", said.append), \
                mock.patch.object(following.time, "monotonic", side_effect=[0, 600, 2000, 2010]):
            progress = following.Progress()
            for line in lines:
                progress.hear(line)
                progress.tell()
        self.assertEqual(said, [
            "25 percent of the work is done",
            "37 percent of the work is done; at this pace the rest takes 50 minutes",
            "87 percent of the work is done; at this pace the rest takes 7 minutes",
            "100 percent of the work is done"])

    def test_prove_builds_and_runs_nothing(self):
        self.assertEqual(self.auc("prove", "--jobs", "3").returncode, 0)
        self.assertEqual((len(self.noted()), self.noted()[:2]), (3, ["ci", "jobs=3"]))
        self.assertIn("proved/auc", self.auc("prove").stderr)
        self.assertEqual(len(self.noted()), 3, "a current program isn't built again")
        self.assertEqual(self.auc("prove", "--anew").returncode, 0)
        self.assertEqual(self.noted()[3:5], ["ci --anew", "jobs="])

    def test_one_rt_ci_proves_all_with_the_jobs_that_were_asked_for(self):
        for words, said, jobs in (
            ([], "ci", ""), (["--jobs", "1"], "ci", 1), (["--anew"], "ci --anew", ""), (["--jobs", "4", "--anew"], "ci --anew", 4),
        ):
            self.calls.write_text("")
            (self.out / "proved/auc").unlink(missing_ok=True)
            self.assertEqual(self.auc("prove", *words, RT_PAUSE=0).returncode, 0, words)
            self.assertEqual((len(self.noted()), self.noted()[:2]), (3, [said, f"jobs={jobs}"]), words)

    def test_a_crate_that_is_not_proved_gives_no_program_and_the_log_says_so(self):
        ran = self.auc("prove", RT_FAILS=1)
        self.assertEqual((ran.returncode, ran.stdout), (70, ""))
        self.assertIn(f"the program was not built; see {self.out}/build.log", ran.stderr)
        self.assertEqual((self.out / "build.log").read_text(), "rt: auc_low NOT PROVED\n")
        self.assertEqual(self.noted(), ["ci"], "nothing is called after that")
        self.assertFalse((self.out / "proved/auc").exists())

    def test_a_kit_whose_gate_leaves_no_program_builds_it_after_that(self):
        self.assertEqual(self.auc("run", "x", SAYS="hello", RT_LEAVES_NONE=1).stdout, "hello\n")
        self.assertEqual([it.split()[0] for it in self.noted()[:3:2]], ["ci", "run"])
        self.assertEqual(self.auc("prove", "--anew", RT_LEAVES_NONE=1, RT_FAILS=1).returncode, 70)

    def test_the_builder_gets_the_programs_crates_alone(self):
        others = ["auc_low/out/x.rt", "auc_low/must-fail/x.edit", "auc_tests/src/lib.rt"]
        for name in (*others, "auc_low/proofs/out/Answers.antt"):
            (self.top / "crates" / name).parent.mkdir(parents=True)
            (self.top / "crates" / name).write_text("")
        with (self.top / "crates.txt").open("a") as file:
            file.write("auc_tests: auc_low\n")
        self.assertEqual(self.auc("prove").returncode, 0)
        wanted = {"auc_cli/src/main.rt", "auc_low/proofs/out/Answers.antt", "auc_low/src/lib.rt"}
        found = (self.room / "files").read_text().splitlines()
        self.assertEqual({*found}, {"./HANDLES", "./crates.txt", *(f"./crates/{it}" for it in wanted)})
        self.assertEqual(list((self.room / "tmp").iterdir()), [])

    def test_the_old_program_stays_until_the_new_one_is_there(self):
        for place in ("proved/auc", "auc_cli"):
            shutil.rmtree(self.out, ignore_errors=True)
            old = self.executable(f"top/crates/auc_cli/out/{place}", "#!/bin/sh\necho old\n")
            self.aged(old)
            ran = self.auc("run", "x", RT_FAILS=1)
            self.assertEqual((ran.returncode, ran.stdout), (70, ""), "the old program isn't run unless it is asked for")
            ran = self.auc("--old", "run", "x", RT_FAILS=1)
            self.assertEqual((ran.returncode, ran.stdout), (0, "old\n"))
            self.assertIn("proved before the sources changed", ran.stderr)
            self.assertEqual(self.auc("run", "x", SAYS="new").stdout, "new\n")
            self.assertEqual(self.auc("--old", "run", "x", SAYS="new").stderr, "", "a current program is no old one")
        self.assertIn("no program was proved here", self.changed_and_old())

    def changed_and_old(self):
        shutil.rmtree(self.out)
        return self.auc("--old", "run", "x").stderr

    def test_a_program_that_fails_its_trial_is_not_taken(self):
        bad = self.executable("bad", "#!/bin/sh\nexit 1\n")
        self.assertEqual(self.auc("run", "x", RT_PROGRAM=bad).returncode, 70)
        self.assertFalse((self.out / "proved/auc").exists())

    def test_a_source_that_changes_during_the_build_makes_it_old(self):
        self.assertEqual(self.auc("prove", RT_EDITS=self.top / "crates/auc_low/src/lib.rt").returncode, 0)
        self.assertIn("not proved", self.auc("--version").stdout)

    def test_two_calls_at_once_build_once(self):
        gate = self.room / "gate"
        first = self.started("prove", RT_GATE=gate, stderr=subprocess.DEVNULL)
        self.wait_for(self.calls)
        second = self.started("prove", RT_GATE=gate, **PIPES)
        self.assertIn("another call builds the program", second.stderr.readline())
        gate.write_text("open")
        self.assertEqual((first.wait(SECONDS), second.wait(SECONDS)), (0, 0))
        second.communicate()
        self.assertEqual(self.noted().count("ci"), 1)

    def test_the_builder_ends_if_nobody_listens_any_more(self):
        child = self.started("run", "x", RT_NAP=60, stderr=subprocess.PIPE)
        pid = self.wait_for(self.room / "pid")
        child.stderr.close()
        self.assertEqual(child.wait(SECONDS), 70)
        self.assert_ends(pid)
        self.assertEqual(list((self.room / "tmp").iterdir()), [], "nothing is left behind")

    def test_the_builder_ends_however_the_script_ends(self):
        for number in (signal.SIGTERM, signal.SIGINT, signal.SIGKILL):
            (self.room / "pid").write_text("")
            child = self.started("run", "x", RT_NAP=60, stderr=subprocess.DEVNULL)
            pid = self.wait_for(self.room / "pid")
            child.send_signal(number)
            child.wait(SECONDS)
            self.assert_ends(pid)
            if number != signal.SIGKILL:
                self.assertEqual(list((self.room / "tmp").iterdir()), [], "nothing is left behind")

    def test_a_build_without_standard_error_is_silent(self):
        ran = self.auc("run", "x", SAYS="hello", preexec_fn=lambda: os.close(2))
        self.assertEqual((ran.returncode, ran.stdout), (0, "hello\n"))
        self.assertEqual((self.out / "build.log").read_text(), "rt: auc_low is kept: earlier\n== auc_cli\nhello\n")

    def test_a_machine_without_the_kit_is_told(self):
        ran = self.auc("run", "x", without_rt=True)
        self.assertEqual((ran.returncode, ran.stdout), (70, ""))
        self.assertIn("the command rt of the Rattle kit isn't on the PATH", ran.stderr)


AVX2 = " ".join(processor.FEATURES)
OTHERS = AVX2.replace(" avx2", "")
NAMES = ["auc", "auc.x86-64-v3"]


class Processors(unittest.TestCase):
    def chosen(self, text, portable=False, can=True):
        """The sentence on the processor for this text of /proc/cpuinfo; without a text there is no such file."""
        with tempfile.TemporaryDirectory() as room, mock.patch.object(compiling, "can_build_for", lambda _: can):
            file = Path(room) / "cpuinfo"
            file.write_text(text) if text else None
            with mock.patch.object(processor, "CPUINFO", file):
                return processor.choice(portable).sentence().removeprefix("the program is built for ")

    def test_each_feature_of_each_processor_counts(self):
        own = "x86-64-v3: this processor has it. The default, x86-64-v2, is built too"
        cases = [
            (f"flags\t\t: fpu {AVX2} avx512f\n", own),
            (f"flags : {AVX2.replace('abm', 'lzcnt')}\n", own),
            *((f"flags : {' '.join({*processor.FEATURES} - {it})}\n", f"x86-64-v2, the default: this processor lacks {it} of x86-64-v3")
              for it in processor.FEATURES),
            (f"flags : {AVX2}\nflags : {OTHERS}\n", "x86-64-v2, the default: this processor lacks avx2 of x86-64-v3"),
            (f"vmx flags : {AVX2}\nFeatures : asimd\n", "x86-64-v2, the default: the system doesn't tell what this processor has"),
            ("", "x86-64-v2, the default: the system doesn't tell what this processor has"),
        ]
        for text, sentence in cases:
            self.assertEqual(self.chosen(text), sentence, text)

    def test_the_kit_and_the_caller_count_too(self):
        text = f"flags : {AVX2}\n"
        self.assertEqual(self.chosen(text, portable=True), "x86-64-v2, the default: --portable asks for it")
        self.assertEqual(self.chosen(text, can=False), "x86-64-v2, the default: this kit doesn't build for x86-64-v3")

    def test_only_a_whole_proof_for_the_processor_counts(self):
        end = "sum=0 native=nat,char,string logic-built=trusted libraries-built=trusted"
        line = f"logic=proved functions=9 axioms=5 target=x86_64-unknown-linux-gnu cpu=x86-64-v3 {end}"
        for it in (line, f"{line} statements=trusted"):
            self.assertTrue(compiling.is_proved(["rt: x", it, "linked"], "x86-64-v3"), it)
        others = ["logic=not-proved", line.replace("v3", "v2"), line.replace("cpu=x86-64-v3 ", ""), line.replace("cpu", "hides=1 cpu"),
                  f"{line} incremental=trusted", line.replace("sum", "foreign=1 sum"), f"{line}x"]
        for it in [[], *([line, it] for it in others)]:
            self.assertFalse(compiling.is_proved(it, "x86-64-v3"), it)


class BuildsForProcessors(Checkout):
    def setUp(self):
        super().setUp()
        self.environment["RT_PAUSE"] = "0"

    def kept(self):
        return sorted(it.name for it in (self.out / "proved").iterdir())

    def rattle(self):
        """The calls of the kit's own commands so far."""
        return [it for it in self.noted() if it.startswith("rattle")]

    def own(self):
        """A program that tells that it is the one for this processor."""
        return self.executable("own", "#!/bin/sh\n[ \"$1\" = vector ] || echo own\n")

    def test_with_avx2_the_program_is_built_for_it_and_run(self):
        self.processors(AVX2)
        ran = self.auc("run", "x", LINKED=self.own(), SAYS="default")
        self.assertEqual((ran.returncode, ran.stdout), (0, "own\n"))
        self.assertIn("61 minutes of processor time", ran.stderr, "the program's crate is proved once more")
        self.assertIn("auc: the program is built for x86-64-v3: this processor has it. The default, x86-64-v2, is built too\n", ran.stderr)
        self.assertEqual((self.kept(), self.noted()[0]), (NAMES, "ci"))
        proved, linked = self.rattle()
        for words in ("rattle build --crate-name auc_cli src/main.rt ", f" --extern std={self.room}/kit/rlibs/std.rlib ",
                      " --extern auc_low=../auc_low/out/rlib/auc_low.rlib ", " -L dependency=../auc_low/out/rlib ", " --cpu=x86-64-v3 "):
            self.assertIn(words, proved)
        self.assertIn(" -o out/x86-64-v3 out/x86-64-v3.o ", linked)
        ran = self.auc("run", "x", RT_FAILS=1)
        self.assertEqual((ran.stdout, ran.stderr), ("own\n", ""), "the second call builds nothing")
        self.assertRegex(self.auc("--version").stdout, "\nproved and built here from these sources, for x86-64-v3\n")
        ran = self.auc("--portable", "run", "x", SAYS="default", RT_FAILS=1)
        self.assertEqual((ran.stdout, ran.stderr), ("default\n", ""), "the default is there, too")

    def test_without_avx2_the_default_is_built_and_the_lack_told(self):
        self.processors(AVX2, OTHERS)
        ran = self.auc("run", "x", SAYS="default")
        self.assertEqual((ran.returncode, ran.stdout), (0, "default\n"))
        self.assertIn("auc: the program is built for x86-64-v2, the default: this processor lacks avx2 of x86-64-v3\n", ran.stderr)
        self.assertEqual((self.kept(), self.rattle()), (["auc"], []))
        self.assertRegex(self.auc("--version").stdout, "\nproved and built here from these sources, for x86-64-v2\n")

    def test_portable_builds_the_default_alone_and_prove_the_other_one_after_that(self):
        self.processors(AVX2)
        ran = self.auc("prove", "--portable")
        self.assertIn("auc: the program is built for x86-64-v2, the default: --portable asks for it\n", ran.stderr)
        self.assertEqual((ran.returncode, self.kept(), self.rattle()), (0, ["auc"], []))
        self.assertEqual(self.auc("run", "x", SAYS="default").stdout, "default\n", "a current program is run")
        self.assertIn(f"the proved program is {self.out}/proved/auc.x86-64-v3\n", self.auc("prove", LINKED=self.own()).stderr)
        self.assertEqual((self.kept(), len(self.rattle())), (NAMES, 2))
        calls = len(self.noted())
        for words, name in ((["prove"], "auc.x86-64-v3"), (["prove", "--portable"], "auc")):
            self.assertTrue(self.auc(*words).stderr.endswith(f"the proved program is {self.out}/proved/{name}\n"))
        self.assertEqual(len(self.noted()), calls, "both are current")

    def test_a_kept_program_for_another_processor_is_not_run(self):
        program = self.proved("auc.x86-64-v3")
        self.processors(OTHERS)
        self.assertEqual(self.auc("run", "x", SAYS="own", RT_FAILS=1).returncode, 70)
        self.assertIn("not proved", self.auc("--version").stdout)
        self.assertIn("no program was proved here yet", self.auc("--old", "run", "x").stderr)
        self.processors(AVX2)
        self.assertEqual(self.auc("run", "x", SAYS="own", RT_FAILS=1).stdout, "own\n")
        self.assertEqual(self.auc("--portable", "run", "x", SAYS="own", RT_FAILS=1).returncode, 70)
        self.aged(program)
        self.assertEqual(self.auc("--old", "run", "x", SAYS="old").stdout, "old\n")

    def test_if_it_cannot_be_built_for_this_processor_the_default_is_run(self):
        self.processors(AVX2)
        bad = self.executable("bad", "#!/bin/sh\nexit 1\n")
        failed = f"the program could not be built for x86-64-v3, so it is that for x86-64-v2; see {self.out}/build.log\n"
        cases = [({"RATTLE_CPU": "x86-64-v2"}, failed), ({"LINKED": bad}, failed), ({"KIT": "none"}, "doesn't build for x86-64-v3\n")]
        for how, told in cases:
            ran = self.auc("prove", "--anew", **how)
            self.assertEqual((ran.returncode, self.kept()), (0, ["auc"]), how)
            self.assertIn(told, ran.stderr)
        self.assertEqual(self.auc("run", "x", SAYS="default").stdout, "default\n")


class Releases(Checkout):
    def setUp(self):
        super().setUp()
        self.proved()
        (self.out / "auc_cli").write_bytes(self.program.read_bytes())
        self.log = self.room / "log"
        self.log.write_text("rt: ok, all of it\nother\n3 passed, 0 failed\n")
        made = self.auc(self.log, script="bench/release.py")
        self.assertEqual((made.returncode, made.stdout, made.stderr), (0, "release: written for version 1.2.3\n", ""))
        shutil.rmtree(self.out)

    def check(self):
        return self.auc("--check", script="bench/release.py")

    def built(self, content):
        self.out.mkdir(exist_ok=True)
        (self.out / "auc_cli").write_bytes(content)

    def test_the_first_call_runs_it_at_once_without_the_kit(self):
        began = time.monotonic()
        ran = self.auc("run", "x", SAYS="hello", without_rt=True)
        self.assertLess(time.monotonic() - began, 5)
        self.assertEqual((ran.returncode, ran.stdout), (0, "hello\n"))
        self.assertRegex(ran.stderr, r"^auc: this is the proved program of version 1\.2\.3, .*stand-in kit.*`./auc prove`.*\n$")
        self.assertEqual(self.auc("run", "x", without_rt=True).stderr, "", "it is told once")
        self.assertEqual([it.name for it in self.out.iterdir()], ["release.said"], "nothing is unpacked into a file")
        said = self.auc("--version").stdout
        self.assertIn("the proved program of version 1.2.3, built from these sources with stand-in kit", said)

    def test_it_is_what_the_gate_passed(self):
        facts = (self.top / "release/release.json").read_text()
        self.assertIn('"rt: ok, all of it",\n    "3 passed, 0 failed"', facts)
        shell = (
            "find crates.txt crates -name out -prune -o -type f \\( -name '*.rt' -o -name '*.antt' -o -name crates.txt \\)"
            " -print | LC_ALL=C sort | xargs sha256sum | sha256sum"
        )
        self.assertIn(subprocess.check_output(shell, shell=True, cwd=self.top, text=True).split()[0], facts)

    def test_modes_and_times_and_other_files_do_not_count(self):
        source = self.top / "crates/auc_low/src/lib.rt"
        source.chmod(0o755)
        os.utime(source)
        for name in ("crates/auc_low/stdout", "crates/auc_low/out/x.rt", "README.md"):
            (self.top / name).parent.mkdir(exist_ok=True)
            (self.top / name).write_text("other")
        self.assertEqual(self.auc("run", "x", without_rt=True).returncode, 0)

    def test_other_sources_are_built(self):
        changes = {
            "crates/auc_low/src/lib.rt": "loW",
            "crates.txt": "auc_cli: auc_low\nauc_low: \n",
            "crates/auc_low/specs/Lib.antt": "",
        }
        for name, text in changes.items():
            path = self.top / name
            was = path.read_text() if path.exists() else None
            path.parent.mkdir(exist_ok=True)
            path.write_text(text)
            self.assertEqual(self.auc("run", "x", without_rt=True).returncode, 70, name)
            self.assertEqual(self.auc("run", "x", RT_FAILS=1).returncode, 70, name)
            self.assertEqual(self.noted()[-1], "ci", name)
            ran = self.auc("--old", "run", "x", SAYS="old", RT_FAILS=1)
            self.assertEqual(ran.stdout, "old\n")
            self.assertEqual(ran.stderr, "auc: this is the proved program of version 1.2.3; the sources at hand are others\n")
            self.assertIn("so nothing is compared", self.check().stdout)
            path.write_text(was) if was is not None else path.unlink()
        self.assertEqual(self.auc("run", "x", without_rt=True).returncode, 0)

    def test_prove_builds_here(self):
        self.processors(AVX2)
        self.assertIn("`./auc prove` proves and builds it here, for x86-64-v3\n", self.auc("run", "x").stderr)
        self.assertEqual(self.noted().pop(), f"{self.here}: run x", "the program of the release is run, and none built")
        self.calls.unlink()
        self.assertEqual(self.auc("prove").returncode, 0)
        self.assertEqual(self.noted()[0], "ci")
        self.assertIn("proved and built here", self.auc("--version").stdout)

    def test_one_byte_changed_is_refused(self):
        for path in sorted((self.top / "release").iterdir()):
            was = path.read_bytes()
            for at in {0, 9, len(was) // 2, len(was) - 1}:
                path.write_bytes(was[:at] + bytes([was[at] ^ 1]) + was[at + 1:])
                for words in (["run", "x"], ["--old", "run", "x"]):
                    ran = self.auc(*words, SAYS="hello")
                    self.assertEqual((ran.returncode, ran.stdout), (70, ""), (path.name, at))
                    self.assertRegex(ran.stderr, r"release was changed.*\n$")
            path.unlink()
            self.assertEqual(self.auc("run", "x").returncode, 70, path.name)
            self.assertNotEqual(self.check().returncode, 0)
            path.write_bytes(was)
        self.assertEqual(self.noted(), [], "neither the program was run nor rt")

    def test_a_program_that_is_not_the_one_of_the_gate_is_refused(self):
        folder = self.top / "release"
        facts = json.loads((folder / "release.json").read_text())
        (folder / "release.json").write_text(json.dumps({**facts, "program": "0" * 64}))
        sums = subprocess.check_output(["sha256sum", "auc.gz", "release.json"], cwd=folder)
        (folder / "SHA256SUMS").write_bytes(sums)
        ran = self.auc("run", "x", SAYS="hello")
        self.assertEqual((ran.returncode, ran.stdout), (70, ""))
        self.assertTrue(ran.stderr.endswith("doesn't hold the program that release.json names, so it isn't run\n"), ran.stderr)

    def test_a_checkout_that_cannot_be_written_runs_too(self):
        subprocess.run(["chmod", "-R", "a+rX,a-w", str(self.top)], check=True)
        self.addCleanup(subprocess.run, ["chmod", "-R", "u+w", str(self.top)])
        self.room.chmod(0o777)
        self.here.chmod(0o777)
        how = {"without_rt": True, "preexec_fn": as_a_user, "CALLS": ""}
        first, second = (self.auc("run", "x", SAYS="hello", **how) for _ in range(2))
        self.assertEqual((first.stdout, second.stdout), ("hello\n", "hello\n"))
        self.assertEqual((first.stderr.count("\n"), second.stderr), (1, ""), "it is told once")
        self.assertEqual(self.auc("run", "x", SAYS="hello", XDG_CACHE_HOME="/proc/none", **how).stdout, "hello\n")

    def test_many_calls_at_once(self):
        children = [self.started("run", "x", SAYS="hello", **PIPES) for _ in range(8)]
        for child in children:
            self.assertEqual(child.communicate(timeout=SECONDS)[0], "hello\n")

    def test_a_release_needs_a_green_gate_and_its_program(self):
        before = (self.top / "release/release.json").read_bytes()
        (self.top / "CHANGELOG.md").write_text("## 1.2.4\n")
        self.built(b"new program")
        for text in ("", "3 passed, 1 failed\n", "0 passed, 0 failed\n", "3 passed, 0 failed\nmore\n"):
            self.log.write_text(text)
            self.assertEqual(self.auc(self.log, script="bench/release.py").returncode, 1, text)
        self.log.write_text("4 passed, 0 failed\n")
        self.aged(self.out / "auc_cli")
        self.assertIn("changed after", self.auc(self.log, script="bench/release.py").stderr)
        self.assertEqual((self.top / "release/release.json").read_bytes(), before)
        self.built(b"new program")
        self.assertEqual(self.auc(self.log, script="bench/release.py").returncode, 0)
        self.assertIn("1.2.4", (self.top / "release/release.json").read_text())

    def test_the_gate_compares_the_program(self):
        self.assertEqual(self.check().returncode, 1, "there is no program to compare")
        self.built(self.program.read_bytes())
        self.assertEqual((self.check().returncode, self.check().stdout[-13:]), (0, "byte by byte\n"))
        self.built(self.program.read_bytes() + b"\n")
        self.assertEqual(self.check().returncode, 1)
        shutil.rmtree(self.top / "release")
        self.assertEqual((self.check().returncode, self.check().stdout), (0, "release: there is none\n"))


if __name__ == "__main__":
    run_main(unittest.main, __doc__)
