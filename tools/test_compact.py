#!/usr/bin/env python3
"""Tests `auc compact` with the program behind it, in a small checkout, and with stand-ins that fail.

    tools/test_compact.py [PROGRAM]      PROGRAM: crates/auc_cli/out/auc_cli, unless it is given

The exit status is 0 only if each test passes.
"""
import fcntl
import os
import signal
import subprocess
import sys
import unittest
from pathlib import Path
from unittest import mock

from ends import run_main
from launcher import compacting
from small_checkout import PIPES, SECONDS, TOP, Checkout, as_a_user
from trial import HEADER, KEYS

PROGRAM = str(TOP / "crates/auc_cli/out/auc_cli")
SUBSCRIBERS, ROUNDS, FIRST = 5, 10, "001010000000000"
IMSIS = [f"00101{it:010}" for it in range(SUBSCRIBERS)]
NO_JOURNAL_BEGIN = b"AUC-SQN-REPLACED"
# A stand-in that writes a part of a journal and fails, or waits for a signal.
FAILS = "#!/bin/sh\n[ \"$1\" != compact ] || { printf AUC-SQN-JOURNAL1; exit 5; }\n"
WAITS = "#!/bin/sh\necho $$ >{}\nexec sleep 60\n"
# Runs the script, whose first or second process is killed before its call of this number, from 0, among those that matter; or both
# at once, before a call of the second one.
KILLED = """import os, runpy, signal, subprocess, sys
script, who, left, first = sys.argv[1], sys.argv[2], int(sys.argv[3]), os.getpid()

def counted(call):
    def called(*given):
        global left
        if (os.getpid() == first) == (who == "first"):
            if left == 0:
                for number in [first, os.getpid()] if who == "both" else [os.getpid()]:
                    os.kill(number, signal.SIGKILL)
            left -= 1
        return call(*given)
    return called

for name in ("fchown", "fchmod", "fork", "waitpid", "replace", "fsync", "pwrite", "rmdir"):
    setattr(os, name, counted(getattr(os, name)))
sys.argv[1:] = ["compact"]
runpy.run_path(script, run_name="__main__")
"""


class Compactions(Checkout):
    """A centre whose journal has many frames."""

    def setUp(self):
        super().setUp()
        self.program = Path(PROGRAM)
        self.own = self.proved()
        self.journal = self.here / "auc.journal"
        rows = [f"{it},{','.join(KEYS)}\n" for it in IMSIS]
        (self.here / "s.csv").write_text("".join([f"{HEADER}\n", *rows]))
        round_lines = ["round\n", *(f"job\ndraw {it} 64\n" for it in IMSIS)]
        (self.here / "many.scenario").write_text("".join(round_lines * ROUNDS))
        self.assertEqual(self.auc("run", "many.scenario", "s.csv").returncode, 0)
        self.others = sorted(os.listdir(self.here))

    def stand_in(self, text):
        self.own.write_text(text)
        os.utime(self.own)

    def limits(self):
        ran = self.auc("reserved")
        self.assertEqual((ran.returncode, ran.stderr), (0, ""))
        return ran.stdout

    def assert_untouched(self, before):
        self.assertEqual(self.journal.read_bytes(), before)
        self.assertEqual(sorted(os.listdir(self.here)), self.others)

    def refused(self, status, reason, **more):
        """A call that ends with this status and a line, and leaves the journal and its folder as they are."""
        before = self.journal.read_bytes()
        ran = self.auc("compact", **more)
        self.assertEqual((ran.returncode, ran.stdout), (status, ""))
        self.assertRegex(ran.stderr, rf"\A{reason}\n\Z")
        self.assert_untouched(before)

    def test_journal_gets_shorter_and_keeps_its_limits(self):
        before, limits = self.journal.stat(), self.limits()
        self.assertEqual(len(limits.splitlines()), SUBSCRIBERS)
        ran = self.auc("compact")
        after = self.journal.stat()
        told = f"auc.journal: {before.st_size} bytes before, {after.st_size} after\n"
        self.assertEqual((ran.returncode, ran.stdout, ran.stderr), (0, told, ""))
        self.assertLess(after.st_size, 20 * SUBSCRIBERS + 20)
        self.assertEqual(self.limits(), limits)
        self.assertEqual(sorted(os.listdir(self.here)), self.others)

    def test_numbers_go_on_above_the_limits(self):
        limits = dict(line.split()[1:] for line in self.limits().splitlines())
        self.assertEqual(self.auc("compact").returncode, 0)
        (self.here / "one.scenario").write_text(f"round\njob\ndraw {FIRST} 1\n")
        said = self.auc("run", "one.scenario", "s.csv").stdout
        self.assertIn(f"vector {FIRST} {int(limits[FIRST]) + 1}\n", said)

    def test_second_compaction_leaves_the_journal(self):
        self.assertEqual(self.auc("compact").returncode, 0)
        before, content = self.journal.stat(), self.journal.read_bytes()
        ran = self.auc("compact")
        told = f"auc.journal: {before.st_size} bytes, and a new one would have {before.st_size}: it stays\n"
        self.assertEqual((ran.returncode, ran.stdout, ran.stderr), (0, told, ""))
        self.assertEqual(self.journal.stat().st_ino, before.st_ino)
        self.assert_untouched(content)

    def test_new_journal_has_owner_group_and_mode_of_the_old_one(self):
        for mode in (0o600, 0o640):
            self.journal.chmod(mode)
            if os.getuid() == 0:
                os.chown(self.journal, 12, 34)
            before = self.journal.stat()
            self.assertEqual(self.auc("compact").returncode, 0)
            after = self.journal.stat()
            self.assertEqual((after.st_uid, after.st_gid, after.st_mode), (before.st_uid, before.st_gid, before.st_mode))
            self.assertEqual(self.auc("run", "many.scenario", "s.csv").returncode, 0)

    def test_another_folder_may_hold_the_journal(self):
        other = self.room / "other"
        other.mkdir()
        before = self.journal.stat().st_size
        ran = self.auc("--journal-dir", self.here, "compact", cwd=other)
        self.assertEqual((ran.returncode, ran.stderr, os.listdir(other)), (0, "", []))
        self.assertLess(self.journal.stat().st_size, before)

    def test_link_to_a_journal_stays_a_link(self):
        other = self.room / "other"
        other.mkdir()
        (other / "auc.journal").symlink_to(self.journal)
        limits = self.limits()
        self.assertEqual(self.auc("compact", cwd=other).returncode, 0)
        self.assertTrue((other / "auc.journal").is_symlink())
        self.assertEqual((os.listdir(other), self.limits()), (["auc.journal"], limits))

    def test_locked_journal_is_refused(self):
        with self.journal.open("rb") as held:
            fcntl.flock(held, fcntl.LOCK_EX)
            self.refused(6, f"{self.journal}: another process has it open: one run at a time \\(status 6\\)")

    def test_journal_of_a_service_is_refused(self):
        service = self.started("serve", "s.csv", stdin=subprocess.PIPE, **PIPES)
        service.stdin.write("end\n")
        service.stdin.flush()
        self.assertEqual(service.stdout.readline(), "ready\n")
        self.refused(6, f"{self.journal}: another process has it open: one run at a time \\(status 6\\)")
        service.communicate(timeout=SECONDS)

    def test_folder_without_a_journal_is_told(self):
        self.journal.unlink()
        self.others.remove("auc.journal")
        ran = self.auc("compact")
        self.assertEqual((ran.returncode, ran.stdout, ran.stderr), (4, "", f"auc: no journal in {self.here}\n"))
        self.assertEqual(sorted(os.listdir(self.here)), self.others)

    def test_file_that_is_no_journal_is_refused(self):
        for content in (b"imsi,k,kind,op,amf,seq,usim\n" * 100, b"AUC-SQN-JOURNAL2" + bytes(100)):
            self.journal.write_bytes(content)
            self.refused(7, f"{self.journal}: byte \\d+ shows that it is no journal\\. .* \\(status 7\\)")
        self.journal.unlink()
        self.journal.mkdir()
        ran = self.auc("compact")
        self.assertEqual((ran.returncode, ran.stderr), (6, f"{self.journal}: Is a directory (status 6)\n"))

    def test_journal_that_links_to_itself_is_refused(self):
        self.journal.unlink()
        self.journal.symlink_to("auc.journal")
        ran = self.auc("compact")
        self.assertEqual((ran.returncode, ran.stderr), (6, f"{self.journal}: Too many levels of symbolic links (status 6)\n"))

    def test_what_stands_in_the_place_of_its_folder_is_refused_and_stays(self):
        place = self.here / compacting.ROOM
        self.others = sorted([*self.others, place.name])
        makers = (place.touch, lambda: os.mkfifo(place), lambda: place.symlink_to(self.room), lambda: place.symlink_to("absent"))
        for make in makers:
            make()
            self.refused(6, f"{place}: it is no folder \\(status 6\\)")
            place.unlink()

    def test_program_that_fails_changes_nothing(self):
        self.stand_in(FAILS)
        self.refused(5, f"{self.journal}: a new one could not be written beside it \\(status 5\\)")
        for status in (6, 8, 9, 10):
            self.stand_in(f"#!/bin/sh\nexit {status}\n")
            self.refused(status, f"(auc|{self.journal}): .* \\(status {status}\\)")

    def test_folder_that_cannot_be_written_changes_nothing(self):
        self.here.chmod(0o555)
        self.addCleanup(self.here.chmod, 0o755)
        self.refused(6, f"({self.journal}|{self.here / compacting.ROOM}): Permission denied \\(status 6\\)", preexec_fn=as_a_user)

    def test_signal_ends_it_and_changes_nothing(self):
        before = self.journal.read_bytes()
        for number in (signal.SIGTERM, signal.SIGINT, signal.SIGHUP):
            self.stand_in(WAITS.format(self.room / "pid"))
            (self.room / "pid").write_text("")
            child = self.started("compact", **PIPES)
            self.wait_for(self.room / "pid")
            child.send_signal(number)
            self.assertEqual((child.communicate(timeout=SECONDS)[0], child.returncode), ("", 128 + number))
            self.assert_untouched(before)

    def test_output_that_cannot_be_written_is_told(self):
        before = self.journal.read_bytes()
        ran = self.auc("compact", preexec_fn=lambda: os.close(1))
        self.assertEqual((ran.returncode, ran.stderr), (5, "auc: the output could not be written: standard output is closed (status 5)\n"))
        self.assert_untouched(before)
        with open("/dev/full", "wb") as full:
            ran = self.auc("compact", stdout=full)
        self.assertEqual(ran.returncode, 5)
        self.assertLess(self.journal.stat().st_size, len(before))

    def test_other_words_are_the_programs(self):
        before = self.journal.read_bytes()
        self.assertEqual((self.auc("compact", "x").returncode, self.auc("--unproved", "compact").returncode), (1, 1))
        self.assert_untouched(before)

    def test_process_that_opened_the_old_file_never_goes_on_with_it(self):
        old = self.room / "old"
        old.mkdir()
        os.link(self.journal, old / "auc.journal")
        size = self.journal.stat().st_size
        with self.journal.open("rb") as held:
            self.assertEqual(self.auc("compact").returncode, 0)
            # What such a process gets: the lock, and a file of the same length that is no journal.
            fcntl.flock(held, fcntl.LOCK_EX | fcntl.LOCK_NB)
            self.assertEqual((held.read(16), os.fstat(held.fileno()).st_size), (NO_JOURNAL_BEGIN, size))
        for words in (["run", "many.scenario", "s.csv"], ["reserved"]):
            ran = self.auc("--journal-dir", old, *words)
            self.assertEqual((ran.returncode, ran.stdout), (7, "refused journal 0\n"))
        self.assertEqual((old / "auc.journal").stat().st_size, size)

    def killed(self, who, place):
        """A call whose first or second process, or both, are killed at this place: its status, whether the journal is the new one, and the
        first bytes of the old file."""
        for path in (self.journal, self.old):
            path.unlink(missing_ok=True)
        self.journal.write_bytes(self.before)
        os.link(self.journal, self.old)
        words = [sys.executable, "-S", "-c", KILLED, self.top / "auc", who, str(place)]
        status = subprocess.run(words, **self.how({}), stdout=subprocess.DEVNULL, stderr=subprocess.DEVNULL).returncode
        with self.old.open("rb") as held:
            # The process that is left may be at work.
            fcntl.flock(held, fcntl.LOCK_EX)
            found = self.journal.read_bytes()
            self.assertIn(found, (self.before, self.after), (who, place))
            return status, found == self.after, held.read(16)

    def compact_once(self):
        self.before, self.old = self.journal.read_bytes(), self.room / "old"
        self.assertEqual(self.auc("compact").returncode, 0)
        self.after = self.journal.read_bytes()

    def test_kill_of_one_process_leaves_the_old_journal_or_the_new_one(self):
        self.compact_once()
        found = [self.killed("first", 0)]
        while found[-1][0]:
            found.append(self.killed("first", len(found)))
        self.assertGreater(len(found), 8)
        self.assertEqual({status for status, _, _ in found}, {-signal.SIGKILL, 0})
        found += [self.killed("second", place) for place in range(4)]
        self.assertEqual([status for status, _, _ in found[-4:]], [0] * 4)
        for _, is_new, begin in found:
            self.assertEqual(begin, NO_JOURNAL_BEGIN if is_new else self.before[:16])
        self.assertEqual({is_new for _, is_new, _ in found}, {False, True})
        self.assertEqual(self.auc("compact").returncode, 0)
        self.assertEqual(sorted(os.listdir(self.here)), self.others, "what killed calls left is removed")

    def test_crash_leaves_the_old_journal_or_the_new_one(self):
        self.compact_once()
        found = [self.killed("both", place) for place in range(5)]
        self.assertEqual([status for status, _, _ in found], [-signal.SIGKILL] * 4 + [0])
        self.assertEqual([is_new for _, is_new, _ in found], [False] + [True] * 4)

    def test_new_file_is_locked_and_synced(self):
        synced, fsync = [], os.fsync
        with self.journal.open("r+b") as old, (self.room / "new").open("xb") as new, (self.room / "new").open("rb") as other:
            with mock.patch.object(os, "fsync", lambda it: (synced.append(it), fsync(it))):
                compacting.make_durable(new, old)
            self.assertEqual(synced, [new.fileno()])
            with self.assertRaises(BlockingIOError):
                fcntl.flock(other, fcntl.LOCK_EX | fcntl.LOCK_NB)

    def test_journal_that_another_call_replaced_meanwhile_is_refused(self):
        def replaced(*given):
            os.replace(self.room / "new", self.journal)

        (self.room / "new").write_bytes(self.journal.read_bytes())
        with mock.patch.object(fcntl, "flock", replaced), self.assertRaises(BlockingIOError), compacting.locked(self.journal):
            pass

    def test_old_file_is_written_over_after_the_new_name_is_on_the_disk(self):
        calls, folder = [], self.journal.parent.stat()

        def noted(name, call):
            def called(first, *more):
                is_folder = name == "fsync" and os.path.samestat(os.fstat(first), folder)
                calls.append("fsync of the folder" if is_folder else name)
                return call(first, *more)
            return called

        room = self.room / "room"
        room.mkdir()
        (room / compacting.NEW).write_bytes(b"new")
        patches = {name: noted(name, getattr(os, name)) for name in ("replace", "fsync", "pwrite")}
        with self.journal.open("r+b") as old, mock.patch.multiple(os, **patches):
            compacting.replace(old, room, self.journal)
            compacting.replace(old, room, self.journal)
        rest = ["fsync of the folder", "pwrite", "fsync"]
        self.assertEqual(calls, ["replace", *rest, *rest])
        self.assertEqual(self.journal.read_bytes(), b"new")


def main():
    global PROGRAM
    if len(sys.argv) > 1 and not sys.argv[1].startswith("-") and os.path.exists(sys.argv[1]):
        PROGRAM = str(Path(sys.argv.pop(1)).resolve())
    unittest.main()


if __name__ == "__main__":
    run_main(main, __doc__)
