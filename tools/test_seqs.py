#!/usr/bin/env python3
"""Tests of tools/seqs, with a stand-in for the program.

The exit status is 0 only if each test passes.
"""
import csv
import os
import subprocess
import sys
import tempfile
import unittest
from pathlib import Path

from ends import run_main
from small_checkout import as_a_user
from trial import HEADER, K, OPC

TOOL = Path(__file__).resolve().parent / "seqs"
KEYS = f"{K},opc,{OPC},8000"
ONE, TWO, LAST = "001010000000001", "123456", 8796093022207
FURTHEST = 268435456


def row(imsi, seq, usim=0, keys=KEYS):
    return f"{imsi},{keys},{seq},{usim}"


class Seqs(unittest.TestCase):
    def setUp(self):
        self.folder = Path(self.enterContext(tempfile.TemporaryDirectory()))
        self.file = self.folder / "subscribers.csv"
        self.write(row(ONE, 0), row(TWO, 900, 40))

    def write(self, *rows):
        self.file.write_text("\n".join([HEADER, *rows, ""]))

    def ran(self, *words, said=None, file=None, **more):
        """The status, the output and the lines on standard error."""
        given = [sys.executable, "-S", TOOL, self.file if file is None else file, *words]
        done = subprocess.run(given, input=said, capture_output=True, text=True, cwd=self.folder, **more)
        return done.returncode, done.stdout, done.stderr

    def seqs(self, *words, said):
        """The subscribers' SEQs after a call that went well."""
        status, out, errors = self.ran("--reserved", "-", "--margin", *map(str, words), said=said)
        self.assertEqual((status, errors), (0, ""))
        return {it["imsi"]: it["seq"] for it in csv.DictReader(out.splitlines())}

    def program(self, text):
        path = self.folder / "program"
        path.write_text(f"#!/bin/sh\n{text}\n")
        path.chmod(0o755)
        return ["--program", path]

    def refused(self, status, reason, *words, **more):
        found, out, errors = self.ran(*words, **more)
        self.assertEqual((found, out), (status, ""), errors)
        self.assertIn(reason, errors)
        self.assertNotIn("Traceback", errors)

    def test_seq_is_above_limit_and_field_by_the_margin(self):
        cases = [
            (0, "", {ONE: "0", TWO: "900"}),
            (0, f"reserved {ONE} 64\nreserved {TWO} 128\n", {ONE: "64", TWO: "900"}),
            (0, f"reserved {TWO} 901\n", {ONE: "0", TWO: "901"}),
            (1000, f"reserved {ONE} 64\nreserved {TWO} 128\n", {ONE: "1064", TWO: "1900"}),
            (0, f"reserved {ONE} 128\nreserved {ONE} 64\n", {ONE: "128", TWO: "900"}),
            (1000, "", {ONE: "1000", TWO: "1900"}),
            (FURTHEST, "", {ONE: "268435456", TWO: "268436356"}),
        ]
        for margin, said, seqs in cases:
            with self.subTest(margin=margin, said=said):
                self.assertEqual(self.seqs(margin, said=said), seqs)

    def test_every_other_field_stays_as_it_is(self):
        self.write(row(ONE, "0000000000", "007", KEYS.upper().replace("OPC", "opc")), row(TWO, "0000000000010", "0"))
        status, out, _ = self.ran("--reserved", "-", "--margin", "0", said=f"reserved {ONE} 64\n")
        wanted = [HEADER, row(ONE, 64, "007", KEYS.upper().replace("OPC", "opc")), row(TWO, "0000000000010", "0")]
        self.assertEqual((status, out.splitlines()), (0, wanted))
        self.write(row(ONE, 0, keys="é,,,"))
        given = [sys.executable, "-S", TOOL, self.file, "--reserved", "/dev/null", "--margin", "0"]
        for encoding in ("ascii", "latin-1"):
            out = subprocess.check_output(given, env={**os.environ, "PYTHONIOENCODING": encoding})
            self.assertEqual(out, self.file.read_bytes(), encoding)

    def test_file_is_read_as_the_program_reads_it(self):
        self.file.write_bytes(b"\xef\xbb\xbf\r\n" + f'{HEADER}\r\n\n"{ONE}",{KEYS},"1",0\r{row(TWO, 2)}'.encode())
        self.assertEqual(self.seqs(0, said=f"reserved {ONE} 64\n"), {ONE: "64", TWO: "2"})

    def test_greatest_number_is_stated_and_none_above_it(self):
        self.write(row(ONE, 0))
        self.assertEqual(self.seqs(0, said=f"reserved {ONE} {LAST}\n"), {ONE: str(LAST)})
        above = f"{ONE}: SEQ would be {LAST + 1}, above {LAST}"
        self.refused(1, above, "--reserved", "-", "--margin", "1", said=f"reserved {ONE} {LAST}\n")
        self.refused(1, above, "--reserved", "-", "--margin", "0", said=f"reserved {ONE} {LAST + 1}\n")

    def test_a_subscriber_that_the_file_lacks_is_refused_unless_it_is_told(self):
        said = f"reserved 654321 192\nreserved {TWO} 64\n"
        self.refused(1, "654321: it is in the journal, with the limit 192, and not in the file", "--reserved", "-",
                     "--margin", "0", said=said)
        status, out, errors = self.ran("--reserved", "-", "--margin", "0", "--forget", said=said)
        self.assertEqual((status, errors), (0, "seqs: 654321 is left out: its limit was 192\n"))
        self.assertEqual(out.splitlines(), self.file.read_text().splitlines())

    def test_an_output_that_may_lack_something_is_refused(self):
        for said in (f"reserved {ONE} 6", f"reserved {ONE}\n", "refused journal 0\n", "\n", f"reserved {ONE} 64 \n", "round 1\n"):
            self.refused(2, "-: ", "--reserved", "-", "--margin", "0", said=said)
        self.refused(2, "none: No such file", "--reserved", "none", "--margin", "0")

    def test_an_output_that_was_kept_needs_a_margin(self):
        self.refused(2, "--reserved needs --margin", "--reserved", "-", said="")
        for margin in ("-1", "x", FURTHEST + 1, "99999999999"):
            self.refused(2, "margin", "--reserved", "-", "--margin", str(margin), said="")

    def test_standard_input_is_one_of_both_files(self):
        for said in ("", f"reserved {ONE} 64\n", self.file.read_text()):
            self.refused(2, "standard input is one of both", "--reserved", "-", "--margin", "64", said=said, file="-")
        status, out, _ = self.ran("--reserved", "/dev/null", "--margin", "64", said=self.file.read_text(), file="-")
        self.assertEqual((status, out.splitlines()[1:]), (0, [row(ONE, 64), row(TWO, 964, 40)]))

    def test_an_empty_name_is_that_of_no_file(self):
        (self.folder / "auc.journal").write_text("")
        asked = self.program(f"echo reserved {ONE} 64")
        self.refused(2, "--reserved needs --margin", *asked, "--reserved", "")
        self.refused(2, "'': No such file", *asked, "--reserved", "", "--margin", "0")
        self.refused(2, "'': No such file", *asked, file="")

    def test_index_lengths_and_age_limits_stay(self):
        header = f"{HEADER},bits,age"
        self.file.write_text(f"{header}\n{row(ONE, 1)},6,-\n{row(TWO, 2)},0,40\n")
        status, out, _ = self.ran("--reserved", "-", "--margin", "10", said=f"reserved {ONE} 64\n")
        self.assertEqual((status, out.splitlines()), (0, [header, f"{row(ONE, 74)},6,-", f"{row(TWO, 12)},0,40"]))
        self.refused(1, "above 4398046511103", "--reserved", "-", "--margin", "0", said=f"reserved {ONE} 4398046511104\n")
        for text in (f"{header}\n{row(ONE, 1)}\n", f"{HEADER}\n{row(ONE, 1)},5,-\n", f"{header}\n{row(ONE, 1)},7,-\n"):
            self.file.write_text(text)
            self.refused(2, "subscribers.csv: ", "--reserved", "-", "--margin", "0", said="")

    def test_a_wrong_file_of_subscribers_is_refused(self):
        cases = ["", "imsi,k\n", f"{HEADER}\n{ONE},465b\n", f"{HEADER}\n{row(ONE, 'x')}\n", f"{HEADER}\n{row('12345', 0)}\n",
                 f"{HEADER}\n{row(ONE, 0)}\n{row(ONE, 0)}\n"]
        for text in cases:
            self.file.write_text(text)
            self.refused(2, "subscribers.csv: ", "--reserved", "-", "--margin", "0", said="")
        self.file.write_bytes(b"\xff")
        self.refused(2, "subscribers.csv: ", "--reserved", "-", "--margin", "0", said="")

    def test_a_quote_that_is_not_closed_takes_no_subscriber_into_its_field(self):
        for last in ('"', '"0', '"0"1'):
            self.write(row(ONE, 0, last), row(TWO, 900, 40))
            self.refused(2, "or its quote isn't closed", "--reserved", "-", "--margin", "0", said="")

    def test_a_folder_that_cannot_be_entered_may_have_a_journal(self):
        centre = self.folder / "centre"
        centre.mkdir()
        (centre / "auc.journal").write_text("")
        asked = self.program(f"echo reserved {ONE} 64")
        self.refused(2, "subscribers.csv/auc.journal: Not a directory", *asked, "--folder", self.file)
        centre.chmod(0)
        self.addCleanup(centre.chmod, 0o755)
        self.refused(2, "centre/auc.journal: Permission denied", *asked, "--folder", "centre", preexec_fn=as_a_user)

    def test_program_is_asked_in_the_folder_of_the_journal(self):
        centre = self.folder / "centre"
        centre.mkdir()
        asked = self.program(f'[ "$PWD $*" = "{centre} reserved" ] && echo reserved {ONE} 64')
        self.refused(2, f"no journal in {centre}", *asked, "--folder", "centre")
        (centre / "auc.journal").write_text("")
        status, out, _ = self.ran(*asked, "--folder", "centre")
        self.assertEqual((status, out.splitlines()[1]), (0, row(ONE, 64)))

    def test_a_program_that_fails_is_no_output(self):
        (self.folder / "auc.journal").write_text("")
        for status, reason in ((6, "another process uses it"), (7, "is no journal")):
            self.refused(2, reason, *self.program(f"echo reserved {ONE} 64; exit {status}"))
        (self.folder / "program").unlink()
        (self.folder / "program").symlink_to("program")
        self.refused(2, "Too many levels of symbolic links", "--program", "program")


if __name__ == "__main__":
    run_main(unittest.main, __doc__)
