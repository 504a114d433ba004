#!/usr/bin/env python3
"""Tests of tools/import: each kind of line, row and database, and the number that each subscriber starts at."""
import gzip
import io
import os
import shutil
import sqlite3
import subprocess
import tempfile
import unittest
from contextlib import closing
from pathlib import Path

from eap.usim import sqn_of, top_of
from ends import run_main
from small_checkout import as_a_user
from trial import loaded

TOOL = Path(__file__).resolve().parent / "import"
tool = loaded("import")

K = "90dca4eda45b53cf0f12d7c9c3bc6a89"
OPC = "cb9cccc4b9258e6dca4760379fb82581"
IMSI = "232010000000000"
# The columns of a row of osmo-hlr that a test gives; the index has 5 bits.
OSMO = ("imsi", "algo_id_3g", "k", "op", "opc", "sqn")
# Files that the other centres made: testdata/README.md says how.
MADE = Path(__file__).resolve().parent / "testdata"


def ran(*words, **more):
    return subprocess.run([TOOL, *words], capture_output=True, text=True, **more)


def own_sqn(number, bits=5):
    return int.from_bytes(sqn_of(number, bits), "big")


def used_by_hostapd(sqn, handed_out, bits):
    """The SQNs that hlr_auc_gw hands out after this one: SEQ and IND both go up by one."""
    for _ in range(handed_out):
        seq, ind = (sqn >> bits) + 1, (sqn + 1) % (1 << bits)
        sqn = (seq << bits) | ind
        yield sqn


class Starts(unittest.TestCase):
    def test_first_number_is_above_each_sqn_that_was_used(self):
        for bits in (0, 1, 4, 5, 6, 8, 16):
            for sqn in (0, 1, 31, 32, 33, 0xFFFF, 0x16F3B3F70FC1):
                for handed_out in (0, 1, 7, 100):
                    start, own = tool.start_above(tool.last_used(sqn, handed_out, bits), bits)
                    used = max([sqn, *used_by_hostapd(sqn, handed_out, bits)])
                    self.assertGreater(own_sqn(start + 1, own), used, (bits, sqn, handed_out))
                    self.assertLessEqual(start + 1, top_of(own))

    def test_index_keeps_its_length_if_a_number_is_left_so(self):
        # SEQ has 43 bits at most, so an index of 0 bits keeps its length up to SQN 2^43 - 2.
        cases = [
            (65, 0, (65, 0)),
            (0x7FFFFFFFFFE, 0, (0x7FFFFFFFFFE, 0)),
            (0x7FFFFFFFFFF, 0, (0x3FFFFFFFFF, 5)),
            (65, 4, (4, 4)),
            (65, 6, (1, 6)),
            (0xFFFFFFFFFFBF, 6, (2**42 - 2, 6)),
            (0xFFFFFFFFFFC0, 6, (2**43 - 2, 5)),
            (65, 7, (2, 5)),
            (65, 32, (2, 5)),
        ]
        for last, bits, wanted in cases:
            self.assertEqual(tool.start_above(last, bits), wanted, (last, bits))

    def test_number_without_a_successor_is_left_out(self):
        for sqn, handed_out in ((0xFFFFFFFFFFFF, 0), (0xFFFFFFFFFFE0, 0), (0xFFFFFFFFFFBF, 1)):
            for bits in (0, 5, 6, 7):
                with self.assertRaises(tool.LeftOut):
                    tool.start_above(tool.last_used(sqn, handed_out, max(bits, 5)), bits)
        self.assertEqual(tool.start_above(0xFFFFFFFFFFDF, 5), (2**43 - 2, 5))


class Hostapd(unittest.TestCase):
    def read(self, line, handed_out=0):
        return tool.hostapd_subscriber(line, handed_out, 5)

    def test_line_becomes_a_row(self):
        row = self.read(f"{IMSI} {K.upper()} {OPC} 61DF 000000000040").row()
        self.assertEqual(row, [IMSI, K, "opc", OPC, "61df", 2, 2, 5, "-"])

    def test_row_has_the_length_of_the_gateways_index(self):
        for bits, wanted in ((0, [64, 64, 0, "-"]), (6, [1, 1, 6, "-"]), (8, [2, 2, 5, "-"])):
            self.assertEqual(tool.hostapd_subscriber(f"{IMSI} {K} {OPC} 61df 000000000040", 0, bits).row()[5:], wanted)

    def test_wrong_lines_are_left_out_with_their_reason(self):
        cases = [
            ("abc", "the line hasn't IMSI"),
            (f"12345 {K} {OPC} 61df 000000000000", "the IMSI"),
            (f"{IMSI} {K[1:]} {OPC} 61df 000000000000", "K isn't 32"),
            (f"{IMSI} {K} {OPC}0 61df 000000000000", "OPc isn't 32"),
            (f"{IMSI} {K} {OPC} 61d 000000000000", "AMF isn't 4"),
            (f"{IMSI} {K} {OPC} 61df 00000000000g", "SQN isn't 12"),
            (f"{IMSI} {K} {OPC} 61df 000000000000 4", "RES has 4 bytes"),
            (f"{IMSI} {K} {OPC} 61df 000000000000 16", "RES has 16 bytes"),
            (f"{IMSI} {K} {OPC} 61df 000000000000 08", "RES has 08 bytes"),
            (f"{IMSI} {K} {OPC} 61df 000000000000 8 8", "the line hasn't IMSI"),
            (f"{IMSI} {K} {OPC} 61df ffffffffffff", "no number is left"),
        ]
        for line, reason in cases:
            with self.assertRaises(tool.LeftOut) as left:
                self.read(line)
            self.assertTrue(str(left.exception).startswith(reason), (line, str(left.exception)))

    def test_length_of_res_is_8_or_not_given(self):
        for length in ("", " 0", " 8"):
            self.assertEqual(self.read(f"{IMSI} {K} {OPC} 61df 000000000040{length}").row()[5], 2, length)

    def test_length_of_res_on_a_line_of_its_own_belongs_to_the_line_before(self):
        line = f"{IMSI} {K} {OPC} 61df 000000000040"
        cases = [
            ([line, "4", line], [(1, f"{line} 4"), (3, line)]),
            ([line, "4", "8"], [(1, f"{line} 4"), (3, "8")]),
            ([line, "", "4"], [(1, line), (2, ""), (3, "4")]),
            ([f"{line} 8", "4"], [(1, f"{line} 8"), (2, "4")]),
            (["4", line, "444"], [(1, "4"), (2, line), (3, "444")]),
        ]
        for lines, wanted in cases:
            self.assertEqual(tool.joined(lines), wanted, lines)

    def test_later_line_of_one_imsi_counts_from_the_greater_number(self):
        lines = [("line 1", f"{IMSI} {K} {OPC} 61df 000000000400"), ("line 2", f"{IMSI} {OPC} {K} 8000 000000000040")]
        subscribers, reasons = tool.brought_over(lines, self.read)
        self.assertEqual([subscriber.row() for subscriber in subscribers], [[IMSI, OPC, "opc", K, "8000", 32, 32, 5, "-"]])
        same = f"replaced by line 2, which has the same IMSI {IMSI}; it starts at the greater number of both"
        self.assertEqual(reasons, [("line 1", same)])

    def test_each_earlier_line_of_an_imsi_is_named_and_the_last_one_stays(self):
        sqns = ("000000000040", "000000000400", "wrong", "000000000080")
        lines = [(f"line {place}", f"{IMSI} {K} {OPC} {place:04} {sqn}") for place, sqn in enumerate(sqns, 1)]
        subscribers, reasons = tool.brought_over(lines, self.read)
        self.assertEqual([subscriber.row() for subscriber in subscribers], [[IMSI, K, "opc", OPC, "0004", 32, 32, 5, "-"]])
        said = [(place, reason.partition(",")[0]) for place, reason in reasons]
        wrong = ("line 3", "left out: SQN isn't 12 hexadecimal digits")
        self.assertEqual(said, [("line 1", "replaced by line 2"), wrong, ("line 2", "replaced by line 4")])

    def test_replaced_line_is_told_by_its_place(self):
        with tempfile.TemporaryDirectory() as folder:
            path = Path(folder) / "milenage"
            path.write_text(f"# SQNs\n{IMSI} {K} {OPC} 61df 000000000400\n{IMSI} {K} {OPC} 8000 000000000040\n")
            done = ran("hostapd", path, "--handed-out", "0")
        self.assertEqual(done.returncode, 1)
        self.assertEqual(done.stdout.splitlines()[1:], [f"{IMSI},{K},opc,{OPC},8000,32,32"])
        self.assertEqual(done.stderr, f"import: line 2 is replaced by line 3, which has the same IMSI {IMSI};"
                                      " it starts at the greater number of both\n")


class HostapdRows(unittest.TestCase):
    def read(self, imsi, sqn="000000000040", length=None, digits=None):
        row = dict(imsi=imsi, ki=K, opc=OPC, amf="61DF", sqn=sqn, res_len=length)
        return tool.hostapd_row(row, 0, 5, digits)

    def test_row_becomes_a_subscriber(self):
        for length in (None, 0, 8):
            row = self.read(int(IMSI), length=length).row()
            self.assertEqual(row, [IMSI, K, "opc", OPC, "61df", 2, 2, 5, "-"])

    def test_zeros_at_the_beginning_of_an_imsi_come_back(self):
        cases = [
            (1010000000001, None, "001010000000001"),
            (101000000001, 14, "00101000000001"),
            (262011234567, 12, "262011234567"),
            (10, 6, "000010"),
        ]
        for stored, digits, wanted in cases:
            self.assertEqual(self.read(stored, digits=digits).imsi, wanted)

    def test_wrong_rows_are_left_out_with_their_reason(self):
        cases = [
            (dict(imsi=101000000001), "its IMSI is stored as the number 101000000001"),
            (dict(imsi=26201123456789), "its IMSI is stored as the number 26201123456789"),
            (dict(imsi=2620112345678900), "the IMSI"),
            (dict(imsi=-1, digits=6), "the IMSI"),
            (dict(imsi=int(IMSI), sqn="40"), "SQN isn't 12"),
            (dict(imsi=int(IMSI), sqn="ffffffffffff"), "no number is left"),
            (dict(imsi=int(IMSI), length=4), "RES has 4 bytes"),
            (dict(imsi=int(IMSI), length=16), "RES has 16 bytes"),
        ]
        for given, reason in cases:
            with self.assertRaises(tool.LeftOut) as left:
                self.read(**given)
            self.assertTrue(str(left.exception).startswith(reason), (given, str(left.exception)))


class OsmoHlr(unittest.TestCase):
    def test_rows_become_subscribers_or_are_left_out(self):
        cases = [
            (("901990000000001", 5, K, None, OPC, 65), ["901990000000001", K, "opc", OPC, "8000", 2, 2, 5, "-"]),
            (("901990000000002", 5, K, OPC, None, 0), ["901990000000002", K, "op", OPC, "8000", 0, 0, 5, "-"]),
            (("901990000000003", None, None, None, None, None), "it has no data"),
            (("901990000000004", 4, K, None, OPC, 0), "its algorithm is number 4"),
            (("901990000000005", 5, K, None, None, 0), "OP isn't 32"),
            (("901990000000006", 5, K, None, OPC, 2**48), "its SQN isn't"),
            (("90199", 5, K, None, OPC, 0), "the IMSI"),
        ]
        for row, wanted in cases:
            try:
                self.assertEqual(tool.osmo_subscriber(dict(zip(OSMO, row), ind_bitlen=5), "8000").row(), wanted)
            except tool.LeftOut as reason:
                self.assertTrue(str(reason).startswith(wanted), (row, str(reason)))

    def test_row_has_the_length_of_its_index(self):
        row = dict(zip(OSMO, (IMSI, 5, K, None, OPC, 641)))
        for bits, wanted in ((0, [641, 641, 0]), (3, [80, 80, 3]), (5, [20, 20, 5]), (6, [10, 10, 6]), (7, [20, 20, 5]), (None, [20, 20, 5])):
            self.assertEqual(tool.osmo_subscriber(dict(row, ind_bitlen=bits), "8000").row()[5:], [*wanted, "-"], bits)

    def test_vectors_that_were_handed_out_count_in_the_steps_of_the_rows_own_index(self):
        row = dict(zip(OSMO, (IMSI, 5, K, None, OPC, 641)))
        for bits, handed_out, number in ((7, 0, 20), (7, 10, 64), (0, 10, 651), (6, 10, 21), (None, 10, 31), (28, 1, 2**24 + 20)):
            self.assertEqual(tool.osmo_subscriber(dict(row, ind_bitlen=bits), "8000", handed_out).row()[5], number, bits)
        for bits in (33, -1, "5"):
            with self.assertRaises(tool.LeftOut):
                tool.osmo_subscriber(dict(row, ind_bitlen=bits), "8000", 1)


class Rivals(unittest.TestCase):
    """Files that the other centres made, after answers, with the greatest SQN that each subscriber's AUTNs had."""

    def setUp(self):
        self.folder = Path(self.enterContext(tempfile.TemporaryDirectory()))

    def made(self, name):
        """A file of theirs, taken out of its archive."""
        for packed in MADE.glob(f"{name}*.gz"):
            (self.folder / packed.stem).write_bytes(gzip.decompress(packed.read_bytes()))
        return self.folder / name

    def comes_over(self, words, used, left_out):
        """Whether those subscribers come over above the SQNs that they used, and those others are left out."""
        done = ran(*words)
        rows = [line.split(",") for line in done.stdout.splitlines()[1:]]
        self.assertEqual([row[0] for row in rows], list(used), done.stderr)
        for row in rows:
            bits = int(row[7]) if len(row) == 9 else 5
            self.assertGreater(own_sqn(int(row[5]) + 1, bits), used[row[0]])
            self.assertEqual(row[6], row[5])
        told = [line for line in done.stderr.splitlines() if " is left out: " in line]
        self.assertEqual(len(told), len(left_out), done.stderr)
        for line, reason in zip(told, left_out):
            self.assertIn(reason, line)
        self.assertEqual(done.returncode, 1)
        return done

    def test_database_of_hlr_auc_gw_that_was_killed(self):
        # The first one got 5 vectors, two of them with one SQN while another process held the lock: they aren't stored.
        used = {"001010000000001": 0x84, IMSI: 0xE5}
        reasons = ["its IMSI is stored as the number 23201000002", "RES has 4 bytes"]
        path = self.made("hostapd.db")
        for words in ([], ["--handed-out", "1"]):
            self.comes_over(["hostapd-sqlite", path, *words], used, reasons)
        done = ran("hostapd-sqlite", path, "--handed-out", "1", "--imsi-digits", "11")
        wanted = ["23201000002", "1010000000001", IMSI]
        self.assertEqual([line.split(",")[0] for line in done.stdout.splitlines()[1:]], wanted)

    def test_database_of_hlr_auc_gw_with_a_journal_is_refused(self):
        path = self.made("hostapd.db")
        Path(f"{path}-journal").touch()
        done = ran("hostapd-sqlite", path)
        self.assertEqual((done.returncode, done.stdout), (2, ""))
        self.assertIn("stop hlr_auc_gw, then undo that", done.stderr)
        self.assertIn(f"sqlite3 {path} 'SELECT count(*) FROM milenage'", done.stderr)

    def test_file_that_hlr_auc_gw_wrote_at_a_stop_with_u(self):
        used = {"001010000000001": 0x63, IMSI: 0xE5}
        reasons = ["line 5 is left out: RES has 4 bytes", "line 7 is left out: RES has 16 bytes"]
        self.comes_over(["hostapd", MADE / "hostapd.milenage", "--handed-out", "0"], used, reasons)

    def test_database_of_hlr_auc_gw_is_told_from_its_file(self):
        done = ran("hostapd", self.made("hostapd.db"))
        self.assertEqual((done.returncode, done.stdout), (2, ""))
        self.assertIn("tools/import hostapd-sqlite reads", done.stderr)

    def test_databases_of_osmo_hlr_of_two_schema_versions(self):
        reasons = ["(id 4) is left out: it has no data", "(id 5) is left out: its algorithm is number 4"]
        for name, version, sqns in (("osmo-hlr-1.2.0.db", 4, (160, 640, 5)), ("osmo-hlr-1.5.0.db", 6, (161, 641, 5))):
            path = self.made(name)
            self.assertEqual(int.from_bytes(path.read_bytes()[60:64], "big"), version)
            used = {f"00101000000000{place}": sqn for place, sqn in enumerate(sqns, 1)}
            for words in ([], ["--handed-out", "100"]):
                self.comes_over(["osmo-hlr", path, *words], used, reasons)

    def test_database_of_osmo_hlr_that_was_killed(self):
        path = self.made("osmo-hlr-killed.db")
        done = ran("osmo-hlr", path)
        self.assertEqual((done.returncode, done.stdout), (2, ""))
        self.assertIn("-wal has changes that aren't in it yet", done.stderr)
        with closing(sqlite3.connect(path)) as mended:
            mended.execute("PRAGMA wal_checkpoint(TRUNCATE)")
        used = {"001010000000001": 321, "001010000000002": 1281, "001010000000003": 5}
        self.comes_over(["osmo-hlr", path], used, ["it has no data", "its algorithm is number 4"])


class Databases(unittest.TestCase):
    """Databases of SQLite that were stopped, copied or killed in each way."""

    def setUp(self):
        self.folder = Path(self.enterContext(tempfile.TemporaryDirectory()))
        (self.folder / "live").mkdir()
        (self.folder / "copy").mkdir()
        self.path = self.folder / "copy" / "hlr.db"

    def live(self, mode):
        """An open database with the tables of osmo-hlr, in a mode of its journal. Nothing is moved out of its -wal by itself."""
        database = self.enterContext(closing(sqlite3.connect(self.folder / "live" / "hlr.db", isolation_level=None)))
        self.assertEqual(database.execute(f"PRAGMA journal_mode={mode}").fetchone(), (mode,))
        database.execute("PRAGMA wal_autocheckpoint=0")
        database.execute("CREATE TABLE subscriber (id INTEGER PRIMARY KEY, imsi VARCHAR(15))")
        database.execute("CREATE TABLE auc_3g (subscriber_id, algo_id_3g, k, op, opc, sqn, ind_bitlen)")
        return database

    def add(self, database, place=1):
        with database:
            database.execute("BEGIN")
            database.execute("INSERT INTO subscriber VALUES (?, ?)", (place, f"{int(IMSI) + place - 1}"))
            database.execute("INSERT INTO auc_3g VALUES (?, 5, ?, NULL, ?, 1000, 5)", (place, K, OPC))

    def copy(self, *endings):
        for ending in endings:
            shutil.copy(self.folder / "live" / f"hlr.db{ending}", f"{self.path}{ending}")

    def imported(self, path=None):
        """What the import does, after it was seen that it leaves the folder as it is."""
        before = {it.name: (it.read_bytes(), it.stat().st_mtime_ns) for it in self.path.parent.iterdir()}
        self.path.parent.chmod(0o555)
        try:
            done = ran("osmo-hlr", path or self.path)
        finally:
            self.path.parent.chmod(0o755)
        self.assertEqual({it.name: (it.read_bytes(), it.stat().st_mtime_ns) for it in self.path.parent.iterdir()}, before)
        return done

    def is_imported(self, places=(1,), path=None):
        done = self.imported(path)
        rows = [f"{int(IMSI) + place - 1},{K},opc,{OPC},8000,31,31" for place in places]
        self.assertEqual((done.returncode, done.stdout.splitlines()[1:]), (0, rows), done.stderr)
        return done.stderr

    def is_refused(self, *reasons):
        done = self.imported()
        self.assertEqual((done.returncode, done.stdout), (2, ""))
        for reason in reasons:
            self.assertIn(reason, done.stderr)

    def test_database_is_read(self):
        self.add(self.live("delete"))
        self.copy("")
        self.assertEqual(self.is_imported(), "")

    def test_database_whose_rows_are_all_in_its_wal_is_refused(self):
        database = self.live("wal")
        database.execute("PRAGMA wal_checkpoint(TRUNCATE)")
        self.add(database)
        self.copy("")
        self.is_refused(f"{self.path} is in WAL mode, and there is no {self.path}-wal", "no subscriber came over")

    def test_copy_that_lacks_some_changes_comes_over_with_a_warning(self):
        database = self.live("wal")
        self.add(database)
        database.execute("PRAGMA wal_checkpoint(TRUNCATE)")
        self.add(database, 2)
        self.copy("")
        self.assertIn("changes may be missing in it", self.is_imported([1]))

    def test_wal_that_is_not_empty_is_refused_until_it_is_moved_into_the_database(self):
        database = self.live("wal")
        self.add(database)
        for endings in (("", "-wal"), ("", "-wal", "-shm")):
            self.copy(*endings)
            command = f"sqlite3 {self.path} 'PRAGMA wal_checkpoint(TRUNCATE)'"
            self.is_refused(f"{self.path}-wal has changes", command)
        with closing(sqlite3.connect(self.path)) as mended:
            mended.execute("PRAGMA wal_checkpoint(TRUNCATE)")
        self.is_imported()

    def test_wal_is_looked_for_beside_the_database_that_a_link_names(self):
        self.add(self.live("wal"))
        self.copy("", "-wal")
        link = self.folder / "link.db"
        link.symlink_to(self.path)
        done = self.imported(link)
        self.assertEqual((done.returncode, done.stdout), (2, ""))
        self.assertIn(f"{self.path}-wal has changes", done.stderr)

    def test_wal_that_is_empty_or_was_removed_is_no_fault(self):
        database = self.live("wal")
        self.add(database)
        database.execute("PRAGMA wal_checkpoint(TRUNCATE)")
        self.copy("", "-wal")
        self.assertEqual(self.is_imported(), "")
        self.copy("-shm")
        self.assertEqual(self.is_imported(), "")
        for ending in "-wal", "-shm":
            Path(f"{self.path}{ending}").unlink()
        self.is_imported()

    def test_journal_of_an_interrupted_change_is_refused_until_it_is_undone(self):
        database = self.live("delete")
        self.add(database)
        # A cache of one page makes SQLite write the change into the database before it is committed.
        database.execute("PRAGMA cache_size=1")
        database.execute("BEGIN")
        database.execute("CREATE TABLE large AS WITH RECURSIVE n(i) AS (SELECT 1 UNION SELECT i + 1 FROM n WHERE i < 5000)"
                         " SELECT i, hex(randomblob(50)) FROM n")
        database.execute("UPDATE auc_3g SET sqn = 0")
        self.copy("", "-journal")
        self.is_refused(f"{self.path}-journal is there", f"sqlite3 {self.path} 'SELECT count(*) FROM subscriber'")
        with closing(sqlite3.connect(self.path)) as mended:
            self.assertEqual(mended.execute("SELECT count(*) FROM subscriber").fetchone(), (1,))
        self.assertEqual(self.is_imported(), "")

    def test_name_of_a_database_may_have_any_character(self):
        self.add(self.live("wal"))
        self.path = self.path.with_name("a?mode=rw#b%20 c.db")
        self.copy("", "-wal")
        self.is_refused(f"sqlite3 '{self.path}' 'PRAGMA")
        with closing(sqlite3.connect(self.path)) as mended:
            mended.execute("PRAGMA wal_checkpoint(TRUNCATE)")
        self.is_imported()


class Inputs(unittest.TestCase):
    def test_unreadable_input_is_status_2_and_prints_nothing(self):
        for source, path in (("hostapd", "/no/such/file"), ("osmo-hlr", "/no/such/file"), ("osmo-hlr", str(TOOL)),
                             ("hostapd-sqlite", "/no/such/file"), ("hostapd-sqlite", str(TOOL))):
            done = ran(source, path)
            self.assertEqual((done.returncode, done.stdout), (2, ""), (source, path))
            self.assertIn("import: ", done.stderr)

    def test_path_that_is_no_file_is_told_from_one_that_is_not_there(self):
        with tempfile.TemporaryDirectory() as name:
            folder = Path(name)
            os.mkfifo(folder / "fifo")
            (folder / "shut").mkdir()
            (folder / "shut" / "hlr.db").write_bytes(b"")
            (folder / "shut").chmod(0)
            for path, reason in (("", "it is no file"), ("fifo", "it is no file"), ("hlr.db", "No such file or directory"),
                                 ("shut/hlr.db", "Permission denied")):
                done = ran("osmo-hlr", folder / path, preexec_fn=as_a_user)
                said = f"import: {folder / path}: {reason}\n"
                self.assertEqual((done.returncode, done.stdout, done.stderr), (2, "", said))
            (folder / "shut").chmod(0o755)

    def test_control_characters_of_a_database_are_told_by_their_codes(self):
        with tempfile.TemporaryDirectory() as name, closing(sqlite3.connect(f"{name}/hlr.db")) as tables:
            tables.execute("CREATE TABLE subscriber (id INTEGER PRIMARY KEY, imsi VARCHAR(15))")
            tables.execute("CREATE TABLE auc_3g (subscriber_id, algo_id_3g, k, op, opc, sqn, ind_bitlen)")
            tables.execute("INSERT INTO subscriber VALUES (1, ?)", ("\x1b[2Jé\n",))
            tables.execute("INSERT INTO auc_3g VALUES (1, ?, '', NULL, '', 1000, 5)", ("\a",))
            tables.commit()
            done = ran("osmo-hlr", f"{name}/hlr.db")
        reason = "its algorithm is number \\x07, and not Milenage"
        self.assertEqual(done.stderr.splitlines()[0], f"import: subscriber \\x1b[2Jé\\n (id 1) is left out: {reason}")

    def test_byte_order_mark_belongs_to_no_line(self):
        with tempfile.TemporaryDirectory() as name:
            path = Path(name) / "milenage"
            path.write_bytes(b"\xef\xbb\xbf" + f"{IMSI} {K} {OPC} 61df 000000000000\n".encode())
            done = ran("hostapd", path)
        self.assertEqual((done.returncode, done.stdout.count(IMSI), done.stderr), (0, 1, ""))

    def test_database_of_another_kind_is_status_2_and_an_older_one_may_lack_a_column(self):
        milenage = "CREATE TABLE milenage (imsi INTEGER PRIMARY KEY, ki, opc, amf, sqn{})"
        osmo = "CREATE TABLE subscriber (id INTEGER PRIMARY KEY, imsi)"
        auc = "CREATE TABLE auc_3g (subscriber_id, algo_id_3g, {}op, opc, sqn)"
        cases = [
            ("osmo-hlr", [milenage.format("")], "it has no table subscriber, so it is no database of osmo-hlr"),
            ("hostapd-sqlite", [osmo, auc.format("k, ")], "it has no table milenage, so it is no database of hlr_auc_gw"),
            ("osmo-hlr", [osmo, auc.format("")], "its table auc_3g has no column k"),
            ("osmo-hlr", [osmo, auc.format("k, ")], "no subscriber came over"),
            ("hostapd-sqlite", [milenage.format("")], "no subscriber came over"),
        ]
        for place, (source, made, reason) in enumerate(cases):
            with tempfile.TemporaryDirectory() as folder, closing(sqlite3.connect(f"{folder}/{place}.db")) as tables:
                for line in made:
                    tables.execute(line)
                done = ran(source, f"{folder}/{place}.db")
            self.assertEqual((done.returncode, done.stdout), (2, ""), source)
            self.assertEqual(done.stderr, f"import: {folder}/{place}.db: {reason}\n")

    def test_input_that_brings_nobody_is_status_2_and_writes_nothing(self):
        with tempfile.TemporaryDirectory() as folder:
            path, database = Path(folder) / "milenage", Path(folder) / "hlr.db"
            for text, left_out in (("", 0), ("# nobody\n\n", 0), ("abc\ndef\n", 2)):
                path.write_text(text)
                done = ran("hostapd", path)
                self.assertEqual((done.returncode, done.stdout), (2, ""), text)
                self.assertEqual(done.stderr.count(" is left out: "), left_out)
                self.assertTrue(done.stderr.endswith(f"import: {path}: no subscriber came over\n"), done.stderr)
            with closing(sqlite3.connect(database)) as tables:
                tables.execute("CREATE TABLE subscriber (id INTEGER PRIMARY KEY, imsi VARCHAR(15))")
                tables.execute("CREATE TABLE auc_3g (subscriber_id, algo_id_3g, k, op, opc, sqn, ind_bitlen)")
            done = ran("osmo-hlr", database)
        self.assertEqual((done.returncode, done.stdout), (2, ""))
        self.assertEqual(done.stderr, f"import: {database}: no subscriber came over\n")

    def test_written_file_has_the_header_and_one_row_a_subscriber(self):
        usual = tool.Subscriber(IMSI, K, "opc", OPC, "8000", 0xE5)
        other = tool.Subscriber(f"{IMSI[:-1]}1", K, "opc", OPC, "8000", 0xE5, 6)
        seven, nine = "imsi,k,kind,op,amf,seq,usim", "imsi,k,kind,op,amf,seq,usim,bits,age"
        first, second = f"{IMSI},{K},opc,{OPC},8000,7,7", f"{IMSI[:-1]}1,{K},opc,{OPC},8000,3,3"
        cases = [
            ([usual], [seven, first]),
            ([usual, other], [nine, f"{first},5,-", f"{second},6,-"]),
            ([other], [nine, f"{second},6,-"]),
        ]
        for subscribers, lines in cases:
            out = io.StringIO()
            tool.write(subscribers, out)
            self.assertEqual(out.getvalue().splitlines(), lines)


if __name__ == "__main__":
    run_main(unittest.main, __doc__)
