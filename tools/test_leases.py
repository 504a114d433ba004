#!/usr/bin/env python3
"""Tests of gateways that share the numbers of a store, tools/gateway with --leases, and of tools/master.

    tools/test_leases.py [PROGRAM]       PROGRAM: crates/auc_cli/out/auc_cli, unless it is given

The store is a file of SQLite. For PostgreSQL a stand-in of psql makes the same statements over such a file, and fails as psql
does; bench/sites.py has a real server.
"""
import os
import random
import shutil
import signal
import sqlite3
import subprocess
import sys
import tempfile
import time
import unittest
from concurrent.futures import ThreadPoolExecutor
from pathlib import Path
from unittest import mock

import test_gateway
from eap.usim import MAX_SEQ, Usim
from ends import run_main
from gateway_centre import LONG_HEADER, Refused, read_subscribers
from gateway_leases import Away, Lease, LeasedCentre, Master, site_of
from test_gateway import SILENCE, SOON, SUBSCRIBERS, TOOLS, A, B, Gateways, auts, functions, seq_in
from trial import K, OPC, loaded

MASTER = str(TOOLS / "master")
KILLS, REQUESTS, SEED = 8, 60, 7
# A psql over a file of SQLite. The file `mood` says how its next statements end: they warn, are lost before or after the commit,
# or have no answer.
PSQL = """#!/usr/bin/env python3
import os, sqlite3, sys, time
folder = os.path.dirname(os.path.abspath(__file__))
base = sqlite3.connect(os.path.join(folder, "numbers"), isolation_level=None)
base.create_function("GREATEST", 2, max)
mood = lambda: open(os.path.join(folder, "mood")).read()
if mood() == "refused":
    sys.exit("psql: error: connection to server failed:\\n\\tConnection refused")
assert "-c synchronous_commit=on" in os.environ["PGOPTIONS"]
text = ""
for line in sys.stdin:
    if line.startswith("\\\\echo"):
        print(line.split()[1], flush=True)
        continue
    text += line
    if not text.endswith(";\\n"):
        continue
    if "current_setting" in text:
        print(open(os.path.join(folder, "session")).read(), flush=True)
    else:
        if mood() == "lost before":
            sys.exit("server closed the connection unexpectedly")
        try:
            rows = base.execute(text).fetchall()
        except sqlite3.Error as error:
            sys.exit(f"ERROR:  {error}")
        if mood() == "lost after":
            sys.exit("server closed the connection unexpectedly")
        if mood() == "silent":
            time.sleep(60)
        if mood() == "warns":
            print("WARNING:  canceling wait for synchronous replication due to user request", flush=True)
        for row in rows:
            print("|".join(map(str, row)), flush=True)
    text = ""
"""


def master(*words, **more):
    return subprocess.run([MASTER, *map(str, words)], capture_output=True, text=True, timeout=60, **more)


# ---- what is asked and what is taken

class Leased(unittest.TestCase):
    """The centre of a gateway over leases, without a store."""

    def setUp(self):
        self.centre = LeasedCentre(read_subscribers(SUBSCRIBERS.encode()), 10, site_of(2, 4))

    def grant(self, answer, *imsis):
        return self.centre.grant({imsi: self.centre.need(imsi) for imsi in imsis or [A]}, answer)

    def asked(self):
        return self.centre.scenario([A]).decode().splitlines()

    def learn(self, *numbers):
        lines = [line for number in numbers for line in (f"vector {A} {number}", "bytes 0 1 2 3 4")]
        self.centre.learn([A], "\n".join(("round 1", "job 1", *lines, "")))

    def ahead(self):
        return [it.number for it in self.centre.ahead.get(A, ())]

    def test_sites_have_indices_of_their_own(self):
        for count in range(1, 33):
            sites = [site_of(place, count) for place in range(1, count + 1)]
            indices = [it for index, size in sites for it in range(index, index + size)]
            self.assertEqual(indices, list(range(count * (32 // count))))

    def test_leases_are_for_the_usual_index_without_an_age_limit(self):
        for profile in ("4,-", "6,-", "5,64"):
            text = f"{','.join(LONG_HEADER)}\n{A},{K},opc,{OPC},8000,0,0,{profile}\n"
            with self.subTest(profile=profile), self.assertRaises(Refused):
                LeasedCentre(read_subscribers(text.encode()), 10, site_of(2, 4))

    def test_request_says_what_counts_as_used_and_what_auts_told(self):
        self.assertEqual(self.centre.request(self.centre.needs([A, B])), f"lease 8 8 {A}:0:0 {B}:40:0\n")
        self.grant(f"leased {A}:8:15:0")
        self.learn(*range(8, 16))
        self.assertEqual(self.centre.needs([A]), {A: (15, 0)})
        self.centre.resynchronise(A, 700)
        # Nobody waits, and the AUTS is told all the same.
        self.assertEqual(self.centre.request(self.centre.needs([])), f"lease 8 8 {A}:700:700\n")
        self.grant(f"leased {A}:712:719:700")
        self.assertEqual(self.centre.needs([A]), {})

    def test_run_begins_at_the_lease_and_draws_no_more(self):
        self.grant(f"leased {A}:8:15:0")
        words = self.asked()
        self.assertEqual((words[2].split()[1], words[2].split()[6], words[-1]), (A, "7", f"draw {A} 8"))
        self.learn(*range(8, 16))
        self.assertEqual((self.ahead(), self.centre.leases), (list(range(8, 16)), {}))

    def test_auts_is_told_to_the_program_behind_the_lease(self):
        self.centre.resynchronise(A, 700)
        self.grant(f"leased {A}:712:719:700")
        words = self.asked()
        self.assertEqual((words[2].split()[6], words[-1]), ("711", f"sync {A} 700 - 8"))

    def test_auts_that_comes_during_a_run_is_told_after_it(self):
        self.grant(f"leased {A}:8:15:0")
        self.centre.resynchronise(A, 700)
        self.learn(*range(8, 16))
        self.assertEqual(self.ahead(), [])
        self.grant(f"leased {A}:712:719:700")
        self.assertEqual(self.asked()[-1], f"sync {A} 700 - 8")

    def test_line_that_is_not_whole_gives_no_vector(self):
        self.grant(f"leased {A}:8:15:0")
        self.centre.learn([A], f"round 1\njob 1\nvector {A} 8\nbytes 0 1 2 3 4\nvector {A} 9\nbytes 0 1 2 3 4")
        self.assertEqual(self.ahead(), [8])

    def test_each_run_has_another_key_of_its_rands(self):
        self.grant(f"leased {A}:8:15:0")
        self.assertEqual(len({self.asked()[0] for _ in range(20)}), 20)

    def test_vector_outside_the_lease_is_not_taken(self):
        self.grant(f"leased {A}:8:15:0")
        self.learn(7, 8, 15, 16, 80)
        self.assertEqual(self.ahead(), [8, 15])

    def test_lease_that_was_asked_before_an_auts_is_not_used(self):
        # Whether it is below the AUTS or reaches above it: the store has to be told.
        for seq, lease in ((700, "8:15:0"), (714, "712:719:700")):
            needs = self.centre.needs([A])
            self.centre.resynchronise(A, seq)
            self.centre.grant(needs, f"leased {A}:{lease}")
            self.assertEqual((self.centre.batch([A], 9, 0), self.centre.needs([A])), ([], {A: (seq, seq)}))
        self.grant(f"leased {A}:744:751:714")
        self.assertEqual((self.centre.batch([A], 9, 0), self.centre.leases[A]), ([A], Lease(744, 751, 714)))

    def test_auts_of_another_gateway_drops_what_is_at_or_below_it(self):
        self.grant(f"leased {A}:8:15:0")
        self.learn(*range(8, 16))
        self.grant(f"leased {A}:40:47:13")
        self.assertEqual(self.ahead(), [14, 15])
        self.grant(f"leased {A}:712:719:700")
        self.assertEqual(self.ahead(), [])

    def test_answer_that_breaks_the_rules_gives_nothing(self):
        self.grant(f"leased {A}:8:15:0")
        self.learn(*range(8, 16))
        wrong = [
            "", "leased", "lease", "away", "away it sleeps", f"leased {A}", f"leased {A}:16:23:0 ", f"leased  {A}:16:23:0",
            f"leased {B}:48:55:0", f"leased {A}:16:23:0 {A}:24:31:0", f"leased {A}:16:23:0 {B}:48:55:0", f"leased {A}:16:24:0",
            f"leased {A}:15:22:0", f"leased {A}:-1:5:0", f"leased {A}:16:23", f"leased {A}:16:23:x", f"leased {A}:16:23:0\nleased",
            f"leased {A}:{MAX_SEQ - 1}:{MAX_SEQ + 1}:0",
        ]
        for answer in wrong:
            with self.subTest(answer=answer), self.assertRaises(Away):
                self.grant(answer)
        self.centre.resynchronise(A, 700)
        with self.assertRaises(Away):
            self.grant(f"leased {A}:712:719:699")
        self.assertEqual(self.centre.leases, {})

    def test_end_of_the_numbers_is_told(self):
        self.centre.resynchronise(A, MAX_SEQ - 3)
        self.assertEqual(self.grant(f"leased {A}:{MAX_SEQ - 2}:{MAX_SEQ}:{MAX_SEQ - 3}"), [])
        self.assertEqual(self.asked()[-1], f"sync {A} {MAX_SEQ - 3} - 3")
        self.centre.resynchronise(A, MAX_SEQ)
        self.assertEqual(self.grant(f"leased {A}:{MAX_SEQ + 1}:{MAX_SEQ}:{MAX_SEQ}"), [A])
        self.assertEqual(self.centre.needs([]), {})


# ---- the store

class Stores(unittest.TestCase):
    """Stores in a new folder, by both ways."""

    def setUp(self):
        folder = tempfile.TemporaryDirectory(prefix="master")
        self.addCleanup(folder.cleanup)
        self.folder = Path(folder.name)
        (self.folder / "psql").write_text(PSQL)
        (self.folder / "psql").chmod(0o755)
        (self.folder / "session").write_text("on|on|f|p")
        self.mood("well")
        self.environment = {**os.environ, "PATH": f"{self.folder}:{os.environ['PATH']}"}
        self.sqlite, self.postgres = f"sqlite:{self.folder}/numbers.db", "postgresql:///auc"

    def mood(self, word):
        (self.folder / "mood").write_text(word)

    def master(self, *words, **more):
        return master(*words, env=self.environment, **more)

    def made(self):
        for store in self.sqlite, self.postgres:
            self.assertEqual(self.master(store, "--make").returncode, 0)
        return self.sqlite, self.postgres

    def test_leases_of_both_stores_are_those_of_the_definition(self):
        chance, numbers = random.Random(SEED), {A: 0, B: 0}
        lines, wanted = [], []
        for _ in range(REQUESTS):
            count = chance.randint(1, 32)
            index, size = site_of(chance.randint(1, count), count)
            imsi, floor = chance.choice((A, B)), chance.choice((0, chance.randrange(2000)))
            first = next(it for it in range(max(numbers[imsi], floor) + 1, 10**6) if it % 32 == index)
            numbers[imsi] = first + size - 1
            lines.append(f"lease {index} {size} {imsi}:{floor}:0\n")
            wanted.append(f"leased {imsi}:{first}:{first + size - 1}:0\n")
        for store in self.made():
            done = self.master(store, input="".join(lines))
            self.assertEqual((done.returncode, done.stdout.splitlines(True), done.stderr), (0, wanted, ""))
            self.assertEqual(self.master(store, "--numbers").stdout, "".join(f"reserved {it} {numbers[it]}\n" for it in (A, B)))

    def test_request_of_many_is_one_answer_and_a_wrong_one_is_away(self):
        cases = [
            (f"lease 0 8 {B}:40:0 {A}:0:7\n", f"leased {A}:32:39:7 {B}:64:71:0\n"),
            (f"lease 8 8 {A}:0:5\n", f"leased {A}:40:47:7\n"),
            ("lease 0 8\n", "leased\n"),
            (f"lease 0 32 {A}:{MAX_SEQ - 31}:0\n", f"leased {A}:{MAX_SEQ + 1}:{MAX_SEQ}:7\n"),
            (f"lease 0 32 {A}:0:0\n", f"leased {A}:{MAX_SEQ + 33}:{MAX_SEQ}:7\n"),
            *((wrong, "away the request can't be read\n") for wrong in (
                "\n", "lease\n", "lease 32 1\n", "lease 0 0\n", "lease 0 33\n", "lease 0 8 \n", f"lease 0 8 {A}\n",
                f"lease 0 8 {A}:0:0 {A}:0:0\n", f"lease 0 8 {A}:0:0'; DROP TABLE auc_numbers\n", f"lease 0 8 {A}:-1:0\n", f"lease 0 8 12345:0:0\n")),
        ]
        for store in self.made():
            done = self.master(store, input="".join(asked for asked, _ in cases))
            self.assertEqual(done.stdout.splitlines(True), [answer for _, answer in cases])

    def test_request_that_is_no_utf_8_is_away(self):
        self.made()
        lines = f"\udcff\nlease 0 8 {A}:0:0\n".encode(errors="surrogateescape")
        how = {"input": lines, "stdout": subprocess.PIPE, "env": {**self.environment, "PYTHONIOENCODING": "utf-8:strict"}}
        done = subprocess.run([MASTER, self.sqlite], **how)
        self.assertEqual(done.stdout.decode(), f"away the request can't be read\nleased {A}:32:39:0\n")

    def test_a_loss_of_power_rolls_no_commit_of_sqlite_back(self):
        self.made()
        store = loaded("master").store_of(self.sqlite)
        store.open()
        self.addCleanup(store.close)
        self.assertEqual(store.rows("PRAGMA synchronous"), [("3",)], "EXTRA")

    def test_many_masters_lease_no_number_twice(self):
        store, _ = self.made()
        asked = f"lease 0 8 {A}:0:0 {B}:0:0\n" * REQUESTS
        with ThreadPoolExecutor(3) as pool:
            answers = [done.stdout for done in pool.map(lambda _: self.master(store, input=asked), range(3))]
        leases = [word for answer in answers for line in answer.splitlines() for word in line.split()[1:]]
        self.assertEqual((len(leases), len(set(leases))), (6 * REQUESTS, 6 * REQUESTS))

    def test_numbers_are_raised_to_a_file_of_subscribers_and_never_lowered(self):
        file = self.folder / "subscribers.csv"
        file.write_text(SUBSCRIBERS)
        for store in self.made():
            self.master(store, input=f"lease 0 8 {A}:0:3\n")
            self.assertEqual(self.master(store, "--state", file).returncode, 0)
            numbers = self.master(store, "--numbers").stdout
            self.assertEqual(numbers.splitlines()[:2], [f"reserved {A} 39", f"reserved {B} 40"])
            # The file that tools/seqs makes of it is stated the same way.
            words = [TOOLS / "seqs", file, "--reserved", "-", "--margin", "1000"]
            raised = subprocess.run(words, input=numbers, capture_output=True, text=True, check=True).stdout
            (self.folder / "raised.csv").write_text(raised)
            self.master(store, "--state", self.folder / "raised.csv")
            numbers = self.master(store, "--numbers").stdout
            self.assertEqual(numbers.splitlines()[:2], [f"reserved {A} 1039", f"reserved {B} 1040"])

    def test_table_is_made_once_and_never_by_itself(self):
        for store, reason in ((self.sqlite, "unable to open database file"), (self.postgres, "--make makes it")):
            (self.folder / "session").write_text("on|on|f|none")
            done = self.master(store, "--numbers")
            self.assertEqual((done.returncode, reason in done.stderr), (1, True))
            self.assertRegex(self.master(store, input="lease 0 8\n").stdout, f"^away .*{reason}")
            for status, said in ((0, ""), (1, "already exists")):
                done = self.master(store, "--make")
                self.assertEqual((done.returncode, said in done.stderr), (status, True))

    def test_name_that_cannot_be_opened_is_told(self):
        gone = self.folder / "gone"
        gone.mkdir()
        for store, folder, reason in (("sqlite:/tmp/\udcff.db", None, "isn't UTF-8"), ("sqlite:x", gone, "can't be found")):
            remove = gone.rmdir if folder else None
            done = self.master(store, "--make", cwd=folder, preexec_fn=remove)
            self.assertEqual((done.returncode, done.stdout, done.stderr.count("\n")), (1, "", 1), done.stderr)
            self.assertIn(reason, done.stderr)

    def test_server_that_may_lose_a_commit_is_refused(self):
        _, store = self.made()
        for session, reason in (("off|on|f|p", "fsync is off"), ("on|off|f|p", "synchronous_commit is off"),
                                ("on|local|f|p", "synchronous_commit is local"), ("on|on|t|p", "is a standby"),
                                ("on|on|f|u", "doesn't outlive a crash")):
            (self.folder / "session").write_text(session)
            self.assertIn(reason, self.master(store, input=f"lease 0 8 {A}:0:0\n").stdout)
        (self.folder / "session").write_text("on|remote_apply|f|p")
        self.assertEqual(self.master(store, input=f"lease 0 8 {A}:0:0\n").stdout, f"leased {A}:32:39:0\n")

    def test_answer_that_may_not_be_committed_does_not_count(self):
        child = Master(["env", f"PATH={self.environment['PATH']}", MASTER, self.made()[1]])
        self.addCleanup(child.end)

        def ask():
            return child.answer(f"lease 0 8 {A}:0:0\n", SOON)

        self.assertEqual(ask(), f"leased {A}:32:39:0")
        cases = [
            ("lost before", "away server closed the connection unexpectedly"),
            ("lost after", "away server closed the connection unexpectedly"),
            ("warns", "away WARNING: canceling wait for synchronous replication"),
            ("refused", "away psql: error: connection to server failed: Connection refused"),
        ]
        for mood, reason in cases:
            self.mood(mood)
            self.assertTrue(ask().startswith(reason))
        self.mood("well")
        # `lost after` and `warns` took a lease each that nobody has.
        self.assertEqual(ask(), f"leased {A}:128:135:0")
        self.assertEqual(ask(), f"leased {A}:160:167:0")

    def test_server_without_an_answer_is_away_after_its_time(self):
        tool, (_, place) = loaded("master"), self.made()
        self.mood("silent")
        with mock.patch.dict(os.environ, self.environment), mock.patch.object(tool, "LONGEST", 0.5):
            store = tool.store_of(place)
            self.assertEqual(tool.answer(store, f"lease 0 8 {A}:0:0\n"), "away the server gave no answer in 0.5 s")
            self.assertFalse(store.is_open())


# ---- gateways

class Shared(Gateways):
    """Gateways over one file of SQLite."""

    def setUp(self):
        super().setUp()
        self.base = self.folder / "numbers.db"
        self.assertEqual(master(f"sqlite:{self.base}", "--make").returncode, 0)

    def words(self, place, count):
        return "--leases", f"{MASTER} sqlite:{self.base}", "--site", f"{place}/{count}"

    def site(self, place, count=3, *options):
        return self.start(*self.words(place, count), *options, path=self.folder / f"socket{place}")

    def numbers(self):
        return [line.split()[1:] for line in master(f"sqlite:{self.base}", "--numbers").stdout.splitlines()]

    def lives(self, number):
        """Whether a process is there and hasn't ended, whoever may have to hear of its end."""
        try:
            return Path(f"/proc/{number}/stat").read_text().rpartition(")")[2].split()[0] != "Z"
        except OSError:
            return False

    def children(self, child):
        return [int(it) for it in Path(f"/proc/{child.pid}/task/{child.pid}/children").read_text().split()]


class Sites(Shared):
    def test_two_gateways_hand_out_different_numbers_of_their_own_indices(self):
        sites = [self.site(place, 2)[1] for place in (1, 2)]
        chance, seqs = random.Random(SEED), [[], []]
        for _ in range(150):
            place = chance.randrange(2)
            seqs[place].append(seq_in(sites[place].vector()))
        self.assertEqual(len(set(seqs[0] + seqs[1])), 150)
        for place, found in enumerate(seqs):
            self.assertEqual(found, sorted(found))
            self.assertEqual({it % 32 // 16 for it in found}, {place})

    def test_usim_accepts_each_vector_whichever_gateway_it_comes_from(self):
        sites = [self.site(place)[1] for place in (1, 2, 3)]
        chance, usim = random.Random(SEED), Usim(lambda rand: functions(rand.hex()), 0)
        # One gateway keeps its lease while the others go on by far more than 32 numbers.
        places = [0, 1, 2, *(chance.choice((1, 2)) for _ in range(80)), *(chance.randrange(3) for _ in range(80))]
        for place in places:
            rand, autn = (bytes.fromhex(it) for it in sites[place].vector().split()[2:4])
            self.assertEqual(usim.challenge(rand, autn)[0].split()[0], "accepted")

    def test_no_number_comes_twice_over_kills(self):
        chance, numbers = random.Random(SEED), []
        _, lasting = self.site(1)
        for _ in range(KILLS):
            child, client = self.site(2)
            for _ in range(chance.choice((0, 1, 9, 10, 11))):
                numbers += [seq_in(client.vector()), seq_in(lasting.vector())]
            client.say(f"AKA-REQ-AUTH {A}")
            time.sleep(chance.uniform(0, 0.05))
            child.kill()
            child.wait()
            numbers += [seq_in(it) for it in iter(lambda: client.hear(0.01), None)]
        self.assertGreater(len(numbers), 2 * KILLS)
        self.assertEqual(len(numbers), len(set(numbers)))

    def test_kill_of_the_master_costs_no_answer(self):
        child, client = self.site(1, 32)
        seqs = []
        for _ in range(4):
            seqs.append(seq_in(client.vector()))
            for number in self.children(child):
                os.kill(number, signal.SIGKILL)
        self.assertEqual(seqs, sorted(set(seqs)))
        self.assertIn("no leases came: the command has ended", self.log.read_text())

    def test_run_that_failed_is_made_again_over_the_same_lease(self):
        program = self.script("""
failed = sys.argv[0] + ".failed"
if "draw" in open(sys.argv[2]).read() and not os.path.exists(failed):
    open(failed, "w").close()
    os.kill(os.getpid(), signal.SIGKILL)
os.execv(PROGRAM, [PROGRAM, *sys.argv[1:]])
""")
        _, client = self.start(*self.words(1, 1), program=program)
        self.assertEqual([seq_in(client.vector()) for _ in range(33)], list(range(32, 65)))
        self.assertIn("the program was ended by signal 9", self.log.read_text())

    def test_auts_moves_the_number_for_both(self):
        (_, first), (_, second) = self.site(1), self.site(2)
        self.assertEqual([seq_in(it.vector()) for it in (first, second)], [32, 42])
        rand = first.vector().split()[2]
        said = f"AKA-AUTS {A} {auts(rand, 700)} {rand}"
        first.say(said)
        # The store is told at once, without a further request.
        until = time.monotonic() + SOON
        while int(self.numbers()[0][1]) <= 700 and time.monotonic() < until:
            time.sleep(0.01)
        # The second one spends the lease that it has, whose numbers nobody else gets. Its next one is above.
        seqs = [seq_in(second.vector()) for _ in range(10)]
        self.assertEqual(seqs[:9], list(range(43, 52)))
        self.assertGreater(min(seqs[9], seq_in(first.vector())), 700)
        # A replayed AUTS moves nothing back.
        second.say(said)
        self.assertGreater(seq_in(second.vector()), seqs[9])

    def test_site_that_meets_the_auts_itself_is_above_it_at_once(self):
        (_, first), (_, second) = self.site(1), self.site(2)
        second.vector()
        for client in (first, second):
            rand = client.vector().split()[2]
            client.say(f"AKA-AUTS {A} {auts(rand, 700)} {rand}")
            self.assertGreater(seq_in(client.vector()), 700)

    def test_triplets_take_more_than_one_lease(self):
        _, client = self.site(5, 32)
        for _ in range(3):
            self.assertEqual(len(client.ask(f"SIM-REQ-AUTH {B} 3").split()), 5)
        self.assertEqual(self.numbers(), [[B, str(40 + 28 + 8 * 32)]])

    def test_many_subscribers_are_leased_at_once(self):
        imsis = [f"00101{place:010}" for place in range(100, 140)]
        self.file.write_text(SUBSCRIBERS + "".join(f"{imsi},{K},opc,{OPC},8000,0,0\n" for imsi in imsis))
        _, client = self.site(2, 4)
        for imsi in imsis:
            client.say(f"AKA-REQ-AUTH {imsi}")
        self.assertEqual({tuple(client.hear().split()[:2]) for _ in imsis}, {("AKA-RESP-AUTH", imsi) for imsi in imsis})
        self.assertEqual(self.numbers(), [[imsi, "15"] for imsi in imsis])

    def test_end_of_the_numbers_is_refused(self):
        self.file.write_text(SUBSCRIBERS.replace("8000,40,0", f"8000,{MAX_SEQ - 2},0"))
        _, client = self.site(32, 32)
        self.assertEqual(seq_in(client.vector(B)), MAX_SEQ)
        self.assertEqual(client.vector(B), f"AKA-RESP-AUTH {B} FAILURE")
        self.assertIn(f"{B} has no number left", self.log.read_text())
        self.assertEqual(seq_in(client.vector(A)), 31)


class Kept(Shared):
    def test_runs_leave_nothing_behind(self):
        room = self.folder / "room"
        room.mkdir()
        child, client = self.site(1, 3, "--folder", room)
        client.vector()
        self.assertEqual(os.listdir(room), [])
        self.assertEqual(self.end(child), 0)
        self.assertFalse((self.folder / "auc.journal").exists())

    def test_master_ends_with_its_gateway(self):
        for end in signal.SIGTERM, signal.SIGKILL:
            child, client = self.site(1)
            client.vector()
            [number] = self.children(child)
            child.send_signal(end)
            child.wait(SOON)
            until = time.monotonic() + SOON
            while self.lives(number) and time.monotonic() < until:
                time.sleep(0.01)
            self.assertFalse(self.lives(number))


class StoreAway(Shared):
    """The store is away."""

    def test_store_that_is_away_gives_no_vector_and_is_logged(self):
        _, client = self.site(1, 32, "--patience", "0.5")
        seqs = [seq_in(client.vector())]
        self.base.rename(self.folder / "elsewhere")
        self.assertEqual(client.vector(), f"AKA-RESP-AUTH {A} FAILURE")
        self.assertIn(f"no leases came: {self.base}: unable to open database file", self.log.read_text())
        (self.folder / "elsewhere").rename(self.base)
        until = time.monotonic() + SOON
        answer = client.vector()
        while answer.endswith("FAILURE") and time.monotonic() < until:
            answer = client.vector()
        self.assertGreater(seq_in(answer), seqs[0])

    def test_request_waits_for_a_store_that_is_locked(self):
        _, client = self.site(1, 32)
        client.vector()
        with sqlite3.connect(self.base, isolation_level=None) as other:
            other.execute("BEGIN EXCLUSIVE")
            client.say(f"AKA-REQ-AUTH {A}")
            self.assertIsNone(client.hear(SILENCE))
            other.execute("ROLLBACK")
        self.assertEqual(seq_in(client.hear()), 64)

    def test_vectors_of_a_lease_are_handed_out_while_the_store_is_away(self):
        _, client = self.site(1, 3)
        seqs = [seq_in(client.vector())]
        self.base.unlink()
        seqs += [seq_in(client.vector()) for _ in range(9)]
        self.assertEqual(seqs, list(range(32, 42)))

    def test_number_does_not_come_again_of_a_store_that_was_put_back(self):
        (child, first), (_, second) = self.site(1), self.site(2)
        seqs = [seq_in(it.vector()) for it in (first, second)]
        shutil.copy(self.base, self.folder / "older")
        seqs += [seq_in(first.vector()) for _ in range(40)]
        (self.folder / "older").rename(self.base)
        seqs += [seq_in(first.vector()) for _ in range(40)]
        self.assertEqual(len(seqs), len(set(seqs)))

    def test_gateway_without_a_store_does_not_start(self):
        self.base.unlink()
        self.assertIn("no leases came: ", self.refusal(*self.words(1, 2)))
        self.assertIn("no leases came: ", self.refusal("--leases", "/missing", "--site", "1/2"))
        self.assertIn("no leases came: the command has ended", self.refusal("--leases", "true", "--site", "1/2"))

    def test_words_that_do_not_belong_together_are_refused(self):
        for words in (["--leases", "x"], ["--site", "1/2"], ["--leases", "x", "--site", "0/2"], ["--leases", "x", "--site", "3/2"],
                      ["--leases", "x", "--site", "1/33"], ["--leases", "x", "--site", "1"]):
            self.assertEqual(self.begin(*words).wait(SOON), 2)


def main():
    if len(sys.argv) > 1 and not sys.argv[1].startswith("-") and os.path.exists(sys.argv[1]):
        test_gateway.PROGRAM = str(Path(sys.argv.pop(1)).resolve())
    unittest.main()


if __name__ == "__main__":
    run_main(main, __doc__)
