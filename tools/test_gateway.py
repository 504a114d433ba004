#!/usr/bin/env python3
"""Tests of tools/gateway with the program behind it and clients that speak as hostapd does.

    tools/test_gateway.py [PROGRAM]      PROGRAM: crates/auc_cli/out/auc_cli, unless it is given

AUTS are made by the program's own `vector`, and SQNs are read by tools/eap.
"""
import fcntl
import os
import random
import signal
import socket
import stat
import subprocess
import sys
import tempfile
import time
import unittest
from contextlib import contextmanager, nullcontext, suppress
from pathlib import Path

from eap.session import Subscriber
from eap.usim import MAX_SEQ, sqn_of, top_of, triplet
from ends import run_main
from gateway_centre import BETWEEN_STARTS, LONG_HEADER, MOST_AUTS, Centre, Refused, Service, read_subscribers
from gateway_stock import OFTEN
from trial import HEADER, K, OPC

TOOLS = Path(__file__).resolve().parent
PROGRAM = str(TOOLS.parent / "crates/auc_cli/out/auc_cli")
OP = "cdc202d5123e20f62b6d676ac72cb318"
A, B, FAR = "001010000000001", "001010000000002", "001010000000003"
# The second one has OP, from which the OPc of the first one is made. The third one is out of the reach of a new USIM.
ROWS = f"{A},{K},opc,{OPC},8000,0,0\n{B},{K},op,{OP},8000,40,0\n{FAR},{K},opc,{OPC},8000,268435466,0\n"
SUBSCRIBERS = f"{HEADER}\n{ROWS}"
# Seconds that a test waits for what has to come, and for what must not.
SOON, SILENCE = 30, 0.2
KILLS, PROGRAM_KILLS, SEED = 50, 4, 7
# The front of a stand-in for a program that stays alive: `block` is the next block, and `reply` what the program replies to it.
BESIDE = """
held = int(sys.argv[2].rpartition("/")[2])
program = subprocess.Popen([PROGRAM, *sys.argv[1:]], stdin=subprocess.PIPE, stdout=subprocess.PIPE, pass_fds=[held])

def lines_to_end(file):
    text = b""
    for line in file:
        text += line
        if line == b"end\\n":
            break
    return text

def block():
    return lines_to_end(sys.stdin.buffer)

def reply(block):
    if not block:
        program.stdin.close()
        return b""
    program.stdin.write(block)
    program.stdin.flush()
    return lines_to_end(program.stdout)

def say(text):
    sys.stdout.buffer.write(text)
    sys.stdout.flush()
"""

# One that takes a fifth of a second for each subscriber, so that eight of them take longer than a request waits in a test.
SLOW = BESIDE + """
while True:
    asked = block()
    time.sleep(asked.count(b"job") / 5)
    text = reply(asked)
    if not text:
        break
    say(text)
"""

# One whose journal has room for one frame, as long as there is a file of this name.
FULL_DISK = """
import resource
if os.path.exists("full"):
    signal.signal(signal.SIGXFSZ, signal.SIG_IGN)
    resource.setrlimit(resource.RLIMIT_FSIZE, (36, resource.getrlimit(resource.RLIMIT_FSIZE)[1]))
os.execv(PROGRAM, [PROGRAM, *sys.argv[1:]])
"""


def functions(rand):
    return Subscriber().functions(bytes.fromhex(rand))


def sqn_in(answer):
    """The SQN of an answer's AUTN, and whether its MAC is right."""
    rand, autn = (bytes.fromhex(word) for word in answer.split()[2:4])
    f = functions(rand.hex())
    assert f.is_right(autn), answer
    return int.from_bytes(f.sqn_of(autn), "big")


def seq_in(answer):
    return sqn_in(answer) >> 5


def algorithm(rand, sqn):
    """The values that the program prints for a RAND and an SQN."""
    words = [PROGRAM, "vector", K, OPC, rand, f"{sqn:012x}", "0000"]
    text = subprocess.run(words, capture_output=True, text=True, check=True).stdout
    return dict(line.split() for line in text.splitlines())


def auts(rand, seq):
    """AUTS of a USIM whose greatest accepted SEQ is this one (TS 33.102 §6.3.3)."""
    sqn = int.from_bytes(sqn_of(seq), "big")
    values = algorithm(rand, sqn)
    return f"{sqn ^ int(values['f5*'], 16):012x}" + values["f1*"]


class Client:
    """A client of the gateway, as hostapd is one."""

    def __init__(self, own):
        self.socket = socket.socket(socket.AF_UNIX, socket.SOCK_DGRAM)
        self.socket.bind(str(own))

    def say(self, text):
        self.socket.send(text.encode("latin-1"))

    def hear(self, seconds=SOON):
        """The next answer, or nothing if none comes in this time."""
        self.socket.settimeout(seconds)
        try:
            return self.socket.recv(4096).decode()
        except socket.timeout:
            return None

    def ask(self, text, seconds=SOON):
        self.say(text)
        return self.hear(seconds)

    def vector(self, imsi=A):
        return self.ask(f"AKA-REQ-AUTH {imsi}")

    def end(self):
        own = self.socket.getsockname()
        self.socket.close()
        os.unlink(own)


class Gateways(unittest.TestCase):
    """A folder for each test, and the gateways and clients in it. Nothing is drawn ahead, so that each number is known."""

    ahead = "--ahead", "0"

    def setUp(self):
        folder = tempfile.TemporaryDirectory(prefix="gateway")
        self.addCleanup(folder.cleanup)
        self.folder = Path(folder.name)
        self.file = self.folder / "subscribers.csv"
        self.file.write_text(SUBSCRIBERS)
        self.path, self.log = self.folder / "socket", self.folder / "log"
        self.clients = 0

    def begin(self, *options, folder=None, path=None, program=None, log=None):
        words = [TOOLS / "gateway", self.file, "--socket", path or self.path, "--folder", folder or self.folder, "--program",
                 program or PROGRAM, "--patience", str(SOON), *self.ahead, *options]
        with nullcontext(log) if log else self.log.open("a") as log:
            child = subprocess.Popen([str(word) for word in words], stderr=log)
        self.addCleanup(self.kill, child)
        return child

    def kill(self, child):
        if child.poll() is None:
            child.kill()
            child.wait()

    def start(self, *options, **places):
        """A gateway that serves, and a client of it. The gateway has to say that it serves: for a moment the socket of a killed
        one can still be connected to, as long as the program that it was starting holds it."""
        served, child, until = self.times_served(), self.begin(*options, **places), time.monotonic() + SOON
        while time.monotonic() < until and child.poll() is None:
            if self.times_served() > served:
                client = self.client(connected=False)
                client.socket.connect(str(places.get("path", self.path)))
                return child, client
            time.sleep(0.01)
        self.fail(f"the gateway doesn't serve: {self.log.read_text()}")

    def times_served(self):
        """How many gateways have said that they serve."""
        return self.log.read_text().count("gateway: serves ") if self.log.exists() else 0

    def wait_until(self, test):
        until = time.monotonic() + SOON
        while not test():
            self.assertLess(time.monotonic(), until, self.log.read_text())
            time.sleep(0.01)

    def write_many(self, count):
        """Writes a file of so many subscribers: their IMSIs."""
        imsis = [f"00101{place:010}" for place in range(100, 100 + count)]
        self.file.write_text(f"{HEADER}\n" + "".join(f"{imsi},{K},opc,{OPC},8000,0,0\n" for imsi in imsis))
        return imsis

    def program_of(self, child):
        """The process of the program that a gateway keeps."""
        until = time.monotonic() + SOON
        while time.monotonic() < until:
            found = Path(f"/proc/{child.pid}/task/{child.pid}/children").read_text().split()
            if found:
                return int(found[0])
            time.sleep(0.01)
        self.fail(f"the gateway keeps no program: {self.log.read_text()}")

    def kill_program(self, child):
        os.kill(self.program_of(child), signal.SIGKILL)

    def client(self, connected=True):
        self.clients += 1
        client = Client(self.folder / f"client{self.clients}")
        self.addCleanup(client.socket.close)
        if connected:
            client.socket.connect(str(self.path))
        return client

    def served(self, client, imsi=A):
        """The first answer with a vector."""
        until = time.monotonic() + SOON
        while time.monotonic() < until:
            answer = client.vector(imsi)
            if not answer.endswith("FAILURE"):
                return answer
        self.fail(f"nothing is served: {self.log.read_text()}")

    def end(self, child):
        """The status after SIGTERM."""
        child.send_signal(signal.SIGTERM)
        return child.wait(SOON)

    def refusal(self, *options, **places):
        """What a gateway says that doesn't start."""
        child = self.begin(*options, **places)
        self.assertEqual(child.wait(SOON), 1)
        return self.log.read_text().splitlines()[-1]

    @contextmanager
    def journal_in_other_hands(self):
        """Holds the lock of the journal, as soon as nobody has it."""
        until = time.monotonic() + SOON
        with (self.folder / "auc.journal").open("ab") as journal:
            while True:
                try:
                    fcntl.flock(journal, fcntl.LOCK_EX | fcntl.LOCK_NB)
                    break
                except BlockingIOError:
                    self.assertLess(time.monotonic(), until)
                    time.sleep(0.01)
            yield

    def script(self, text):
        """A program that stands for the centre's, with the words PROGRAM and its own words at hand."""
        path = self.folder / "program"
        path.write_text(f"#!/usr/bin/env python3\nimport os, signal, subprocess, sys, time\nPROGRAM = {PROGRAM!r}\n{text}")
        path.chmod(0o755)
        return path


# ---- blocks

class Asked:
    """A request that waits."""

    def __init__(self, count, imsi=A):
        self.count, self.imsi = count, imsi


class Subscribers(unittest.TestCase):
    def test_profile_of_a_subscriber_is_handed_on(self):
        rows = f"{A},{K},opc,{OPC},8000,0,0,3,-\n{B},{K},opc,{OPC},8000,0,0,5,-\n{FAR},{K},opc,{OPC},8000,0,0,6,20\n"
        of = read_subscribers(f"{','.join(LONG_HEADER)}\n{rows}".encode())
        self.assertEqual([of[it].line().split()[6:] for it in (A, B, FAR)], [["0", "0", "3", "-"], ["0", "0"], ["0", "0", "6", "20"]])
        rand = bytes(16)
        for imsi, bits, seq in ((A, 3, 700), (B, 5, 700), (FAR, 6, top_of(6)), (A, 3, MAX_SEQ)):
            with self.subTest(bits=bits, seq=seq):
                auts = functions(rand.hex()).auts(sqn_of(seq, bits))
                self.assertEqual(of[imsi].seq_in(auts.hex(), rand.hex()), seq)
        beyond = functions(rand.hex()).auts((MAX_SEQ + 1 << 3).to_bytes(6, "big"))
        self.assertIsNone(of[A].seq_in(beyond.hex(), rand.hex()))
        with self.assertRaises(Refused):
            read_subscribers(f"{HEADER}\n{rows}".encode())


class Blocks(unittest.TestCase):
    """What is asked of the program, and what is taken from its replies."""

    def setUp(self):
        self.centre = Centre(read_subscribers(SUBSCRIBERS.encode()))
        self.requests = [Asked(1), Asked(3), Asked(1)]

    def asked(self, *requests, **more):
        """The block for these requests of A and what more waits, as lines, and its batch."""
        self.batch = self.centre.batch({A: requests, **more}, 10, 10)
        return self.centre.scenario(self.batch).decode().splitlines()

    def given(self, *lines):
        """The numbers that each request got by a reply with these lines, and what was told."""
        text = "\n".join(("ready", "end", "round 1", "job 1", *lines, "end", ""))
        given, told = self.centre.learn(self.batch, text)
        vectors = [self.centre.take(it) for it in self.batch[A].requests]
        self.assertEqual(A in given, any(vectors))
        return [it and [vector.number for vector in it] for it in vectors], [sentence for _, sentence in told]

    def vectors(self, *numbers):
        return [line for number in numbers for line in (f"vector {A} {number}", "bytes 0 1 2 3 4")]

    def test_block_has_a_job_for_each_subscriber_with_its_requests_in_order(self):
        self.centre.take_auts(A, "11", "22")
        lines = self.asked(*self.requests, **{B: [Asked(1)]})
        draws = f"draw {A} 1", f"draw {A} 3", f"draw {A} 1"
        self.assertEqual(lines, ["round", "job", f"auts {A} 11 22 0", *draws, "job", f"draw {B} 1", "end"])
        self.assertEqual(list(self.centre.batch({A: [], B: []}, 1, 1)), [A])
        self.assertEqual(self.centre.scenario(self.centre.batch({}, 1, 1)), b"")

    def test_each_request_gets_its_vectors_once(self):
        self.asked(*self.requests)
        self.assertEqual(self.given(*self.vectors(1, 2, 3, 4, 5)), ([[1], [2, 3, 4], [5]], []))
        self.assertEqual([self.centre.take(it) for it in self.requests], [None, None, None])
        self.asked(*self.requests)
        lines = [*self.vectors(6, 7), f"withheld {A} 8 fault"]
        self.assertEqual(self.given(*lines), ([[6], None, [7]], [f"the program said: withheld {A} 8 fault"]))

    def test_vectors_of_a_request_that_waits_no_longer_are_nobodys(self):
        self.asked(*self.requests)
        self.centre.learn(self.batch, "\n".join((*self.vectors(1, 2, 3, 4, 5), "end", "")))
        self.asked(*self.requests)
        self.assertEqual(self.given(f"exhausted {A} 0")[0], [None, None, None])

    def test_auts_is_told_until_a_reply_came(self):
        self.centre.take_auts(A, "11", "22")
        self.centre.take_auts(A, "33", "44")
        for _ in range(2):
            self.assertEqual(self.asked(Asked(1))[2:4], [f"auts {A} 11 22 0", f"auts {A} 33 44 0"])
        self.centre.take_auts(A, "55", "66")
        found = self.given(f"sync {A} wrongmac", f"sync {A} moved 0 700", *self.vectors(701))
        self.assertEqual(found, ([[701]], [f"an AUTS of {A} has a wrong MAC-S", f"the USIM of {A} is at 700"]))
        self.assertEqual(self.asked(Asked(1))[2:], [f"auts {A} 55 66 0", f"draw {A} 1", "end"])
        self.assertEqual(self.given(f"sync {A} inrange 701 700", *self.vectors(702))[1], [f"the USIM of {A} is at 700"])
        self.assertEqual(self.asked(Asked(1))[2:], [f"draw {A} 1", "end"])

    def test_last_ones_of_many_auts_are_kept(self):
        for place in range(9):
            self.centre.take_auts(A, place, place)
        self.assertEqual(self.asked(Asked(1))[2:-2], [f"auts {A} {place} {place} 0" for place in range(9 - MOST_AUTS, 9)])

    def test_number_out_of_reach_is_not_handed_out(self):
        self.asked(Asked(1))
        self.assertEqual(self.given(f"sync {A} beyond 268435500 0", *self.vectors(268435501))[0], [None])

    def test_number_that_came_before_is_not_handed_out(self):
        for numbers, wanted in (((2,), [2]), ((2, 3), None), ((3, 4), None), ((5,), [5])):
            self.asked(Asked(1))
            found, told = self.given(*self.vectors(*numbers))
            self.assertEqual((found, len(told)), ([wanted], 0 if wanted else 1), numbers)

    def test_refused_block_is_told_and_gives_nothing(self):
        self.centre.take_auts(A, "11", "22")
        self.asked(Asked(1))
        given, told = self.centre.learn(self.batch, "refused scenario 3 hex\nend\n")
        self.assertEqual((given, told), (set(), [("refused", "the program said: refused scenario 3 hex")]))
        self.assertEqual(self.asked(Asked(1))[2:], [f"draw {A} 1", "end"])


class Stocks(unittest.TestCase):
    """What is drawn ahead, and who gets it."""

    def setUp(self):
        self.centre, self.number = Centre([A, B, FAR], 2), 0

    def serve(self, *requests, spare=2, without=()):
        """Serves a block for these requests and the stock, with a new number for each vector but those of some subscribers: how many
        each subscriber gets."""
        waiting = {}
        for it in requests:
            waiting.setdefault(it.imsi, []).append(it)
        batch, lines = self.centre.batch(waiting, 9, spare), []
        for imsi, job in batch.items():
            for _ in range(0 if imsi in without else sum(it.count for it in job.requests) + job.more):
                self.number += 1
                lines.append(f"vector {imsi} {self.number}\nbytes 0 1 2 3 4\n")
        self.given, told = self.centre.learn(batch, "".join(lines))
        self.told = [sentence for _, sentence in told]
        return {imsi: sum(f"vector {imsi} " in line for line in lines) for imsi in batch}

    def numbers(self, count=1, imsi=A):
        found = self.centre.take(Asked(count, imsi))
        return found and [it.number for it in found]

    def test_one_vector_is_drawn_ahead_for_each_of_so_many_subscribers(self):
        self.assertTrue(self.centre.is_low())
        self.assertEqual((self.serve(spare=1), self.told), ({A: 1}, []))
        self.assertEqual((self.serve(), self.told), ({B: 1}, ["vectors of 2 subscribers are ready"]))
        self.assertFalse(self.centre.is_low())
        self.assertEqual((self.numbers(imsi=B), self.numbers(), self.numbers(imsi=FAR)), ([2], [1], None))
        # Another one is drawn for each who took one; for the third subscriber there is no place.
        self.assertEqual((self.serve(Asked(1, FAR)), self.told), ({FAR: 1, B: 1, A: 1}, []))

    def test_nothing_is_drawn_ahead_for_none(self):
        self.centre = Centre([A, B], 0)
        self.assertFalse(self.centre.is_low())
        for _ in range(3):
            self.assertEqual((self.serve(Asked(1)), self.told), ({A: 1}, []))

    def test_subscriber_that_finds_too_few_has_more(self):
        self.serve()
        self.numbers()
        for wanted in (2, 4, 8, 16, 32, 32):
            request, ready = Asked(1), len(self.centre.stock.vectors[A])
            self.assertIsNone(self.numbers(33))
            self.assertEqual(self.serve(request)[A], 1 + wanted - ready)
            self.assertEqual(len(self.centre.take(request)), 1)
        self.assertEqual(len(self.centre.stock.vectors[A]), 32)
        self.assertEqual([len(self.centre.take(Asked(1))) for _ in range(15)], [1] * 15)
        self.assertFalse(self.centre.is_low())
        self.numbers()
        self.assertEqual(self.serve(), {A: 16})

    def test_request_for_more_than_is_ready_gets_the_lowest_numbers(self):
        self.serve()
        self.assertIsNone(self.numbers(3))
        request = Asked(3)
        self.assertEqual(self.serve(request), {A: 4})
        self.assertEqual([it.number for it in self.centre.take(request)], [1, 3, 4])
        self.assertEqual((self.numbers(), self.numbers()), ([5], [6]))

    def test_vectors_before_an_auts_are_dropped(self):
        self.serve()
        self.centre.take_auts(A, "11", "22")
        self.assertIsNone(self.numbers())
        # It waits for a request, and what is drawn meanwhile isn't kept.
        self.centre.stock.low[A] = None
        self.assertEqual(self.serve(), {})
        request = Asked(1)
        batch = self.centre.batch({A: [request]}, 9, 9)
        self.centre.take_auts(A, "33", "44")
        self.centre.learn(batch, "".join(f"vector {A} {it}\nbytes 0 1 2 3 4\n" for it in (10, 11, 12)))
        self.assertEqual([it.number for it in self.centre.take(request)], [10])
        self.assertIsNone(self.numbers())

    def test_draw_without_a_reply_is_repeated(self):
        request = Asked(1, B)
        batch = self.centre.batch({B: [request]}, 9, 9)
        self.centre.put_back(batch)
        # B waits for itself, and isn't put back.
        self.assertEqual((self.serve(request), self.told), ({B: 2, A: 1}, ["vectors of 2 subscribers are ready"]))

    def test_many_are_kept_only_for_those_who_found_too_few_last(self):
        imsis = [f"00101{place:010}" for place in range(OFTEN + 1)]
        self.centre = Centre(imsis, len(imsis))
        self.serve(spare=len(imsis))
        for imsi in imsis:
            self.assertIsNone(self.numbers(9, imsi))
            self.serve(Asked(1, imsi))
        ready = [len(self.centre.stock.vectors[imsi]) for imsi in imsis]
        self.assertEqual(ready, [1] + [2] * OFTEN)

    def test_draw_that_gave_nothing_is_not_repeated_by_itself(self):
        self.assertEqual(self.serve(without=(A, B)), {A: 0, B: 0})
        self.assertEqual((self.given, self.centre.is_low()), (set(), False))
        request = Asked(1)
        self.assertEqual(self.serve(request, without=(A,)), {A: 0})
        self.assertEqual((self.given, self.centre.take(request)), (set(), None))


# ---- answers

class Answers(Gateways):
    def test_quintet_is_what_milenage_gives(self):
        _, client = self.start()
        for imsi in (A, B):
            word, said, rand, autn, ik, ck, res = client.vector(imsi).split()
            values = algorithm(rand, 0)
            self.assertEqual((word, said, ik, ck, res), ("AKA-RESP-AUTH", imsi, values["f4"], values["f3"], values["f2"]))
            self.assertEqual(autn[12:16], "8000")

    def test_triplets_are_those_of_their_rands(self):
        _, client = self.start()
        for asked, count in ((f"SIM-REQ-AUTH {A} 2", 2), (f"SIM-REQ-AUTH {A}", 3), (f"SIM-REQ-AUTH {A} 3", 3)):
            word, said, *triplets = client.ask(asked).split()
            self.assertEqual((word, said, len(triplets)), ("SIM-RESP-AUTH", A, count))
            for kc, sres, rand in (it.split(":") for it in triplets):
                f = functions(rand)
                self.assertEqual((sres, kc), tuple(it.hex() for it in triplet(f.res, f.ck, f.ik)))

    def test_requests_of_a_subscriber_are_answered_in_order_and_by_each_number_once(self):
        _, client = self.start()
        numbers = {A: [], B: []}
        rands = set()
        for place in range(300):
            imsi = (A, B)[place % 3 == 2]
            if place % 50 == 49:
                rands.update(it.split(":")[2] for it in client.ask(f"SIM-REQ-AUTH {imsi}").split()[2:])
            else:
                answer = client.vector(imsi)
                rands.add(answer.split()[2])
                numbers[imsi].append(seq_in(answer))
        self.assertEqual(len(rands), 294 + 6 * 3)
        for imsi, first in ((A, 1), (B, 41)):
            self.assertEqual(numbers[imsi][0], first)
            self.assertEqual(numbers[imsi], sorted(set(numbers[imsi])))

    def test_many_requests_at_once_are_all_answered(self):
        _, first = self.start("--batch", "1")
        clients = [first, *(self.client() for _ in range(7))]
        for client in clients:
            client.say(f"AKA-REQ-AUTH {A}")
            client.say(f"AKA-REQ-AUTH {B}")
        answers = [client.hear() for client in clients for _ in range(2)]
        self.assertEqual(sorted(sqn_in(it) for it in answers if it.split()[1] == A), [33 * n for n in range(1, 9)])
        self.assertEqual(len({sqn_in(it) for it in answers if it.split()[1] == B}), 8)

    def test_what_cannot_be_served_is_refused(self):
        child, client = self.start()
        cases = [
            ("AKA-REQ-AUTH 999999", "AKA-RESP-AUTH 999999 FAILURE"),
            ("SIM-REQ-AUTH 999999 3", "SIM-RESP-AUTH 999999 FAILURE"),
            (f"AKA-REQ-AUTH {A} 1", f"AKA-RESP-AUTH {A} FAILURE"),
            (f"AKA-REQ-AUTH {A[2:]}", f"AKA-RESP-AUTH {A[2:]} FAILURE"),
            (f"SIM-REQ-AUTH {A} 0", f"SIM-RESP-AUTH {A} FAILURE"),
            (f"SIM-REQ-AUTH {A} 4", f"SIM-RESP-AUTH {A} FAILURE"),
            (f"SIM-REQ-AUTH {A} x", f"SIM-RESP-AUTH {A} FAILURE"),
            (f"SIM-REQ-AUTH {A} 3 3", f"SIM-RESP-AUTH {A} FAILURE"),
        ]
        for asked, answer in cases:
            self.assertEqual(client.ask(asked), answer)
        silent = ["", " ", "hello", "hello world", "AKA-REQ-AUTH", "AKA-REQ-AUTH ", f"aka-req-auth {A}",
                  f"AKA-RESP-AUTH {A}", "\xff\xfe \0", f"AKA-REQ-AUTH {A} " + "x" * 3000, "AKA-AUTS", f"AKA-AUTS {A}", f"AKA-AUTS {A} 00 00",
                  f"AKA-AUTS {A} {'g' * 28} {'0' * 32}", f"AKA-AUTS 999999 {'0' * 28} {'0' * 32}"]
        for asked in silent:
            client.say(asked)
        self.assertIsNone(client.hear(SILENCE))
        self.assertEqual(sqn_in(client.vector()), 33)
        self.assertEqual(self.end(child), 0)

    def test_same_cause_is_told_once_a_second(self):
        child, client = self.start()
        begun = time.monotonic()
        for _ in range(100):
            client.ask("AKA-REQ-AUTH 999999")
        lines = [line for line in self.log.read_text().splitlines() if "999999" in line]
        self.assertLessEqual(len(lines), 2 + int(time.monotonic() - begun))
        self.assertEqual(lines[0], "gateway: no subscriber has the IMSI '999999'")


# ---- resynchronisation

class Resynchronisation(Gateways):
    def resynchronise(self, client, answer, seq, imsi=A):
        rand = answer.split()[2]
        client.say(f"AKA-AUTS {imsi} {auts(rand, seq)} {rand}")
        return f"AKA-AUTS {imsi} {auts(rand, seq)} {rand}"

    def test_right_auts_moves_the_number_and_a_replayed_one_never_back(self):
        child, client = self.start()
        said = self.resynchronise(client, client.vector(), 700)
        numbers = [seq_in(client.vector()) for _ in range(3)]
        client.say(said)
        numbers += [seq_in(client.vector()) for _ in range(70)]
        client.say(said)
        numbers.append(seq_in(client.vector()))
        self.assertEqual(numbers, list(range(701, 701 + 74)))
        child.kill()
        child.wait()
        _, client = self.start()
        client.say(said)
        self.assertGreater(seq_in(client.vector()), 774)

    def test_auts_of_a_subscriber_with_op_is_read(self):
        _, client = self.start()
        self.resynchronise(client, client.vector(B), 5000, B)
        self.assertEqual([seq_in(client.vector(B)), seq_in(client.vector(A))], [5001, 1])

    def test_auts_goes_before_requests_that_came_with_it(self):
        _, client = self.start()
        answer = client.vector()
        self.resynchronise(client, answer, 10)
        client.say(f"AKA-REQ-AUTH {A}")
        self.resynchronise(client, answer, 20)
        client.say(f"SIM-REQ-AUTH {A} 2")
        self.assertIn(seq_in(client.hear()), (11, 21))
        self.assertEqual(client.hear().split()[0], "SIM-RESP-AUTH")
        self.assertIn(seq_in(client.vector()), (23, 24))

    def test_wrong_auts_changes_nothing(self):
        _, client = self.start()
        answer = client.vector()
        rand = answer.split()[2]
        right = auts(rand, 700)
        for place in (0, 5, 6, 13):
            wrong = bytearray.fromhex(right)
            wrong[place] ^= 1
            client.say(f"AKA-AUTS {A} {wrong.hex()} {rand}")
        client.say(f"AKA-AUTS {A} {right} {'00' * 16}")
        self.assertEqual(seq_in(client.vector()), 2)
        self.assertIn(f"an AUTS of {A} has a wrong MAC-S", self.log.read_text())

    def test_number_out_of_reach_is_told(self):
        _, client = self.start()
        self.resynchronise(client, client.vector(FAR), 0, FAR)
        self.assertEqual(client.vector(FAR), f"AKA-RESP-AUTH {FAR} FAILURE")
        self.assertIn("beyond", self.log.read_text())
        self.assertEqual(seq_in(client.vector()), 1)


# ---- what goes wrong

class Killed(Gateways):
    def test_no_number_comes_twice_over_kills_at_random_moments(self):
        chance, numbers = random.Random(SEED), {A: [], B: []}

        def note(answer):
            numbers[answer.split()[1]].append(sqn_in(answer))

        for _ in range(KILLS):
            child, client = self.start()
            for _ in range(chance.choice((0, 1, 2, 63, 64, 65))):
                note(client.vector(chance.choice((A, A, A, B))))
            client.say(f"AKA-REQ-AUTH {A}")
            client.say(f"AKA-REQ-AUTH {B}")
            time.sleep(chance.uniform(0, 0.05))
            child.kill()
            child.wait()
            for answer in iter(lambda: client.hear(0.001), None):
                note(answer)
            client.end()
        for sqns in numbers.values():
            self.assertGreater(len(sqns), KILLS)
            self.assertEqual(sqns, sorted(set(sqns)))

    def test_number_of_a_request_before_the_kill_does_not_come_again(self):
        numbers = []
        for _ in range(4):
            child, client = self.start()
            numbers.append(seq_in(client.vector()))
            child.kill()
            child.wait()
        self.assertEqual(numbers, [1, 65, 129, 193])

    def test_no_number_comes_twice_over_kills_of_the_program(self):
        child, client = self.start()
        numbers = []
        for _ in range(PROGRAM_KILLS):
            numbers += [seq_in(client.vector()), seq_in(client.vector())]
            self.kill_program(child)
        numbers.append(seq_in(client.vector()))
        self.assertEqual(numbers, [*(64 * kill + it for kill in range(PROGRAM_KILLS) for it in (1, 2)), 64 * PROGRAM_KILLS + 1])
        self.assertIn("the program was ended by signal 9", self.log.read_text())

    def test_auts_counts_although_the_program_is_killed_behind_it(self):
        child, client = self.start()
        rand = client.vector().split()[2]
        client.say(f"AKA-AUTS {A} {auts(rand, 700)} {rand}")
        client.ask("AKA-REQ-AUTH 999999")
        self.kill_program(child)
        self.assertEqual(seq_in(client.vector()), 701)

    def test_nothing_of_a_reply_that_is_not_whole_is_handed_out(self):
        # Each program but the first is killed after half of its third reply, of which the first is that to the header.
        program = self.script(BESIDE + """
for place in range(10**6):
    text = reply(block())
    if place == 3:
        say(text[:len(text) // 2])
        program.kill()
        program.wait()
        os.kill(os.getpid(), signal.SIGKILL)
    if not text:
        break
    say(text)
""")
        _, client = self.start(program=program)
        numbers = [seq_in(client.vector()) for _ in range(5)]
        # Of 1 to 64 and of 65 to 128 the third ones were nobody's.
        self.assertEqual(numbers, [1, 2, 65, 66, 129])
        self.assertIn("the program was ended by signal 9", self.log.read_text())

    def test_program_ends_with_the_gateway(self):
        for number in signal.SIGTERM, signal.SIGINT, signal.SIGKILL:
            child, client = self.start()
            client.vector()
            child.send_signal(number)
            child.wait(SOON)
            with self.journal_in_other_hands():
                pass


class Ahead(Gateways):
    """Vectors that were drawn ahead."""

    ahead = ()

    def ready(self, *options, **places):
        """A gateway with a vector of each subscriber, and a client of it."""
        child, client = self.start(*options, **places)
        self.wait_until(lambda: self.log.read_text().count("vectors of 3 subscribers are ready") == self.times_served())
        return child, client

    def test_ready_vectors_are_handed_out_while_the_program_stands_still(self):
        child, client = self.ready("--patience", "0.5")
        program = self.program_of(child)
        os.kill(program, signal.SIGSTOP)
        self.assertEqual((seq_in(client.vector(B)), seq_in(client.vector())), (41, 1))
        self.assertEqual(client.vector(), f"AKA-RESP-AUTH {A} FAILURE")
        os.kill(program, signal.SIGCONT)
        self.assertGreater(seq_in(self.served(client)), 1)
        self.assertEqual(self.end(child), 0)

    def test_requests_are_answered_in_order_and_by_each_number_once(self):
        _, client = self.start()
        numbers = []
        for place in range(500):
            if place % 50 == 49:
                self.assertEqual(len(client.ask(f"SIM-REQ-AUTH {A}").split()), 5)
            else:
                numbers.append(seq_in(client.vector()))
        self.assertEqual(numbers, [it for it in range(1, 521) if it % 52 not in (50, 51, 0)])

    def test_right_auts_moves_the_number_and_a_replayed_one_never_back(self):
        _, client = self.ready()
        numbers = [seq_in(client.vector()) for _ in range(40)]
        answer = client.vector()
        said = f"AKA-AUTS {A} {auts(answer.split()[2], 5000)} {answer.split()[2]}"
        for more in (40, 3, 1):
            client.say(said)
            numbers += [seq_in(client.vector()) for _ in range(more)]
        self.assertEqual(numbers, sorted(set(numbers)))
        self.assertEqual(numbers[:41], [*range(1, 41), 5001])

    def test_number_out_of_reach_is_told(self):
        _, client = self.ready()
        rand = client.vector(FAR).split()[2]
        client.say(f"AKA-AUTS {FAR} {auts(rand, 0)} {rand}")
        self.assertEqual(client.vector(FAR), f"AKA-RESP-AUTH {FAR} FAILURE")
        self.assertIn("beyond", self.log.read_text())

    def test_no_number_comes_twice_over_kills_of_gateway_and_program(self):
        chance, numbers = random.Random(SEED), {A: [], B: []}
        for _ in range(PROGRAM_KILLS):
            child, client = self.start()
            for _ in range(PROGRAM_KILLS):
                for _ in range(chance.choice((0, 1, 2, 30, 70))):
                    imsi = chance.choice((A, A, A, B))
                    numbers[imsi].append(sqn_in(client.vector(imsi)))
                self.kill_program(child)
            child.kill()
            child.wait()
            client.end()
        for sqns in numbers.values():
            self.assertGreater(len(sqns), PROGRAM_KILLS)
            self.assertEqual(sqns, sorted(set(sqns)))

    def test_first_vectors_are_drawn_although_the_program_is_killed(self):
        program = self.script(BESIDE + """
is_first = not os.path.exists("killed")
open("killed", "w").close()
for place in range(10**6):
    text = reply(block())
    if is_first and place == 1:
        program.kill()
        os.kill(os.getpid(), signal.SIGKILL)
    if not text:
        break
    say(text)
""")
        child, client = self.ready(program=program)
        self.assertEqual((seq_in(client.vector(B)), seq_in(client.vector())), (105, 65))
        self.assertIn("the program was ended by signal 9", self.log.read_text())
        self.assertEqual(self.end(child), 0)

    def test_blocks_that_all_take_long_have_many_subscribers(self):
        # As on a disk whose syncs take long, of however many reservations.
        program = self.script(BESIDE + """
noted = open("blocks", "a", buffering=1)
while True:
    asked = block()
    time.sleep(0.1)
    text = reply(asked)
    if not text:
        break
    noted.write(".")
    say(text)
""")
        self.write_many(200)
        self.start("--patience", "0.5", program=program)
        self.wait_until(lambda: "vectors of 200 subscribers are ready" in self.log.read_text())
        self.assertLess((self.folder / "blocks").stat().st_size, 40)

    def test_answers_while_the_disk_fails(self):
        (self.folder / "full").touch()
        child, client = self.start("--patience", "1", program=self.script(FULL_DISK))
        answers = [client.vector(imsi) for imsi in (A, B, A, B)]
        (self.folder / "full").unlink()
        answers += [self.served(client, imsi) for imsi in (A, B, A, B)]
        for imsi in A, B:
            sqns = [sqn_in(it) for it in answers if it.split()[1] == imsi and not it.endswith("FAILURE")]
            self.assertEqual(sqns, sorted(set(sqns)))
        self.assertEqual(self.end(child), 0)

    def test_end_in_a_block_for_the_stock_is_no_alarm(self):
        program = self.script(BESIDE + """
say(reply(block()))
asked = block()
open("begun", "w").close()
time.sleep(60)
""")
        child, _ = self.start(program=program)
        self.wait_until((self.folder / "begun").exists)
        self.assertEqual(self.end(child), 0)
        self.assertNotIn("signal", self.log.read_text())

    def test_slow_program_serves_those_who_ask(self):
        imsis = self.write_many(40)
        _, client = self.start("--patience", "1.5", program=self.script(SLOW))
        self.served(client, imsis[-1])
        answers = [client.vector(imsi) for imsi in reversed(imsis[-6:-1])]
        self.assertEqual([it for it in answers if it.endswith("FAILURE")], [])


class Restarted(Gateways):
    """The program that is started again."""

    def test_program_is_started_at_most_once_a_second(self):
        program = self.script("""
with open("starts", "a") as file:
    file.write("x")
if os.path.exists("broken"):
    sys.exit(8)
os.execv(PROGRAM, [PROGRAM, *sys.argv[1:]])
""")
        child, client = self.start("--patience", "0.5", program=program)
        (self.folder / "broken").touch()
        begun = time.monotonic()
        self.kill_program(child)
        answers = [client.vector() for _ in range(5)]
        most = 2 + (time.monotonic() - begun) / BETWEEN_STARTS
        self.assertLessEqual((self.folder / "starts").stat().st_size, most)
        self.assertEqual(set(answers), {f"AKA-RESP-AUTH {A} FAILURE"})
        log = self.log.read_text()
        self.assertLessEqual(log.count("the journal is full (status 8)"), most)
        self.assertIn("the journal is full (status 8)", log)
        (self.folder / "broken").unlink()
        self.served(client)

    def test_program_is_started_although_nobody_asks(self):
        child, client = self.start()
        first = self.program_of(child)
        self.kill_program(child)
        until = time.monotonic() + SOON
        while self.program_of(child) == first and time.monotonic() < until:
            time.sleep(0.01)
        self.assertNotEqual(self.program_of(child), first)
        self.assertEqual(seq_in(client.vector()), 1)

    def test_answers_while_the_disk_fails(self):
        (self.folder / "full").touch()
        child, client = self.start("--patience", "3", program=self.script(FULL_DISK))
        sqns = [sqn_in(client.vector()), sqn_in(client.vector())]
        self.assertEqual(client.vector(B), f"AKA-RESP-AUTH {B} FAILURE")
        self.assertEqual(client.vector(), f"AKA-RESP-AUTH {A} FAILURE")
        self.assertEqual(client.vector("999999"), "AKA-RESP-AUTH 999999 FAILURE")
        (self.folder / "full").unlink()
        sqns += [sqn_in(self.served(client)), sqn_in(client.vector())]
        self.assertEqual(sqns, [33, 66, 65 * 32 + 1, 66 * 32 + 2])
        self.assertEqual(sqn_in(self.served(client, B)) >> 5, 41)
        log = self.log.read_text()
        self.assertIn(f"the program said: withheld {B} 41 fault", log)
        self.assertIn("the journal couldn't be opened or written", log)
        self.assertEqual(self.end(child), 0)


class Slow(Gateways):
    def test_slow_program_gets_fewer_subscribers_a_block(self):
        imsis = self.write_many(40)
        _, first = self.start("--patience", "1.5", program=self.script(SLOW))
        clients = [first, *(self.client() for _ in range(7))]
        served = []
        for place in range(0, len(imsis), len(clients)):
            for client, imsi in zip(clients, imsis[place:]):
                client.say(f"AKA-REQ-AUTH {imsi}")
            served.append(sum(not client.hear().endswith("FAILURE") for client in clients))
        self.assertGreater(sum(served[1:]), 0, served)

    def test_clients_that_ask_again_at_once_get_into_one_block(self):
        program = self.script(BESIDE + """
noted = open("blocks", "a", buffering=1)
while True:
    asked = block()
    time.sleep(0.01)
    text = reply(asked)
    if not text:
        break
    noted.write(f"{asked.count(b'draw')}\\n")
    say(text)
""")
        _, first = self.start(program=program)
        clients = (first, A), (self.client(), B)
        # The second one asks while the program serves the first one.
        for client, imsi in clients:
            client.say(f"AKA-REQ-AUTH {imsi}")
            time.sleep(0.005)
        for _ in range(100):
            for client, imsi in clients:
                self.assertIsNotNone(client.hear())
                client.say(f"AKA-REQ-AUTH {imsi}")
        self.assertGreater((self.folder / "blocks").read_text().count("2"), 5)

    def test_request_fails_in_its_time_while_the_program_stands_still(self):
        child, client = self.start("--patience", "0.3")
        self.assertEqual(seq_in(client.vector()), 1)
        program = self.program_of(child)
        os.kill(program, signal.SIGSTOP)
        self.assertEqual(client.vector(), f"AKA-RESP-AUTH {A} FAILURE")
        self.assertEqual(client.vector("999999"), "AKA-RESP-AUTH 999999 FAILURE")
        os.kill(program, signal.SIGCONT)
        # The number of the request that failed is nobody's.
        self.assertGreaterEqual(seq_in(self.served(client)), 3)

    def test_block_that_no_pipe_takes_is_handed_on_in_pieces(self):
        program = self.script("""
time.sleep(0.3)
for line in sys.stdin:
    if line == "end\\n":
        print("end", flush=True)
""")
        service = Service(str(program), str(self.folder), b"", 1)
        self.addCleanup(service.end)
        begun = time.monotonic()
        service.begin(b"# a comment\n" * 50_000 + b"end\n")
        self.assertTrue(service.unsent)
        self.assertLess(time.monotonic() - begun, 0.3)
        found = service.hear()
        while found is None and time.monotonic() - begun < SOON:
            service.flush()
            found = service.hear()
            time.sleep(0.001)
        self.assertEqual(found, (0, "end\nend\n", True))

    def test_each_program_has_another_key_of_its_rands(self):
        keys = {Service("", "", b"", 1).header().splitlines()[0] for _ in range(20)}
        self.assertEqual(len(keys), 20)


class OlderJournal(Gateways):
    def test_number_does_not_come_again_while_the_gateway_lives(self):
        child, client = self.start()
        journal = self.folder / "auc.journal"
        numbers = [seq_in(client.vector())]
        older = journal.read_bytes()
        numbers += [seq_in(client.vector()) for _ in range(127)]
        self.assertEqual(numbers, list(range(1, 129)))
        journal.write_bytes(older)
        self.kill_program(child)
        self.assertEqual([client.vector() for _ in range(64)], [f"AKA-RESP-AUTH {A} FAILURE"] * 64)
        self.assertIn(f"numbers of {A} came again", self.log.read_text())
        self.assertEqual(seq_in(client.vector()), 129)


class Held(Gateways):
    """The journal is in another process's hands."""

    @contextmanager
    def held(self, child):
        """The program of a gateway is killed, and the journal is held before there is another one."""
        child.send_signal(signal.SIGSTOP)
        self.kill_program(child)
        with self.journal_in_other_hands():
            child.send_signal(signal.SIGCONT)
            yield

    def test_request_fails_after_its_time_and_later_ones_are_served(self):
        child, client = self.start("--patience", "0.3")
        with self.held(child):
            until = time.monotonic() + SOON
            while "another process uses it" not in self.log.read_text() and time.monotonic() < until:
                self.assertEqual(client.vector(), f"AKA-RESP-AUTH {A} FAILURE")
        self.served(client)
        self.assertLess(time.monotonic(), until)

    def test_request_waits_until_the_journal_is_free(self):
        child, client = self.start()
        with self.held(child):
            client.say(f"AKA-REQ-AUTH {A}")
            self.assertIsNone(client.hear(SILENCE))
        self.assertEqual(seq_in(client.hear()), 1)

    def test_waiting_requests_get_failure_at_the_end(self):
        child, client = self.start()
        with self.held(child):
            client.say(f"AKA-REQ-AUTH {A}")
            client.say(f"SIM-REQ-AUTH {B} 3")
            time.sleep(SILENCE)
            self.assertEqual(self.end(child), 0)
        self.assertEqual({client.hear(), client.hear()}, {f"AKA-RESP-AUTH {A} FAILURE", f"SIM-RESP-AUTH {B} FAILURE"})
        self.assertFalse(self.path.exists())

    def test_gateway_starts_when_the_journal_gets_free(self):
        with self.journal_in_other_hands():
            child = self.begin()
            time.sleep(SILENCE)
        until = time.monotonic() + SOON
        while not self.times_served() and time.monotonic() < until:
            time.sleep(0.01)
        self.assertEqual(seq_in(self.client().vector()), 1)
        self.assertEqual(self.end(child), 0)


class Starts(Gateways):
    def test_second_gateway_over_a_folder_is_refused(self):
        _, client = self.start()
        said = self.refusal(path=self.folder / "other")
        self.assertIn("another gateway serves the journal", said)
        self.assertEqual(seq_in(client.vector()), 1)

    def test_second_gateway_at_a_socket_is_refused(self):
        _, client = self.start()
        (self.folder / "other").mkdir()
        said = self.refusal(folder=self.folder / "other")
        self.assertEqual(said, f"gateway: another gateway serves {self.path}")
        self.assertEqual(seq_in(client.vector()), 1)

    def test_stale_socket_is_replaced_and_nothing_else(self):
        child, _ = self.start()
        child.kill()
        child.wait()
        self.assertTrue(stat.S_ISSOCK(self.path.stat().st_mode))
        child, client = self.start()
        self.assertEqual(seq_in(client.vector()), 1)
        self.assertEqual(self.end(child), 0)
        self.assertFalse(self.path.exists())
        with socket.socket(socket.AF_UNIX, socket.SOCK_DGRAM) as other:
            other.bind(str(self.path))
            self.assertIn("another program may serve it", self.refusal())
        self.path.unlink()
        self.path.write_text("a file")
        self.assertIn("is no socket", self.refusal())
        self.assertEqual(self.path.read_text(), "a file")

    def test_nothing_is_made_beside_what_is_no_socket(self):
        self.path.write_text("a file")
        self.assertIn("is no socket", self.refusal())
        self.assertFalse(Path(f"{self.path}.lock").exists())
        self.assertIn("Not a directory", self.refusal(path=self.path / "socket"))

    def test_program_that_ends_without_a_reply_is_refused(self):
        self.assertEqual(self.refusal(program="/bin/true"), "gateway: the program ended (status 0)")

    def test_socket_has_its_mode(self):
        for options, wanted in (((), 0o660), (("--mode", "600"), 0o600)):
            child, _ = self.start(*options)
            self.assertEqual(stat.S_IMODE(self.path.stat().st_mode), wanted)
            self.end(child)

    def test_wrong_input_is_refused_with_its_reason(self):
        self.file.write_text(SUBSCRIBERS + "12345\n")
        self.assertIn("refused subscribers 4 fieldcount", self.refusal())
        self.file.write_text(SUBSCRIBERS)
        (self.folder / "auc.journal").write_text("no journal, but longer than its header")
        self.assertIn("refused journal 0", self.refusal())
        self.assertIn("No such file", self.refusal(folder=self.folder / "missing"))
        self.assertIn("No such file", self.refusal(program="/missing"))
        (self.folder / "loop").symlink_to("loop")
        self.assertIn("loop: Not a directory", self.refusal(folder=self.folder / "loop"))
        self.assertIn("Too many levels of symbolic links", self.refusal(program=self.folder / "loop"))
        (self.folder / "auc.journal").unlink()
        self.assertIn("AF_UNIX path too long", self.refusal(path=self.folder / ("s" * 120)))
        self.assertEqual(self.begin("--leases", "", "--site", "1/3").wait(SOON), 2)
        self.assertIn("argument --leases: a command is wanted", self.log.read_text())


class Clients(Gateways):
    def test_answers_wait_for_a_client_that_reads_late(self):
        _, client = self.start()
        seqs = []
        for _ in range(60):
            client.say(f"AKA-REQ-AUTH {A}")
        time.sleep(SILENCE)
        for _ in range(60):
            seqs.append(seq_in(client.hear()))
        self.assertEqual(seqs, list(range(1, 61)))

    def test_client_that_never_reads_or_is_gone_stops_nobody(self):
        # The kernel keeps ten answers for a client that isn't connected, and the gateway the others for a second.
        _, client = self.start("--patience", "1")
        deaf, gone = self.client(connected=False), self.client()
        for _ in range(400):
            deaf.socket.sendto(f"AKA-REQ-AUTH {B}".encode(), str(self.path))
        gone.say(f"AKA-REQ-AUTH {A}")
        gone.end()
        until = time.monotonic() + SOON
        while "FAILURE" in (client.vector() or "FAILURE") and time.monotonic() < until:
            pass
        time.sleep(1.2)
        self.assertIsNotNone(client.vector())
        log = self.log.read_text()
        self.assertIn("client2' doesn't read its answers: one is dropped", log)
        self.assertIn("client3' is dropped", log)

    def test_name_of_a_client_is_one_line_of_the_log(self):
        _, client = self.start()
        gone = Client(f"{self.folder}/gone\ngateway: numbers of x came again")
        gone.socket.connect(str(self.path))
        gone.say(f"AKA-REQ-AUTH {A}")
        gone.end()
        self.wait_until(lambda: "is dropped" in self.log.read_text())
        self.assertNotIn("\ngateway: numbers", self.log.read_text())

    def test_standard_error_that_nobody_reads_stops_nobody(self):
        read, write = os.pipe()
        self.addCleanup(os.close, read)
        self.addCleanup(os.close, write)
        child = self.begin(log=write)
        self.assertIn(b"gateway: serves ", os.read(read, 4096))
        os.set_blocking(write, False)
        with suppress(BlockingIOError):
            while os.write(write, bytes(2**16)):
                pass
        os.set_blocking(write, True)
        client = self.client()
        client.say("hello")
        self.assertEqual([seq_in(client.vector()) for _ in range(3)], [1, 2, 3])
        self.assertEqual(self.end(child), 0)

    def test_request_without_an_address_takes_no_number(self):
        _, client = self.start()
        with socket.socket(socket.AF_UNIX, socket.SOCK_DGRAM) as nameless:
            nameless.connect(str(self.path))
            nameless.send(f"AKA-REQ-AUTH {A}".encode())
        self.assertEqual(seq_in(client.vector()), 1)
        self.assertIn("has no address", self.log.read_text())


def main():
    global PROGRAM
    if len(sys.argv) > 1 and not sys.argv[1].startswith("-") and os.path.exists(sys.argv[1]):
        PROGRAM = str(Path(sys.argv.pop(1)).resolve())
    unittest.main()


if __name__ == "__main__":
    run_main(main, __doc__)
