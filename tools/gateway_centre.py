"""The authentication centre behind tools/gateway: its subscribers, the program as a child that stays alive, the blocks that it is
asked, and the vectors of its replies.

No socket is used here. Each vector is one that the program released.
"""
import csv
import io
import os
import re
import subprocess
import time
from collections import defaultdict
from itertools import islice
from typing import NamedTuple

from eap.milenage import Aes, Functions, opc_of
from eap.usim import BITS, Usim, seq_of, top_of, triplet
from gateway_stock import Stock

# Seconds from the start of the program to its next start at the earliest, and for its end.
BETWEEN_STARTS, LONGEST_END = 1, 5
# Of a block: the most subscribers, and AUTS of a subscriber. Both keep it below its limit of 1048576 bytes.
MOST_JOBS, MOST_AUTS = 1024, 4
# How much longer than a block the rest before the next one is, if nobody waits.
REST = 4
HEADER = "imsi,k,kind,op,amf,seq,usim".split(",")
# The header of a file whose records also have the index length and the age limit, and what the others stand for.
LONG_HEADER, USUAL = [*HEADER, "bits", "age"], (str(BITS), "-")
ROW = re.compile(
    r"[0-9]{6,15},[0-9a-f]{32},opc?,[0-9a-f]{32},[0-9a-f]{4},[0-9]{1,15},[0-9]{1,15}(,[0-6],(-|[0-9]{1,15}))?", re.IGNORECASE)

# Whole lines of a subscriber: a vector and its bytes, or another one; and a line that refuses a block.
PRINTED = re.compile(r"^(?:(vector \S.*)\nbytes (.*)|((?:sync|withheld|exhausted) \S.*))\n", re.MULTILINE)
REFUSAL = re.compile("^refused .*", re.MULTILINE)

STATUSES = {
    0: "the program ended",
    1: "the program didn't know its words",
    2: "the program refused a subscriber",
    3: "the program refused the scenario",
    4: "the program couldn't read its files",
    5: "the program couldn't write its output",
    6: "the journal couldn't be opened or written, or another process uses it",
    7: "the file auc.journal is no journal",
    8: "the journal is full",
    9: "the file of subscribers is too long",
    10: "the program had too little memory",
}


class Refused(Exception):
    """Why the gateway doesn't start."""


def meaning(status):
    if status < 0:
        return f"the program was ended by signal {-status}"
    return f"{STATUSES.get(status, 'the program failed')} (status {status})"


# ---- subscribers

class Subscriber(NamedTuple):
    imsi: str
    k: str
    kind: str
    op: str
    amf: str
    seq: str
    usim: str
    bits: str = USUAL[0]
    age: str = USUAL[1]

    def line(self):
        return " ".join(("subscriber", *(self[:len(HEADER)] if self.is_usual() else self)))

    def is_usual(self):
        """Whether the index has its usual length, and there is no age limit."""
        return (self.bits, self.age) == USUAL

    def functions(self, rand):
        """f1 to f5* of a RAND."""
        encrypt = Aes(bytes.fromhex(self.k)).encrypt
        op = bytes.fromhex(self.op)
        return Functions(encrypt, op if self.kind == "opc" else opc_of(encrypt, op), rand)

    def seq_in(self, auts, rand):
        """SEQ_MS of an AUTS, or nothing if its MAC-S is wrong or it is none of the subscriber's numbers."""
        sqn = self.functions(bytes.fromhex(rand)).sqn_in(bytes.fromhex(auts))
        seq = None if sqn is None else seq_of(sqn, int(self.bits))
        return seq if seq is not None and seq <= top_of(int(self.bits)) else None

    def card(self, number):
        """The USIM, for which the numbers from 1 to one count as accepted."""
        return Usim(self.functions, number, int(self.bits), None if self.age == "-" else int(self.age))


def read_subscribers(data):
    """The subscribers by IMSI, of a file that the program has judged. A row that the program accepts and this reader
    doesn't is refused too, so that both always mean the same subscribers."""
    try:
        rows = [row for row in csv.reader(io.StringIO(data.decode("utf-8-sig"), newline="")) if row]
    except (UnicodeDecodeError, csv.Error) as error:
        raise Refused(f"the file of subscribers can't be read: {error}") from error
    if not rows or rows[0] not in (HEADER, LONG_HEADER):
        raise Refused("the file of subscribers doesn't begin with its header")
    for place, row in enumerate(rows[1:], 1):
        if len(row) != len(rows[0]) or not ROW.fullmatch(",".join(row)):
            raise Refused(f"the file of subscribers has a wrong record {place}")
    return {row[0]: Subscriber(*row) for row in rows[1:]}


# ---- the program

def in_memory(data):
    """A file that is on no disk, since it has keys: its descriptor."""
    held = os.memfd_create("auc")
    with open(held, "wb", closefd=False) as file:
        file.write(data)
    return held


class Heard(NamedTuple):
    """What came of a call of the program. The text counts if each vector in its whole lines was released."""
    status: int
    text: str
    counts: bool


class Program:
    """The program as a child, and what it has printed."""

    def __init__(self):
        self.child, self.text = None, bytearray()

    def start(self, words, files, **more):
        """Starts it, with the names of files behind its words. They are on no disk."""
        held = [in_memory(data) for data in files]
        try:
            words = [*words, *(f"/proc/self/fd/{descriptor}" for descriptor in held)]
            self.child = subprocess.Popen(words, stdout=subprocess.PIPE, pass_fds=held, **more)
        finally:
            for descriptor in held:
                os.close(descriptor)
        os.set_blocking(self.child.stdout.fileno(), False)

    def output(self):
        """What has to be listened to, if anything."""
        return self.child and self.child.stdout

    def take_output(self):
        """Takes what was printed since: whether the output has ended."""
        try:
            piece = os.read(self.child.stdout.fileno(), 2**20)
        except BlockingIOError:
            return False
        self.text += piece
        return not piece

    def taken(self):
        text, self.text = self.text.decode("ascii", "replace"), bytearray()
        return text

    def ended(self):
        """The status of a child whose output has ended. It is below 0 if a signal ended the program."""
        self.child.stdout.close()
        child, self.child = self.child, None
        return child.wait()

    def kill(self):
        if self.child is not None:
            self.child.kill()


class Service(Program):
    """The program as a child that stays alive and answers one block after the other (docs/SERVICE.md)."""

    def __init__(self, program, folder, data, workers):
        super().__init__()
        self.words, self.folder, self.data, self.workers = [program, "serve"], folder, data, workers
        # What the child has still to get, how many replies it owes, and when another child may be started.
        self.unsent, self.due, self.next_start = b"", 0, 0

    def is_down(self):
        """Whether it has to be started, also if nobody waits."""
        return self.child is None

    def is_ready(self):
        return self.child is not None or self.next_start <= time.monotonic()

    def begin_first(self):
        self.begin(b"")

    def begin(self, block):
        """Hands on a block, if there is one; to a new child behind its header."""
        if self.child is None:
            self.next_start = time.monotonic() + BETWEEN_STARTS
            # An interrupt of the gateway must not end the program before its answer.
            self.start(self.words, [self.data], cwd=self.folder, stdin=subprocess.PIPE, start_new_session=True)
            os.set_blocking(self.child.stdin.fileno(), False)
            self.unsent, self.due = self.header(), 1
        self.unsent, self.due = self.unsent + block, self.due + bool(block)
        self.flush()

    def header(self):
        """The RANDs of a child follow from bytes that no other child has."""
        lines = f"randkey {os.urandom(32).hex()}", f"workers {self.workers}", "print full", "end", ""
        return "\n".join(lines).encode("ascii")

    def flush(self):
        """Hands on what the pipe takes. A child that has ended is seen when it is heard."""
        try:
            while self.unsent:
                self.unsent = self.unsent[os.write(self.child.stdin.fileno(), self.unsent):]
        except BlockingIOError:
            pass
        except BrokenPipeError:
            self.unsent = b""

    def hear(self):
        """What came of the last block, or nothing as long as its reply isn't whole. What isn't whole when the child has ended
        doesn't count."""
        if self.take_output():
            self.child.stdin.close()
            self.unsent = b""
            return Heard(self.ended(), self.taken(), False)
        if self.text.endswith(b"end\n") and self.text.split(b"\n").count(b"end") == self.due:
            self.due = 0
            return Heard(0, self.taken(), True)
        return None

    def end(self):
        """Ends the child as its input ends, and by a signal if that takes too long."""
        if self.child is not None:
            self.child.stdin.close()
            try:
                self.child.wait(LONGEST_END)
            except subprocess.TimeoutExpired:
                self.kill()
            self.ended()


# ---- vectors

def lines_by_subscriber(text):
    """The lines that were printed of each subscriber, as words: `vector` with its bytes behind it, `sync`, `withheld` and
    `exhausted`. A last line without its end isn't whole, and doesn't count."""
    found = defaultdict(list)
    for line, octets, other in PRINTED.findall(text):
        words = f"{line} {octets}".split() if line else other.split()
        found[words[1]].append(words)
    return found


def auts_told(imsi, seq):
    """What is told of an AUTS with this SEQ_MS, or with a wrong MAC-S: its cause, and the sentence."""
    if seq is None:
        return "wrongmac", f"an AUTS of {imsi} has a wrong MAC-S"
    return "auts", f"the USIM of {imsi} is at {seq}"


def told(words):
    """What is told of a line that is no vector's."""
    if words[0] == "sync" and words[2] != "beyond":
        return auts_told(words[1], None if words[2] == "wrongmac" else words[-1])
    return words[0], f"the program said: {' '.join(words)}"


class Vector(NamedTuple):
    number: int
    rand: str
    autn: str
    xres: str
    ck: str
    ik: str

    def quintet(self):
        """As `AKA-RESP-AUTH` has it."""
        return " ".join((self.rand, self.autn, self.ik, self.ck, self.xres))

    def triplet(self):
        """As `SIM-RESP-AUTH` has it."""
        sres, kc = triplet(*(bytes.fromhex(it) for it in (self.xres, self.ck, self.ik)))
        return f"{kc.hex()}:{sres.hex()}:{self.rand}"


def vector_in(words):
    """The vector of a `vector` line, which has its bytes behind it."""
    return Vector(int(words[2]), *words[3:])


class Job(NamedTuple):
    """What a block asks of a subscriber: AUTS with their RANDs, and behind them the vectors of requests, and how many more."""
    auts: tuple
    requests: tuple
    more: int

    def lines(self, imsi):
        counts = [*(it.count for it in self.requests), *([self.more] if self.more else [])]
        return ["job", *(f"auts {imsi} {it} 0" for it in self.auts), *(f"draw {imsi} {it}" for it in counts)]


class Centre:
    """What the service is asked for those who wait and for the stock, and what they get of its replies."""

    def __init__(self, subscribers, ahead=0):
        self.subscribers = frozenset(subscribers)
        # By subscriber, the AUTS that the program has still to be told, in their order; and by request, what the last reply gave.
        self.auts, self.ready = defaultdict(dict), {}
        self.stock = Stock(subscribers, ahead)
        # The greatest number of each subscriber: later ones are above it, unless somebody put an older journal back.
        self.floors = {}

    def take(self, request):
        """The vectors of a request, or nothing if it has none yet. Behind an AUTS it needs new ones."""
        found = self.ready.pop(request, None)
        if found or request.imsi in self.auts:
            return found
        return self.stock.take(request.imsi, request.count)

    def take_auts(self, imsi, auts, rand):
        """Keeps an AUTS for the subscriber's next request, so that a number above it is reserved there, and the AUTS needn't be told
        again. Of too many the last ones are kept. What an AUTS is, the program's reply tells. Nothing of before is handed out then."""
        kept = self.auts[imsi]
        kept[f"{auts} {rand}"] = True
        if len(kept) > MOST_AUTS:
            del kept[next(iter(kept))]
        self.stock.pop(imsi)

    def is_low(self):
        """Whether more is to be drawn although nobody waits for it."""
        return bool(self.stock.low)

    def rest(self, seconds):
        """How long a block for the stock alone is held after one that took so long: so more subscribers share what a block costs, and the
        program is busy with them for a fifth of the time. The first ones aren't held."""
        return 0 if self.stock.empty > 0 else REST * seconds

    def batch(self, waiting, most, spare):
        """What the next block asks: of those who wait, at most of so many; and behind them for the stock, if there is room."""
        most = min(most, MOST_JOBS)
        batch = {imsi: self.job(imsi, requests) for imsi, requests in islice(waiting.items(), most)}
        for imsi in self.stock.pop_low(min(spare, most - len(batch))):
            job = self.job(imsi, ())
            if imsi not in batch and job.more and not job.auts:
                batch[imsi] = job
        return batch

    def put_back(self, batch):
        """Has drawn again what a block asked for the stock alone and didn't get, since the program ended."""
        self.stock.put_back([imsi for imsi, job in batch.items() if not job.requests])

    def job(self, imsi, requests):
        return Job(tuple(self.auts.get(imsi, ())), tuple(requests), self.stock.lack(imsi))

    def needs(self, waiting):
        """What has to be asked elsewhere: nothing, since the journal has the numbers."""
        return {}

    def scenario(self, batch):
        """A block of one round with a job for each subscriber, or nothing if there is none."""
        lines = [line for imsi, job in batch.items() for line in job.lines(imsi)]
        return "\n".join(["round", *lines, "end", ""]).encode("ascii") if lines else b""

    def learn(self, batch, text):
        """Takes a reply: those of the batch that got a vector, and what is told."""
        found, given = lines_by_subscriber(text), set()
        sentences = [told(line.split()) for line in REFUSAL.findall(text)]
        self.ready = {}
        for imsi, job in batch.items():
            if job.auts:
                self.forget(imsi, job.auts)
            vectors = [vector_in(words) for words in found[imsi] if words[0] == "vector"]
            others = [words for words in found[imsi] if words[0] != "vector"]
            sentences += map(told, others)
            if not self.rises(imsi, vectors):
                sentences.append(("again", f"numbers of {imsi} came again: somebody put an older journal back"))
            # Behind a number that is out of its reach the USIM would refuse each of them.
            elif not any(words[2] == "beyond" for words in others) and self.give(imsi, job.requests, vectors):
                given.add(imsi)
        return given, sentences + self.stock.news()

    def rises(self, imsi, vectors):
        """Whether all numbers are above those that came before."""
        floor, numbers = self.floors.get(imsi, 0), [it.number for it in vectors]
        if numbers:
            self.floors[imsi] = max(floor, *numbers)
        return not numbers or min(numbers) > floor

    def forget(self, imsi, auts):
        """Forgets the AUTS that the program was told."""
        kept = self.auts.pop(imsi, {})
        left = {it: True for it in kept if it not in auts}
        if left:
            self.auts[imsi] = left

    def give(self, imsi, requests, vectors):
        """Gives the vectors of the stock and these to requests, in their order, and what is left to the stock: whether there was one.
        Behind an AUTS that came meanwhile the USIM would refuse what is left."""
        vectors = self.stock.pop(imsi) + vectors
        for request in requests:
            if request.count <= len(vectors):
                self.ready[request], vectors = vectors[:request.count], vectors[request.count:]
        if imsi not in self.auts:
            self.stock.put(imsi, vectors)
        return any(request in self.ready for request in requests) if requests else bool(vectors)
