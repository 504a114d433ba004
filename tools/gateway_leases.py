"""The numbers of tools/gateway if several gateways share them: leases that a command gives out, runs that begin at them, and the
vectors that were drawn ahead.

The command is `tools/master` or another one with its words. A gateway keeps its leases in memory alone, so after a restart
it asks for new ones, and the numbers that it held are nobody's.
"""
import os
import re
import select
import subprocess
import tempfile
import time
from collections import OrderedDict, deque
from itertools import chain, islice
from typing import NamedTuple

from eap.usim import MAX_SEQ, REACH
from gateway_centre import Heard, Program, Refused, auts_told, lines_by_subscriber, told, vector_in

# The journal of such a run matters as long as the run, so it stands in memory if there is room for files there.
IN_MEMORY = "/dev/shm"
# With these statuses each vector in a whole line was released, and its number is reserved on the disk.
RELEASING = (0, 6, 8, 10)
# A USIM whose index has 5 bits keeps the greatest SEQ of each of so many indices, and a number's index is its remainder (TS 33.102
# Annex C.1.1).
INDICES = 32
MOST_ASKED = 1000
WORD = re.compile(r"([0-9]{6,15}):([0-9]{1,14}):([0-9]{1,14}):([0-9]{1,14})")


class Away(Exception):
    """Why the command gave no leases."""


# ---- the command

class Master:
    """The command that gives out leases, as a child that has one request at a time."""

    def __init__(self, words):
        self.words, self.child, self.text = words, None, b""

    def ask(self, line):
        """Begins a request. A command that has ended is seen when it is heard."""
        if self.child is None:
            # An interrupt of the gateway must not reach a transaction.
            self.child = subprocess.Popen(self.words, stdin=subprocess.PIPE, stdout=subprocess.PIPE, bufsize=0,
                                          start_new_session=True)
            self.text = b""
        try:
            self.child.stdin.write(line.encode("ascii"))
        except BrokenPipeError:
            pass

    def output(self):
        return self.child.stdout

    def hear(self):
        """The answer, or nothing as long as it isn't whole."""
        piece = os.read(self.child.stdout.fileno(), 2**16)
        self.text += piece
        if not piece:
            return "away the command has ended"
        if not self.text.endswith(b"\n"):
            return None
        text, self.text = self.text, b""
        return text[:-1].decode("utf-8", "replace")

    def answer(self, line, seconds):
        """The answer to a request, which is waited for."""
        self.ask(line)
        until, answer = time.monotonic() + seconds, None
        while answer is None:
            if not select.select([self.output()], [], [], max(0, until - time.monotonic()))[0]:
                return f"away the command gave no answer in {seconds} s"
            answer = self.hear()
        return answer

    def kill(self):
        self.child.kill()

    def end(self):
        """Ends the command, so that no answer of it can come late."""
        if self.child is not None:
            self.child.kill()
            self.child.wait()
            self.child.stdin.close()
            self.child.stdout.close()
            self.child = None


def leases_in(answer):
    """The IMSI, FIRST, LAST and USIM of each lease of an answer."""
    verb, *words = answer.split(" ")
    if verb == "away":
        raise Away(" ".join(words))
    found = [WORD.fullmatch(word) for word in words]
    if verb != "leased" or not all(found):
        raise Away(f"an answer can't be read: {ascii(answer[:60])}")
    return [(it[1], *map(int, it.group(2, 3, 4))) for it in found]


# ---- the runs

class Runs(Program):
    """Runs of the program, one after the other, each in a folder of its own, which ends with it: no journal moves its numbers away
    from the lease."""

    # A run takes its scenario at once.
    unsent = b""

    def __init__(self, program, folder, data):
        super().__init__()
        self.words, self.folder, self.data, self.own = [program, "run"], folder, data, None

    def is_down(self):
        return False

    def is_ready(self):
        return True

    def begin_first(self):
        """A run that serves nothing, and judges the file of subscribers."""
        self.begin(b"", self.data)

    def begin(self, *files):
        self.own = tempfile.TemporaryDirectory(prefix="auc-run-", dir=self.folder)
        try:
            self.start(self.words, files, cwd=self.own.name, stdin=subprocess.DEVNULL)
        except OSError:
            self.own.cleanup()
            raise

    def flush(self):
        pass

    def hear(self):
        """What came of a run, or nothing as long as it goes on."""
        if not self.take_output():
            return None
        status, text = self.ended(), self.taken()
        self.own.cleanup()
        return Heard(status, text, status in RELEASING and bool(text))

    def end(self):
        """Each run ends by itself, and the gateway waits for it."""


# ---- the leases

class Site(NamedTuple):
    """A gateway among all that share the numbers: the first index of its leases, and how many numbers they have. Each site has
    indices of its own, so no vector of one is old for a USIM because of another's."""
    index: int
    size: int


def site_of(place, count):
    """The site at a place among so many, from 1."""
    size = INDICES // count
    return Site((place - 1) * size, size)


class Lease(NamedTuple):
    """The numbers from `first` to `last`, and the greatest SEQ of an AUTS that the store knew when it gave them."""
    first: int
    last: int
    usim: int

    def count(self):
        return self.last - self.first + 1


class LeasedCentre:
    """What runs are asked for those who wait. They draw the numbers of leases, each lease whole and in one run, and the vectors are
    kept until they are asked for."""

    def __init__(self, subscribers, most, site):
        self.subscribers, self.most = subscribers, most
        unusual = next((it.imsi for it in subscribers.values() if not it.is_usual()), None)
        if unusual:
            raise Refused(f"leases are numbers by an index of 5 bits, without an age limit, and {unusual} has another profile")
        self.site, self.leases = site, {}
        # By subscriber, the one that was served last at the end.
        self.ahead = OrderedDict()
        # The greatest number that was drawn, or that an AUTS told: no vector at or below it is taken from a run.
        self.floors = {}
        # The SEQ of an AUTS that the program has still to be told.
        self.moves = {}

    # The vectors

    def take(self, request):
        """The next vectors for a request, or nothing if fewer were drawn ahead."""
        ready = self.ahead.get(request.imsi, ())
        if len(ready) < request.count:
            return None
        self.ahead.move_to_end(request.imsi)
        return [ready.popleft() for _ in range(request.count)]

    def add(self, imsi, vector):
        """Takes a vector whose number is leased and above the floor, and no other."""
        lease, floor = self.leases[imsi], self.floors.get(imsi, 0)
        if not lease.first <= vector.number <= lease.last:
            return
        if vector.number <= floor:
            # An AUTS came during the run: the number has to rise first.
            self.move(imsi, floor)
            return
        self.floors[imsi] = vector.number
        self.ahead.setdefault(imsi, deque()).append(vector)
        self.ahead.move_to_end(imsi)

    def keep(self, imsi, is_right):
        """Keeps those vectors of a subscriber whose number is right: whether one is left."""
        kept = deque(it for it in self.ahead.pop(imsi, ()) if is_right(it.number))
        if kept:
            self.ahead[imsi] = kept
        return bool(kept)

    # AUTS

    def take_auts(self, imsi, auts, rand):
        """Reads an AUTS by the subscriber's key, and tells what it is."""
        seq = self.subscribers[imsi].seq_in(auts, rand)
        if seq is not None:
            self.resynchronise(imsi, seq)
        return auts_told(imsi, seq)

    def resynchronise(self, imsi, seq):
        """Keeps those vectors that a USIM of this SEQ_MS can accept. If none is left, the program is told of the AUTS
        before it draws again. A replayed AUTS is below the vectors that are ready, and changes nothing."""
        self.floors[imsi] = max(self.floors.get(imsi, 0), seq)
        if not self.keep(imsi, lambda number: seq < number <= seq + REACH):
            self.move(imsi, seq)

    def move(self, imsi, seq):
        self.moves[imsi] = max(self.moves.get(imsi, 0), seq)

    # The leases

    def has_lease(self, imsi):
        """Whether there is a lease, given by a store that knew of the AUTS if one has to be told."""
        lease = self.leases.get(imsi)
        return lease is not None and lease.usim >= self.moves.get(imsi, 0)

    def needs(self, waiting):
        """What to ask, of those who wait without a lease and of those whose AUTS the store has still to be told: which number
        counts as used, and the SEQ of the AUTS. A store that was put back doesn't lease again what this gateway has used."""
        lacking = dict.fromkeys(imsi for imsi in chain(waiting, self.moves) if not self.has_lease(imsi))
        return {imsi: self.need(imsi) for imsi in islice(lacking, MOST_ASKED)}

    def need(self, imsi):
        return max(int(self.subscribers[imsi].seq), self.floors.get(imsi, 0)), self.moves.get(imsi, 0)

    def request(self, needs):
        words = (f"{imsi}:{floor}:{usim}" for imsi, (floor, usim) in needs.items())
        return " ".join(["lease", *map(str, self.site), *words]) + "\n"

    def grant(self, needs, answer):
        """Takes the leases of an answer: the subscribers that have no number left."""
        found = leases_in(answer)
        if sorted(imsi for imsi, *_ in found) != sorted(needs) or not all(self.is_right(needs[it[0]], *it[1:]) for it in found):
            raise Away("an answer doesn't belong to its request")
        spent = []
        for imsi, *words in found:
            lease = self.leases[imsi] = Lease(*words)
            # Vectors at or below the SEQ of an AUTS are of no use, also of one that another gateway told.
            self.keep(imsi, lambda number: number > lease.usim)
            if lease.count() < 1:
                spent.append(imsi)
                del self.leases[imsi]
                self.moves.pop(imsi, None)
        return spent

    def is_right(self, need, first, last, usim):
        floor, least = need
        return floor < first and last < first + self.site.size and last <= MAX_SEQ and least <= usim

    # The runs

    def is_low(self):
        """Whether the store has to be asked although nobody waits, since it doesn't know of an AUTS."""
        return any(not self.has_lease(imsi) for imsi in self.moves)

    def rest(self, seconds):
        """The store is asked at once."""
        return 0

    def batch(self, waiting, most, spare):
        """Those who wait and whom the next run can serve, at most so many."""
        return list(islice(filter(self.has_lease, waiting), most))

    def put_back(self, batch):
        """Nothing is asked for again by itself."""

    def scenario(self, batch):
        """One round with a job for each subscriber. Its RANDs follow from bytes that no other run has."""
        lines = [f"randkey {os.urandom(32).hex()}", "print full", *map(self.row, batch), "round"]
        for imsi in batch:
            lines += ["job", self.drawing(imsi)]
        return "\n".join([*lines, ""]).encode("ascii")

    def row(self, imsi):
        """A subscriber as the program reads it: it draws from the first number of the lease on."""
        return self.subscribers[imsi]._replace(seq=str(self.leases[imsi].first - 1)).line()

    def drawing(self, imsi):
        count, move = self.leases[imsi].count(), self.moves.get(imsi)
        return f"draw {imsi} {count}" if move is None else f"sync {imsi} {move} - {count}"

    def learn(self, batch, text):
        """Takes the vectors of a run's text: those of the batch that got one, and what is told. Such a run has spent its leases,
        however many of their numbers it gave."""
        found, given, sentences = lines_by_subscriber(text), set(), []
        for imsi in batch:
            for words in found[imsi]:
                if words[0] == "vector":
                    given.add(imsi)
                    self.add(imsi, vector_in(words))
                elif words[0] == "sync" and self.moves.get(imsi) == int(words[-1]):
                    del self.moves[imsi]
                if words[0] in ("withheld", "exhausted") or words[0] == "sync" and words[2] == "beyond":
                    sentences.append(told(words))
            del self.leases[imsi]
        while len(self.ahead) > self.most:
            self.ahead.popitem(last=False)
        return given, sentences
