"""The sessions of a scenario by an implementation of its own: the network of a job, over the centre, the
ends and the USIMs of tools/eap. It shares nothing with the crates, and needs Python's `cryptography`.

`World(TEXT).output()` is what `run` prints of a scenario that `is_readable`: one job a round, and in it
lines of sessions alone, those of EAP-SIM among them. No subscriber's last number may be drawn.
"""
import sys
from dataclasses import replace

from measure import TOP

sys.path.append(str(TOP / "tools"))
from eap.peer import Peer
from eap.server import Server
from eap.session import Device, Home, Row, Subscriber
from eap.sim import SimPeer, SimServer
from eap.streams import nonce_of_sim, rand_of
from eap.usim import BITS, sqn_of

TYPES = {"aka": 23, "prime": 50}
# What each letter of a session's options is called at an end.
OPTIONS = {"p": "pseudonym", "r": "reauth", "a": "any", "b": "bidding", "d": "hasprime"}
HEADER = {"randkey", "print", "realm", "subscriber"}
EVENTS = {"session", "start", "deliver", "repeat", "giveup", "plain", "tamper", "cut", "sim"}
# The ends of a `sim` line by the letters of its schedule.
SIM_ENDS = {"p": "peer", "s": "server"}


def lines_of(text):
    """The words of each line that says something."""
    return [line.split() for line in text.splitlines() if line.split() and not line.startswith("#")]


def is_readable(text):
    lines = lines_of(text)
    words = [line[0] for line in lines]
    has_known_words = set(words) <= HEADER | EVENTS | {"round", "job"}
    has_opc = all(line[3] == "opc" for line in lines if line[0] == "subscriber")
    return has_known_words and words.count("job") == words.count("round") and has_opc


# ---- the network of a job, and the scenario

class Session:
    def __init__(self, job, number, imsi, method, name, peer_name, options, identity):
        self.number, self.home, self.kind = int(number), job.home, TYPES[method]
        self.options, self.server = [OPTIONS[it] for it in options if it in OPTIONS], None
        self.name = name.encode() if method == "prime" else b""
        peer_name = None if method == "aka" or peer_name == "*" else peer_name.encode()
        self.peer = Peer(job.world.devices[imsi], self.number, self.kind, peer_name, self.options, identity)

    def start(self):
        self.server = Server(self.home, self.number, self.kind, self.name, self.options)
        return self.server.repeat()

    def end(self, word):
        return self.server if word == "server" else self.peer

    def verdict(self):
        return "agree" if self.server.keys.words == self.peer.keys.words else "differ"

    def has_verdict(self):
        return self.server and self.server.has_won and self.peer.has_won


class Job:
    def __init__(self, world, lines):
        self.world, self.lines, self.packets, self.sessions, self.broken = world, lines, [], {}, None
        imsis = {words[2] for words in lines if words[0] == "session"}
        self.home = Home(world.key, [row for row in world.rows if row.subscriber.imsi in imsis], world.realm)

    def run(self):
        for words in self.lines:
            getattr(self, words[0])(*words[1:])

    def session(self, number, *fields):
        self.sessions[number] = Session(self, number, *fields)
        self.world.say(f"session {number} open")

    def tell(self, text, end, answer):
        """Prints an event, and answers the number of the packet that it sends."""
        what, sent = answer
        words = [text, *end.notes]
        if any(note.startswith("exhausted") for note in end.notes):
            raise ValueError("a subscriber's last number was drawn")
        if sent is not None:
            self.packets.append((sent, type(end), end.inputs))
            words.append(f"sent {len(self.packets)}")
        self.world.say(" ".join(it for it in [*words, what] if it))
        if end.vector:
            self.world.show("bytes " + " ".join(it.hex() for it in end.vector))
        if end.failure:
            self.world.show("auts " + " ".join(it.hex() for it in end.failure))
        if sent is not None:
            self.world.show(f"packet {len(self.packets)} {sent.hex()}")
        if what == "ended success":
            self.world.show(end.keys.text())
        return len(self.packets) if sent is not None else None

    def start(self, number):
        session = self.sessions[number]
        if session.server:
            self.world.say(f"start {number} started")
            return None
        answer = session.start()
        return self.tell(f"start {number}", session.server, answer)

    def repeat(self, number):
        self.by_itself(f"repeat {number}", self.sessions[number].server, lambda end: end.repeat())

    def giveup(self, number, word):
        self.by_itself(f"giveup {number} {word}", self.sessions[number].end(word), lambda end: end.give_up())

    def by_itself(self, text, end, turn):
        if end:
            self.tell(text, end, turn(end))
        else:
            self.world.say(f"{text} nosuchend")

    def plain(self, number):
        sent, words = self.start(number), ["peer", "server"]
        while sent:
            sent = self.deliver(number, words[0], sent)
            words.reverse()

    def deliver(self, number, word, packet_number):
        text, at = f"deliver {number} {word} {packet_number}", int(packet_number)
        end = self.sessions[number].end(word)
        if not 1 <= at <= len(self.packets):
            self.world.say(f"{text} nosuchpacket")
        elif not end:
            self.world.say(f"{text} nosuchend")
        else:
            return self.hand_over(text, end, at)
        return None

    def tamper(self, packet_number, place, byte):
        text, at, value = f"tamper {int(packet_number)} {int(place)} {byte.lower()}", int(place), bytes.fromhex(byte)
        self.change(text, int(packet_number), at, lambda data: data[:at] + value + data[at + 1:])

    def cut(self, packet_number, length):
        count = int(length)
        self.change(f"cut {int(packet_number)} {count}", int(packet_number), count, lambda data: data[:count])

    def change(self, text, at, place, by):
        """A copy of a packet that has a place is changed. No end has sent the copy, so it has no role and no inputs."""
        if not 1 <= at <= len(self.packets):
            self.world.say(f"{text} nosuchpacket")
        elif place >= len(self.packets[at - 1][0]):
            self.world.say(f"{text} nosuchplace")
        else:
            data = by(self.packets[at - 1][0])
            self.packets.append((data, None, None))
            self.world.say(f"{text} made {len(self.packets)}")
            self.world.show(f"packet {len(self.packets)} {data.hex()}")

    def sim(self, imsi, count, schedule):
        row = next(row for row in self.world.rows if row.subscriber.imsi == imsi)
        SimJob(self.world, row, [self.world.drawn(row) for _ in range(int(count))]).run(schedule)

    def hand_over(self, text, end, at):
        data, before = self.packets[at - 1][0], end.inputs
        answer = end.deliver(data)
        inputs, role = (before, Peer) if isinstance(end, Server) else (end.inputs, Server)
        if end.has_checked and not self.broken and (data, role, inputs) not in self.packets:
            self.broken = text.removeprefix("deliver ")
        return self.tell(text, end, answer)


class SimJob:
    """The session of a `sim` line: both ends, and the packets between them, which count from 1."""

    def __init__(self, world, row, challenges):
        self.world, self.imsi, self.packets = world, row.subscriber.imsi, []
        identity = b"1" + self.imsi.encode() + (b"@" + world.realm if world.realm else b"")
        nonce = nonce_of_sim(world.key, row.place, challenges[0][0])
        self.ends = {"server": SimServer(identity, [(rand, f) for _, rand, f in challenges]),
                     "peer": SimPeer(identity, row.subscriber.functions, nonce)}
        self.tell("start", self.ends["server"], self.ends["server"].start())

    def tell(self, text, end, answer):
        """Prints a line, and answers whether a packet is sent."""
        what, sent = answer
        if sent is not None:
            self.packets.append(sent)
        words = [f"sim {self.imsi} {text}", f"sent {len(self.packets)}" if sent is not None else "", what]
        self.world.say(" ".join(it for it in words if it))
        if sent is not None:
            self.world.show(f"packet {len(self.packets)} {sent.hex()}")
        if what == "ended success":
            self.world.show(end.keys.text())
        return sent is not None

    def deliver(self, word, at):
        if not 1 <= at <= len(self.packets):
            self.world.say(f"sim {self.imsi} {word} {at} nosuchpacket")
            return False
        end = self.ends[word]
        return self.tell(f"{word} {at}", end, end.deliver(self.packets[at - 1]))

    def run(self, schedule):
        if schedule == "plain":
            words = ["peer", "server"]
            while self.deliver(words[0], len(self.packets)):
                words.reverse()
        else:
            for part in schedule.split(","):
                self.deliver(SIM_ENDS[part[0]], int(part[1:]))
        server, peer = self.ends["server"], self.ends["peer"]
        if server.has_won and peer.has_won:
            self.world.say(f"sim {self.imsi} {'agree' if server.keys.words == peer.keys.words else 'differ'}")


class World:
    """A scenario whose rounds have one job each, and what is printed of it."""

    def __init__(self, text):
        self.key, self.realm, self.full, self.rows, self.devices = bytes(32), b"", False, [], {}
        self.rounds, self.lines = [], []
        # A device needs the key and the realm, so the lines of subscribers are read last.
        for word, *fields in sorted(lines_of(text), key=lambda line: line[0] == "subscriber"):
            if word == "round":
                self.rounds.append([])
            elif word in EVENTS:
                self.rounds[-1].append([word, *fields])
            elif word in HEADER:
                getattr(self, f"read_{word}")(*fields)

    def read_randkey(self, key):
        self.key = bytes.fromhex(key)

    def read_print(self, word):
        self.full = word == "full"

    def read_realm(self, text):
        self.realm = text.encode()

    def read_subscriber(self, imsi, k, _, opc, amf, seq, usim, bits=BITS, age="-"):
        limit, place = None if age == "-" else int(age), len(self.rows)
        subscriber = Subscriber(imsi, bytes.fromhex(k), bytes.fromhex(opc), int(bits), limit)
        self.rows.append(Row(subscriber, place, bytes.fromhex(amf), int(seq)))
        self.devices[imsi] = Device(subscriber, int(usim), self.key, place, self.realm)

    def say(self, line):
        self.lines.append(line)

    def show(self, line):
        if self.full:
            self.say(line)

    def drawn(self, row):
        """A subscriber's next vector: its number, its RAND, and the functions of it."""
        number = row.draw()
        if number is None:
            raise ValueError("a subscriber's last number was drawn")
        rand = rand_of(self.key, row.place, number)
        f = row.subscriber.functions(rand)
        self.say(f"vector {row.subscriber.imsi} {number}")
        self.show("bytes " + " ".join(it.hex() for it in (rand, f.autn(sqn_of(number, row.subscriber.bits), row.amf), f.res, f.ck, f.ik)))
        return number, rand, f

    def output(self):
        for number, lines in enumerate(self.rounds, 1):
            self.say(f"round {number}")
            self.say("job 1")
            self.round(Job(self, lines))
        return "".join(line + "\n" for line in self.lines)

    def round(self, job):
        opened = [replace(row) for row in self.rows]
        job.run()
        for first, last in zip(opened, self.rows):
            if first.number != last.number:
                numbers = f"{last.subscriber.imsi} {first.number} {last.number}"
                drawn, skipped = last.drawn - first.drawn, last.skipped - first.skipped
                self.say(f"closed {numbers} {drawn} {skipped} {drawn} 0")
        for session in sorted(job.sessions.values(), key=lambda it: it.number):
            if session.has_verdict():
                self.say(f"session {session.number} {session.verdict()}")
        if job.sessions:
            self.say(f"premise broken 1 {job.broken}" if job.broken else "premise held")
