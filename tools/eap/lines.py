"""Both ends in the lines that the program of crates/auc_ends_cli reads and prints, under its random bytes."""
from dataclasses import dataclass
from .messages import AKA, PRIME
from .peer import Peer
from .server import Server
from .session import Device, Home, Row, Subscriber, line_of
from .sim import SimEnd, SimPeer, SimServer
from .streams import nonce_of_sim, rand_of

RANDOM_KEY = bytes(range(32))
# The leading digit of a permanent identity of EAP-SIM (RFC 4186 §4.2.1.6).
SIM_DIGIT = b"1"


@dataclass
class SimServers:
    """The sessions of a server of EAP-SIM: its last number, and how many triplets each has."""
    number: int
    count: int


@dataclass
class SimPeers:
    """The sessions of a peer of EAP-SIM: the number whose NONCE_MT the last one had."""
    number: int


class Ends:
    """One end after the other, for one subscriber; sessions that follow share a home or a device."""

    def __init__(self, subscriber=Subscriber()):
        self.subscriber, self.end, self.shared, self.sessions = subscriber, None, None, 0

    def tell(self, line):
        """The line that answers a line."""
        word, _, rest = line.partition(" ")
        if word in ("simserver", "simpeer"):
            numbers = list(map(int, rest.split()))
            self.shared = SimServers(*numbers) if word == "simserver" else SimPeers(numbers[0] - 1)
        if word in ("simserver", "simpeer") or word == "next" and isinstance(self.shared, (SimServers, SimPeers)):
            return self.begin_sim()
        if word in ("server", "peer", "next"):
            return self.begin(word, rest.split())
        if isinstance(self.end, SimEnd) and word != "bytes":
            return "not understood"
        turns = {"bytes": lambda: self.end.deliver(bytes.fromhex(rest)), "repeat": lambda: self.end.repeat()}
        return line_of(self.end, turns.get(word, lambda: self.end.give_up())())

    def begin(self, word, words):
        kind, name = AKA, ""
        if "prime" in words[-2:-1]:
            kind, name, words = PRIME, words[-1], words[:-2]
        self.sessions += 1
        if word != "next":
            self.sessions, number = 1, int(words.pop(0))
        if word == "server":
            is_held = words.pop(0) == "held"
            self.shared = Home(RANDOM_KEY, [Row(self.subscriber, number=number)] if is_held else [])
        elif word == "peer":
            self.shared = Device(self.subscriber, number, RANDOM_KEY)
        if isinstance(self.shared, Home):
            self.end = Server(self.shared, self.sessions, kind, name.encode(), words)
            return line_of(self.end, self.end.repeat())
        first = next((it for it in words if it == "permanent" or it.startswith("=")), "held")
        name = None if name == "*" else name.encode()
        self.end = Peer(self.shared, self.sessions, kind, name, words, first)
        return "peer"

    def begin_sim(self):
        """The next session of EAP-SIM."""
        identity, shared = SIM_DIGIT + self.subscriber.imsi.encode(), self.shared
        if isinstance(shared, SimPeers):
            shared.number += 1
            self.end = SimPeer(identity, self.subscriber.functions, nonce_of_sim(RANDOM_KEY, 0, shared.number))
            return "peer"
        rands = [rand_of(RANDOM_KEY, 0, shared.number + place) for place in range(1, shared.count + 1)]
        shared.number += shared.count
        self.end = SimServer(identity, [(rand, self.subscriber.functions(rand)) for rand in rands])
        return line_of(self.end, self.end.start())
