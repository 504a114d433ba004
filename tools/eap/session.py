"""What the two ends of a session share, and what passes from session to session: a home with its
subscribers, and a device.

A turn of an end answers a pair: in words how the end ended or why it ignored what came, `ended success`,
`ended failure CAUSE`, `ignored CAUSE` or nothing; and the packet that it sent, or None. What the turn left
besides is in the end.
"""
from dataclasses import dataclass, field
from typing import NamedTuple

from .attributes import AT_CHECKCODE, Fault
from .ciphers import encryption
from .keys import Keys
from .messages import Head, checkcode
from .milenage import Functions
from .names import LAST_ORDINAL, PERMANENT, Names, username
from .streams import Draws
from .usim import BITS, REACH, Usim, seq_of, top_of

LAST_COUNTER = 65535


@dataclass(frozen=True)
class Subscriber:
    """Whose session it is. Unless others are given, K and OPc are those of TS 35.208 §4.3, test set 1."""
    imsi: str = "001010000000001"
    k: bytes = bytes.fromhex("465b5ce8b199b49faa5f0a2ee238a6bc")
    opc: bytes = bytes.fromhex("cd63cb71954a9f4e48a5994e37a02baf")
    # How many bits IND has, and the age limit of the USIM if it has one.
    bits: int = BITS
    age: int = None

    def functions(self, rand):
        """f1 to f5* of a RAND."""
        return Functions(encryption(self.k), self.opc, rand)

    def permanent(self, kind):
        """The permanent identity of a method, without its realm."""
        return PERMANENT[kind] + self.imsi.encode()


class Context(NamedTuple):
    """What a re-authentication needs. The counter is a server's next one, and a peer's least one that is
    open."""
    identity: bytes
    keys: Keys
    counter: int

    def inputs(self, kind, place, identity):
        """What the keys of a re-authentication are made from, but for the counter and NONCE_S."""
        return kind, place, identity, self.keys.encr, self.keys.aut, self.keys.master


# ---- the home

@dataclass
class Row:
    """A row of the centre: its last number, and what the home keeps of the subscriber's names, and of
    contexts by method."""
    subscriber: Subscriber
    place: int = 0
    amf: bytes = b"\x80\0"
    number: int = 0
    ordinal: int = 0
    contexts: dict = field(default_factory=dict)
    # How many numbers were drawn, and how many resynchronisations passed over.
    drawn: int = 0
    skipped: int = 0

    def draw(self):
        """The next number; nothing if none is left."""
        if self.number >= top_of(self.subscriber.bits):
            return None
        self.number += 1
        self.drawn += 1
        return self.number

    def resynchronise(self, sqn_ms):
        """Takes the SQN_MS of an AUTS: the note of it. A SEQ that is none of the subscriber's numbers is as good as a wrong MAC."""
        seq, seen = seq_of(sqn_ms, self.subscriber.bits), self.number
        if seq > top_of(self.subscriber.bits):
            return "badauts"
        if seen + 1 - seq > REACH:
            return f"beyond {seen} {seq}"
        self.skipped += max(0, seq - seen)
        self.number = max(seen, seq)
        return f"{'moved' if seen < seq else 'inrange'} {seen} {seq}"


class Home:
    """What the sessions of a server share: the rows that it holds, the key of random bytes, and the realm
    of its names."""

    def __init__(self, key, rows, realm=b""):
        self.key, self.rows, self.realm, self.names = key, rows, realm, Names(key)

    def row(self, is_it):
        return next(filter(is_it, self.rows), None)

    def by_permanent(self, kind, identity):
        return self.row(lambda row: row.subscriber.permanent(kind) == username(identity))

    def by_name(self, kind, identity):
        """The row of a permanent identity or a pseudonym."""
        place = self.names.place(kind, identity)
        return self.by_permanent(kind, identity) or self.row(lambda row: row.place == place)

    def by_context(self, kind, identity):
        """The row whose context an identity names."""
        name = username(identity)
        return self.row(lambda row: kind in row.contexts and row.contexts[kind].identity == name)

    def next_name(self, kind, row, of):
        """The next pseudonym or re-authentication identity of a row; nothing if no ordinal is left."""
        if row.ordinal == LAST_ORDINAL:
            return None
        row.ordinal += 1
        return self.names.text(kind, row.place, row.ordinal, of)


# ---- the device

class Device:
    """What the sessions of a peer share: the USIM, and the pseudonym and the context of each method."""

    def __init__(self, subscriber, opening, key, place=0, realm=b""):
        self.subscriber, self.key, self.place, self.realm = subscriber, key, place, realm
        self.usim, self.names, self.contexts = Usim(subscriber.functions, opening, subscriber.bits, subscriber.age), {}, {}

    def adopt_challenged(self, kind, context):
        """After a full authentication a device keeps the new context, if an identity was given."""
        if context.identity:
            self.contexts[kind] = context

    def adopt_renewed(self, kind, used, identity):
        """After a re-authentication the context has the next identity, or is gone; if it is still the one
        that was used."""
        context = self.contexts.get(kind)
        if context and context.identity == used:
            del self.contexts[kind]
            if identity:
                self.contexts[kind] = context._replace(identity=identity)


# ---- an end

class End:
    """An end of a session, by its method, and by what all sessions of its side share."""

    def __init__(self, shared, session, index, kind):
        self.kind, self.realm, self.draws = kind, shared.realm, Draws(shared.key, session, index)
        # The identity that was told last, the packets of AKA-Identity rounds, and the keys after a success.
        self.identity, self.packets, self.keys, self.state, self.has_won = b"", [], None, "", False
        # What the keys that are in use are made from.
        self.inputs = None
        self.begin_turn()

    def begin_turn(self):
        """What a turn leaves: its notes, whether it found a right AT_MAC, the vector that it drew, and AUTS with the RAND that it
        answers if the USIM refused."""
        self.notes, self.has_checked, self.vector, self.failure = [], False, None, None

    @property
    def has_ended(self):
        return self.state == "ended"

    def deliver(self, data):
        self.begin_turn()
        if self.has_ended:
            return self.ignore("closed")
        try:
            head = Head(data)
        except Fault:
            return self.ignore("notforme")
        return self.take(head, data)

    def give_up(self):
        self.begin_turn()
        return self.ignore("closed") if self.has_ended else self.fail("givenup")

    def ignore(self, cause):
        return f"ignored {cause}", None

    def fail(self, cause, sent=None):
        self.state = "ended"
        return f"ended failure {cause}", sent

    def win(self, keys, sent=None):
        self.state, self.keys, self.has_won = "ended", keys, True
        return "ended success", sent

    def count(self, data):
        """Takes a packet of an AKA-Identity round into the checkcode, once."""
        if data not in self.packets:
            self.packets.append(data)

    def checkcode(self):
        return checkcode(self.kind, self.packets)

    def has_other_code(self, attrs):
        """Whether AT_CHECKCODE is there and is another one."""
        return AT_CHECKCODE in attrs and attrs[AT_CHECKCODE][2:] != self.checkcode()[4:]


def line_of(end, answer):
    """The line that the program of crates/auc_ends_cli prints of a turn."""
    what, sent = answer
    words = [*end.notes, what or "sent", *([sent.hex()] if sent else [])]
    return " ".join([*words, end.keys.text()] if what == "ended success" else words)
