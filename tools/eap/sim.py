"""Both ends of a full authentication of EAP-SIM (RFC 4186), as docs/sessions.md restates them.

A turn answers a pair, as those of session.py do: in words how the end ended or why it ignored what came, and the packet that it
sent, or None.
"""
import hashlib
from itertools import combinations

from .attributes import (AT_CLIENT_ERROR_CODE, AT_IDENTITY, AT_MAC, AT_NONCE_MT, AT_PERMANENT_ID_REQ, AT_RAND, AT_SELECTED_VERSION,
                         AT_VERSION_LIST, Fault, number_attr, number_in, read_sim, sixteen, text_attr)
from .keys import generated
from .messages import (CLIENT_ERROR, FAILURE, REQUEST, RESPONSE, SIM, SIM_CHALLENGE, SIM_SUBTYPES, START, SUCCESS, Head, is_sealed,
                       message, packet, sealed)
from .usim import triplet

VERSION = (1).to_bytes(2, "big")
# The error codes of a Client-Error (RFC 4186 §10.19).
UNABLE, NO_VERSION, NOT_FRESH = 0, 1, 3


def triplet_of(functions):
    """RAND's SRES and Kc."""
    return triplet(functions.res, functions.ck, functions.ik)


class SimKeys:
    """The keys of a full authentication (RFC 4186 §7)."""

    def __init__(self, identity, triplets, nonce, versions):
        master = hashlib.sha1(identity + b"".join(kc for _, kc in triplets) + nonce + versions + VERSION).digest()
        stream = generated(master)
        self.aut = stream[16:32]
        self.words = [stream[:16], stream[16:32] + bytes(16), bytes(32), stream[32:96], stream[96:160]]

    def text(self):
        return "keys " + " ".join(word.hex() for word in self.words)


class SimEnd:
    """An end of a session, whose identity is told by nobody: both ends are made with it."""
    notes: tuple = ()

    def __init__(self, identity):
        self.identity, self.state, self.keys, self.identifier, self.why = identity, "waiting", None, None, ""
        self.has_won = False

    @property
    def has_ended(self):
        return self.state == "ended"

    def deliver(self, data):
        if self.has_ended:
            return self.ignore("closed")
        try:
            head = Head(data)
            form = (None, {}) if head.kind is None else self.read(head)
        except Fault:
            return self.ignore("notforme")
        return self.take(head, data, *form)

    def read(self, head):
        """The subtype and the attributes of a message."""
        if head.kind != SIM or len(head.data) < 8 or head.data[5] not in SIM_SUBTYPES:
            raise Fault
        return head.data[5], read_sim(head.data[8:])

    def ignore(self, cause):
        return f"ignored {cause}", None

    def fail(self, cause, sent=None):
        self.state = "ended"
        return f"ended failure {cause}", sent

    def win(self, sent=None):
        self.state, self.has_won = "ended", True
        return "ended success", sent


class SimServer(SimEnd):
    """A server with the triplets of two or three RANDs: `challenges` are pairs of a RAND and its functions."""

    def __init__(self, identity, challenges):
        super().__init__(identity)
        self.rands, self.triplets = [rand for rand, _ in challenges], [triplet_of(f) for _, f in challenges]
        self.identifier = 1

    def start(self):
        attrs = number_attr(AT_PERMANENT_ID_REQ, 0) + text_attr(AT_VERSION_LIST, VERSION)
        return "", message(SIM, REQUEST, 1, START, attrs)

    def take(self, head, data, subtype, attrs):
        if head.code != RESPONSE or head.identifier != self.identifier:
            return self.ignore("notforme")
        if subtype == CLIENT_ERROR and AT_CLIENT_ERROR_CODE in attrs:
            return self.fail(f"clienterror {number_in(attrs[AT_CLIENT_ERROR_CODE])}", packet(FAILURE, self.identifier))
        if self.state == "waiting" and subtype == START and {AT_NONCE_MT, AT_IDENTITY} <= attrs.keys() and self.has_version(attrs):
            return self.challenge(attrs[AT_NONCE_MT][2:])
        if self.state == "challenged" and subtype == SIM_CHALLENGE and AT_MAC in attrs:
            return self.judge(head)
        return self.ignore("unexpected")

    @staticmethod
    def has_version(attrs):
        return attrs.get(AT_SELECTED_VERSION) == VERSION

    def challenge(self, nonce):
        self.state, self.identifier = "challenged", 2
        self.keys = SimKeys(self.identity, self.triplets, nonce, VERSION)
        attrs = sixteen(AT_RAND, b"".join(self.rands))
        return "", sealed(SIM, self.keys.aut, REQUEST, 2, SIM_CHALLENGE, attrs, nonce)

    def judge(self, head):
        if is_sealed(SIM, self.keys.aut, head.data, b"".join(sres for sres, _ in self.triplets)):
            return self.win(packet(SUCCESS, 2))
        return self.fail("wrongmac", packet(FAILURE, 2))


class SimPeer(SimEnd):
    """A peer with a call that gives the functions of a RAND, and its NONCE_MT."""

    def __init__(self, identity, functions, nonce):
        super().__init__(identity)
        self.functions, self.nonce, self.versions, self.asked, self.answered = functions, nonce, b"", None, None

    def take(self, head, data, subtype, attrs):
        if head.code == RESPONSE:
            return self.ignore("notforme")
        if data == self.asked:
            return "", self.answered
        if head.code != REQUEST:
            return self.on_outcome(head)
        if self.state == "waiting" and subtype == START and AT_VERSION_LIST in attrs:
            return self.on_start(head, data, attrs[AT_VERSION_LIST])
        if self.state == "started" and subtype == SIM_CHALLENGE and {AT_RAND, AT_MAC} <= attrs.keys():
            return self.on_challenge(head, data, attrs[AT_RAND][2:])
        return self.ignore("unexpected")

    def on_outcome(self, head):
        if head.identifier != self.identifier or head.code == SUCCESS and self.state != "answered":
            return self.ignore("unexpected")
        return self.win() if head.code == SUCCESS else self.fail(self.why or "failurereceived")

    def send(self, head, data, answer, state):
        self.state, self.identifier, self.asked, self.answered = state, head.identifier, data, answer
        return "", answer

    def refuse(self, head, data, why, code):
        self.why = why
        return self.send(head, data, message(SIM, RESPONSE, head.identifier, CLIENT_ERROR, number_attr(AT_CLIENT_ERROR_CODE, code)),
                         "refusing")

    def on_start(self, head, data, versions):
        if VERSION not in [versions[at:at + 2] for at in range(0, len(versions), 2)]:
            return self.refuse(head, data, "version", NO_VERSION)
        self.versions = versions
        attrs = sixteen(AT_NONCE_MT, self.nonce) + number_attr(AT_SELECTED_VERSION, 1) + text_attr(AT_IDENTITY, self.identity)
        return self.send(head, data, message(SIM, RESPONSE, head.identifier, START, attrs), "started")

    def on_challenge(self, head, data, rands):
        rands = [rands[at:at + 16] for at in range(0, len(rands), 16)]
        if any(one == other for one, other in combinations(rands, 2)):
            return self.refuse(head, data, "notfresh", NOT_FRESH)
        triplets = [triplet_of(self.functions(rand)) for rand in rands]
        keys = SimKeys(self.identity, triplets, self.nonce, self.versions)
        if not is_sealed(SIM, keys.aut, head.data, self.nonce):
            return self.refuse(head, data, "wrongmac", UNABLE)
        self.keys = keys
        answer = sealed(SIM, keys.aut, RESPONSE, head.identifier, SIM_CHALLENGE, b"", b"".join(sres for sres, _ in triplets))
        return self.send(head, data, answer, "answered")
