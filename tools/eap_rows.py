#!/usr/bin/env python3
"""Prints the lines that auc_ends_cli reads, or the lines that it has to answer, by an implementation of its own.

    tools/eap_rows.py stdin|stdout

The ends are those of tools/eap, which shares nothing with the crates, with permanent identities, pseudonyms
and re-authentications. The rows go through each state of a server and of a peer: first, in one session, each
message that is ignored there; then each other message in a session of its own. It needs Python's
`cryptography`.
"""
import sys
from types import SimpleNamespace

from ends import needs, run_main

if __name__ == "__main__":
    needs("cryptography", __doc__)

import sim_rows
from eap.attributes import attr, number_attr, res_attr, sixteen, text_attr
from eap.keys import Keys
from eap.lines import RANDOM_KEY, Ends
from eap.messages import REQUEST, RESPONSE, checkcode, hidden, message, packet, sealed
from eap.names import DIGITS, LAST_ORDINAL, PSEUDONYM, RENEWAL, Names
from eap.session import Context, Subscriber
from eap.streams import rand_of
from eap.usim import MAX_SEQ, REACH, sqn_of

SUBSCRIBER, NAMES = Subscriber(), Names(RANDOM_KEY)
IDENTITIES = {kind: SUBSCRIBER.permanent(kind) for kind in (23, 50)}


def vector(n, amf=b"\x80\0"):
    """RAND and AUTN of a number, and what Milenage gives of that RAND."""
    rand = rand_of(RANDOM_KEY, 0, n)
    f = SUBSCRIBER.functions(rand)
    return rand, f.autn(sqn_of(n), amf), f


def name_of(kind, ordinal, subscriber=0):
    """The pseudonym of a subscriber's ordinal, by the method's type."""
    return NAMES.text(kind, subscriber, ordinal)


def again_name(kind, ordinal, subscriber=0):
    """The re-authentication identity of a subscriber's ordinal."""
    return NAMES.text(kind, subscriber, ordinal, RENEWAL)


# ---- the rows

class Session(Ends):
    """An end and the lines that were said to it, with its answers."""

    def __init__(self, line):
        super().__init__()
        self.rows = []
        self.say(line)

    def say(self, line):
        answer = self.tell(line)
        self.rows.append((line, answer))
        return answer

    def bytes(self, data):
        return self.say(f"bytes {data.hex()}")


# What is said behind the line of an end: nothing for EAP-AKA without options.
NAME = b"WLAN"
BIDDING, HAS_PRIME, GIVES, RENEWS, ASKS_ANY = " bidding", " hasprime", " pseudonym", " reauth", " any"
PERMANENT, SOMEBODY = " permanent", " =somebody@home"
PLAIN, PRIME, ANY_NAME, LONG = "", " prime WLAN", " prime *", " prime " + "n" * 255


def told(session, before):
    """A session after messages, and after the next sessions' options."""
    for it in before:
        session.say(f"next{it}") if isinstance(it, str) else session.bytes(it(session.end))
    return session


def server(word=0, held="held", *before, options=PLAIN):
    return told(Session(f"server {word} {held}{options}"), before)


def peer(opening=0, *before, options=PLAIN):
    return told(Session(f"peer {opening}{options}"), before)


def through(title, make_session, messages, more=()):
    """All messages in one state: those that are ignored in one session, which is then said a few lines more; each other
    one in a session of its own, with the message that ends it where that tells a cause or keys."""
    yield f"# {title}", f"# {title}"
    quiet = make_session()
    loud = []
    for name, message in messages:
        trial = make_session()
        answer = trial.bytes(message(trial.end))
        if answer.startswith("ignored"):
            quiet.bytes(message(quiet.end))
        else:
            loud.append((name, message))
    for line in more:
        quiet.say(line)
    yield from quiet.rows
    for name, message in loud:
        session = make_session()
        session.bytes(message(session.end))
        last = {"notifying": response(12), "refusing": plain(4), "answered": plain(3)}.get(session.end.state)
        if last:
            session.bytes(last(session.end))
        yield f"# {title}: {name}", f"# {title}: {name}"
        yield from session.rows


def story(title, make_session):
    """A session as it is."""
    yield f"# {title}", f"# {title}"
    yield from make_session().rows


# Messages for a server. A state without keys gets codes of zero bytes.

def key_of(end):
    return end.challenged.aut if end.challenged else bytes(16 if end.kind == 23 else 32)


def res_of(end):
    return end.f.res if end.f else bytes(8)


def other_kind(end):
    return 73 - end.kind


def response(subtype, attrs=b"", kind=lambda end: end.kind):
    return lambda end: message(kind(end), RESPONSE, end.identifier, subtype, attrs)


def right_response(end, res=None, more=b"", key=None, add=0):
    attrs = res_attr(res_of(end) if res is None else res) + more
    return sealed(end.kind, key_of(end) if key is None else key, RESPONSE, (end.identifier + add) % 256, 1, attrs)


def identity(text):
    """An identity in answer to EAP's own Identity request, or in an AKA-Identity response if another request was sent."""
    def make(end):
        chosen = text(end.kind) if callable(text) else text
        if end.state == "identity":
            return packet(RESPONSE, end.identifier, b"\x01" + chosen)
        return message(end.kind, RESPONSE, end.identifier, 5, text_attr(14, chosen))
    return make


def own_checkcode(end):
    return end.checkcode()


def permanent(more=b"", other=False, size=16):
    """The permanent identity of the end's method, or of the other one; its first digits, and more."""
    def make(end):
        return identity(IDENTITIES[other_kind(end) if other else end.kind][:size] + more)(end)
    return make


def sync(seq, wrong=False, more=b""):
    def make(end):
        auts = end.f.auts(sqn_of(seq)) if end.f else bytes(14)
        return message(end.kind, RESPONSE, end.identifier, 4, attr(4, auts[:-1] + bytes([auts[-1] ^ wrong])) + more)
    return make


MAC = sixteen(11, bytes(16))
KDF = number_attr(24, 1)
EMPTY_CHECKCODE = attr(134, b"\0\0")
CHECKCODE = attr(134, b"\0\0" + bytes(range(20)))
UNKNOWN = attr(200, b"\x01\x02")
NO_PACKETS = [
    ("three bytes", lambda end: b"\x02\x01\0"),
    ("code 5", lambda end: b"\x05\x01\0\x05\x01"),
    ("a Length above the bytes", lambda end: packet(RESPONSE, end.identifier or 1, b"\x01")[:-1]),
    ("a message of six bytes", lambda end: b"\x02" + bytes([end.identifier or 1]) + b"\0\x06\x17\x01"),
]
IDENTIFYING = [
    ("no AT_IDENTITY", response(5)),
    ("AT_IDENTITY and another attribute", response(5, text_attr(14, IDENTITIES[23]) + MAC)),
    ("the permanent identity", permanent()),
    ("the permanent identity with a realm", permanent(b"@home@there")),
    ("the empty identity", identity(b"")),
    ("the identity of the other method", permanent(other=True)),
    ("an identity of one digit less", permanent(size=15)),
    ("the identity of another subscriber", identity(b"0001010000000009")),
    ("a pseudonym", identity(lambda kind: name_of(kind, 1))),
    ("a pseudonym with a realm", identity(lambda kind: name_of(kind, 7) + b"@home@there")),
    ("a pseudonym that wasn't given", identity(lambda kind: name_of(kind, 0))),
    ("the last pseudonym", identity(lambda kind: name_of(kind, LAST_ORDINAL))),
    ("a pseudonym of the other method", identity(lambda kind: name_of(73 - kind, 1))),
    ("a pseudonym with the other method's digit",
     identity(lambda kind: DIGITS[PSEUDONYM][73 - kind] + NAMES.digits(kind, 0, 1))),
    ("a pseudonym in upper case", identity(lambda kind: name_of(kind, 1).upper())),
    ("a pseudonym of one digit less", identity(lambda kind: name_of(kind, 1)[:32])),
    ("a pseudonym of one digit more", identity(lambda kind: name_of(kind, 1) + b"0")),
    ("a pseudonym of another subscriber", identity(lambda kind: name_of(kind, 1, subscriber=1))),
    ("digits that hide no name", identity(b"2" + b"00" * 16)),
    ("a name of a re-authentication", identity(lambda kind: again_name(kind, 1))),
]
CHECKED = [
    ("a checkcode", lambda end: right_response(end, more=CHECKCODE)),
    ("a checkcode and a wrong AT_RES", lambda end: right_response(end, res=b"r" * 8, more=CHECKCODE)),
    ("the right checkcode", lambda end: right_response(end, more=own_checkcode(end))),
    ("an empty checkcode", lambda end: right_response(end, more=EMPTY_CHECKCODE)),
    ("the checkcode of the last packet alone",
     lambda end: right_response(end, more=checkcode(end.kind, end.packets[-1:]))),
]
ANSWERING = [
    ("the right answer", right_response),
    ("the right answer, an empty checkcode, an unknown attribute and bytes past Length",
     lambda end: right_response(end, more=UNKNOWN + EMPTY_CHECKCODE + UNKNOWN) + b"past"),
    ("a wrong AT_MAC", lambda end: right_response(end, key=b"k" * len(key_of(end)))),
    ("a wrong AT_RES", lambda end: right_response(end, res=b"r" * 8)),
    ("the first half of AT_RES", lambda end: right_response(end, res=res_of(end)[:4])),
    ("both wrong", lambda end: right_response(end, res=b"r" * 8, key=b"k" * len(key_of(end)))),
    *CHECKED,
]
TO_SERVER = NO_PACKETS + IDENTIFYING + ANSWERING + [
    ("a request", lambda end: packet(REQUEST, end.identifier, b"\x01")),
    ("a Success", lambda end: packet(3, end.identifier, b"")),
    ("another Identifier", lambda end: right_response(end, add=1)),
    ("the Identifier before", lambda end: packet(RESPONSE, end.identifier - 1, b"\x01" + IDENTITIES[end.kind])),
    ("type 3", lambda end: packet(RESPONSE, end.identifier, b"\x03\x17")),
    ("the other method's type", response(1, MAC, other_kind)),
    ("subtype 9", response(9)),
    ("an attribute of length 0", response(1, b"\x03\0\0\0")),
    ("an attribute past the end", response(1, b"\x0b\x05\0\0")),
    ("attribute 127", response(1, attr(127, b"\0\0"))),
    ("AT_MAC twice", response(1, MAC + MAC)),
    ("an attribute of another message", response(1, attr(4, bytes(14)))),
    ("an attribute of another message in a rejection", response(2, MAC)),
    ("subtype Identity", response(5, text_attr(14, IDENTITIES[23]))),
    ("subtype Reauthentication", response(13, MAC)),
    ("no AT_RES", response(1, MAC)),
    ("no AT_MAC", lambda end: message(end.kind, RESPONSE, end.identifier, 1, res_attr(res_of(end)))),
    ("no AT_AUTS", response(4)),
    ("no AT_CLIENT_ERROR_CODE", response(14)),
    ("a Notification", response(12)),
    ("an Authentication-Reject", response(2)),
    ("a Client-Error", response(14, attr(22, b"\x01\x02"))),
    ("an AUTS above the number", sync(500)),
    ("an AUTS at the number", sync(1)),
    ("an AUTS with a wrong MAC-S", sync(500, True)),
    ("an AUTS with AT_KDF", sync(500, more=KDF)),
]

# Messages about re-authentications, for a server and for a peer.
IV = bytes(range(0x80, 0x90))
NONCE = sixteen(21, bytes(range(0x90, 0xA0)))
TOO_SMALL = attr(20, b"\0\0")
# The context of an end that has none.
BLANK = Context(b"", SimpleNamespace(encr=bytes(16), aut=b""), 1)


def counted(counter):
    return number_attr(19, counter)


def again_response(count=0, more=b"", inner=None, top=None, key=None, encr=None, nonce=None, late=b""):
    """The answer to a re-authentication: its counter and a number, and more that isn't encrypted; or another list that is
    encrypted, or other attributes in the place of AT_IV and AT_ENCR_DATA."""
    def make(end):
        context = end.context or BLANK
        within = counted(context.counter + count) + late if inner is None else inner
        attrs = hidden(context.keys.encr if encr is None else encr, IV, within) if top is None else top
        over = (end.nonce if end.context else b"") if nonce is None else nonce
        right = context.keys.aut if key is None else key
        return sealed(end.kind, right, RESPONSE, end.identifier, 13, attrs + more, over)
    return make


def again_identity(ordinal, more=b"", change=lambda name: name, **options):
    """The re-authentication identity of an ordinal."""
    return identity(lambda kind: change(again_name(kind, ordinal, **options)) + more)


# Encrypted attributes that can't be read, for the counter 1.
UNREADABLE = [
    ("AT_COUNTER twice", {"inner": NONCE + counted(1) * 2}),
    ("AT_PADDING with a byte that isn't zero", {"inner": NONCE + counted(1) + attr(6, b"\0\1")}),
    ("an encrypted attribute past the end", {"inner": NONCE + counted(1) + b"\x85\x09\0\x21"}),
    ("encrypted attributes under another key", {"encr": b"e" * 16}),
    ("encrypted attributes of no block", {"top": sixteen(129, IV) + attr(130, b"\0\0")}),
    ("encrypted attributes of 20 bytes", {"top": sixteen(129, IV) + attr(130, b"\0\0" + bytes(20))}),
]
CHECKED_AGAIN = [
    ("a checkcode in it", again_response(more=CHECKCODE)),
    ("a checkcode and another counter", again_response(1, more=CHECKCODE)),
    ("an empty checkcode in it", again_response(more=EMPTY_CHECKCODE)),
    ("the right checkcode in it", lambda end: again_response(more=own_checkcode(end))(end)),
    ("the checkcode of the last packet alone in it",
     lambda end: again_response(more=checkcode(end.kind, end.packets[-1:]))(end)),
]
ANSWERING_AGAIN = [
    ("the right answer", again_response()),
    ("the right answer, unknown attributes in both places and bytes past Length",
     lambda end: again_response(more=UNKNOWN, late=UNKNOWN)(end) + b"past"),
    ("the right answer and an encrypted AT_NONCE_S", again_response(late=NONCE)),
    ("no AT_IV", again_response(top=attr(130, b"\0\0" + bytes(16)))),
    ("no AT_ENCR_DATA", again_response(top=sixteen(129, IV))),
    ("no AT_MAC in it", response(13, hidden(bytes(16), IV, counted(1)))),
    ("AT_COUNTER beside AT_ENCR_DATA", again_response(more=counted(1))),
    ("AT_COUNTER_TOO_SMALL beside AT_ENCR_DATA", again_response(more=TOO_SMALL)),
    ("a wrong AT_MAC", again_response(key=b"k" * 16)),
    ("AT_MAC without NONCE_S", again_response(nonce=b"")),
    ("AT_MAC over another NONCE_S", again_response(nonce=bytes(16))),
    ("a wrong AT_MAC and another counter", again_response(1, key=b"k" * 16)),
    ("a higher counter", again_response(1)),
    ("a lower counter", again_response(-1)),
    ("a counter that differs in its first byte", again_response(256)),
    ("no AT_COUNTER", again_response(inner=UNKNOWN)),
    ("AT_COUNTER_TOO_SMALL", again_response(late=TOO_SMALL)),
    ("AT_COUNTER_TOO_SMALL and another counter", again_response(1, late=TOO_SMALL)),
    ("AT_COUNTER_TOO_SMALL without AT_COUNTER", again_response(inner=TOO_SMALL)),
    ("AT_COUNTER_TOO_SMALL and a checkcode", again_response(late=TOO_SMALL, more=CHECKCODE)),
    *CHECKED_AGAIN,
    *((title, again_response(**options)) for title, options in UNREADABLE),
]


SERVER_ENDS, PEER_ENDS = ["repeat", "giveup", "repeat", "giveup"], ["giveup", "giveup"]


def server_rows():
    known, unknown, error = permanent(), identity(b"somebody"), response(2)
    refused = unknown, unknown, unknown
    yield from through("server, awaiting the identity", server, TO_SERVER, SERVER_ENDS)
    yield from through("server, the subscriber isn't held", lambda: server(0, "none"), [("its identity", known)])
    yield from through("server, awaiting the challenge", lambda: server(0, "held", known), TO_SERVER, SERVER_ENDS)
    yield from through("server, challenged again", lambda: server(0, "held", known, sync(500)), TO_SERVER, SERVER_ENDS)
    yield from through("server, notifying", lambda: server(0, "held", *refused), TO_SERVER, SERVER_ENDS)
    yield from through("server, ended", lambda: server(0, "held", known, error), TO_SERVER, SERVER_ENDS)
    yield from through("server, the last number", lambda: server(MAX_SEQ - 1), [("its identity", known)])
    yield from through("server, no number left", lambda: server(MAX_SEQ), [("its identity", known)])
    far = REACH + 500
    for name, seq in ("in range", 501), ("beyond", 500):
        yield from through("server, far ahead", lambda: server(far - 1, "held", known), [(f"an AUTS {name}", sync(seq))])
    yield from through("server, no number left after the AUTS", lambda: server(5, "held", known), [("", sync(MAX_SEQ))])
    yield from through("server that bids", lambda: server(0, "held", known, options=BIDDING),
                       [("the right answer", right_response)])
    yield from through("server of EAP-AKA', awaiting the identity", lambda: server(options=PRIME), TO_SERVER, SERVER_ENDS)
    yield from through("server of EAP-AKA', awaiting the challenge", lambda: server(0, "held", known, options=PRIME),
                       TO_SERVER, SERVER_ENDS)
    yield from through("server of EAP-AKA', challenged again", lambda: server(0, "held", known, sync(500), options=PRIME),
                       TO_SERVER, SERVER_ENDS)
    yield from through("server of EAP-AKA', notifying", lambda: server(0, "held", *refused, options=PRIME),
                       TO_SERVER, SERVER_ENDS)
    yield from through("server of EAP-AKA' with a long name", lambda: server(0, "held", known, options=LONG),
                       [("the right answer", right_response)])
    for title, options in ("server", PLAIN), ("server of EAP-AKA'", PRIME):
        any_first = ASKS_ANY + options
        messages = TO_SERVER if options == PLAIN else IDENTIFYING
        yield from through(f"{title}, awaiting any identity", lambda: server(0, "held", known, options=any_first),
                           messages, SERVER_ENDS)
        yield from through(f"{title}, awaiting an identity for full authentication",
                           lambda: server(0, "held", unknown, options=options), messages, SERVER_ENDS)
        yield from through(f"{title}, awaiting the permanent identity",
                           lambda: server(0, "held", unknown, unknown, options=options), messages, SERVER_ENDS)
        yield from through(f"{title}, which gives pseudonyms, awaiting the challenge after three identities", lambda: server(
            0, "held", known, unknown, unknown, known, options=GIVES + any_first), ANSWERING)
        yield from through(f"{title}, which gives pseudonyms, challenged again",
                           lambda: server(0, "held", known, sync(500), options=GIVES + options),
                           [("the right answer", right_response)])
        yield from through(f"{title}, the third session", lambda: server(
            0, "held", known, right_response, GIVES + options, known, GIVES + any_first, known, known,
            options=GIVES + options), [("the right answer", right_response)])
        yield from through(f"{title}, the subscriber isn't held", lambda: server(0, "none", unknown, options=any_first),
                           [("its pseudonym", identity(lambda kind: name_of(kind, 1)))])
    yield from through("server that bids and gives pseudonyms",
                       lambda: server(0, "held", known, options=GIVES + BIDDING),
                       [("the right answer", right_response)])
    yield from through("server that gives pseudonyms, with a long name",
                       lambda: server(0, "held", known, options=GIVES + ASKS_ANY + LONG),
                       [("its identity", known)])
    yield from through("server that gives pseudonyms, no number left",
                       lambda: server(MAX_SEQ, "held", options=GIVES), [("its identity", known)])
    yield from again_server_rows()


def again_server_rows():
    """The rows of servers that give re-authentication identities and resume them."""
    known, unknown, wrong = permanent(), identity(b"somebody"), lambda end: right_response(end, res=b"r" * 8)
    right, again, small = right_response, again_response(), again_response(late=TOO_SMALL)
    first, second, third = (again_identity(ordinal) for ordinal in (1, 2, 3))
    for title, options, other in ("server", PLAIN, PRIME), ("server of EAP-AKA'", PRIME, PLAIN):
        renews, any_first = RENEWS + options, ASKS_ANY + options
        strangers = [known, again_identity(2), again_identity(3), identity(lambda kind: again_name(73 - kind, 1)),
                     identity(lambda kind: DIGITS[PSEUDONYM][kind] + NAMES.digits(kind, 0, 1, RENEWAL)), again_identity(1, change=bytes.upper),
                     again_identity(1, change=lambda name: name[:32]), again_identity(1, b"0"), again_identity(1, subscriber=1)]
        full, resumed = (known, right), (known, right, renews, first)

        # Each end is made anew for each message, so what it is made of is bound here.
        def made(*before, of=renews):
            return lambda: server(0, "held", *before, options=of)

        gave = f"{title} that gave an identity"
        yield from story(f"{gave}, other identities and then this one", made(
            *full, *(step for stranger in strangers for step in (renews, stranger)),
            renews, again_identity(1, b"@home@there"), again))
        yield from story(f"{gave}, and gets it later in a session", made(
            *full, options, unknown, first, first, any_first, first, unknown, any_first, known, first))
        yield from story(f"{gave}, but got no right answer", made(
            known, renews, first, renews, known, wrong, renews, second))
        yield from story(f"{gave} in two challenges", made(
            known, sync(500), right, renews, first, renews, second))
        yield from story(f"{gave}, and then another", made(*full, renews, *full, renews, first, renews, second))
        yield from story(f"{gave}, and then none", made(*full, options, *full, options, first, again, options, first))
        yield from story(f"{gave}, and a pseudonym", made(
            *full, options, identity(lambda kind: name_of(kind, 1)), right, options, second, of=GIVES + renews))
        yield from story(f"{gave} of each method", made(
            *full, other, identity(lambda kind: again_name(73 - kind, 1)), RENEWS + other, *full,
            renews, first, again, other, second, again, renews, third))
        yield from through(f"{title}, awaiting the answer to a re-authentication", made(*resumed),
                           ANSWERING_AGAIN + (TO_SERVER if options == PLAIN else ANSWERING[:1]), SERVER_ENDS)
        yield from through(f"{title}, awaiting the answer to a re-authentication, after two identities",
                           made(*full, GIVES + any_first, known, again_identity(1, b"@home")),
                           ANSWERING_AGAIN[:1] + CHECKED_AGAIN)
        yield from through(f"{title}, challenged after a counter that was too small", made(*resumed, small), [
            *ANSWERING[:1], *ANSWERING[2:4], *CHECKED, *ANSWERING_AGAIN[:1], ("too small again", small),
            ("a rejection", response(2)), ("an AUTS above the number", sync(500))])
        yield from story(f"{title}, challenged again after a counter that was too small", made(*resumed, small, sync(500), right))
        yield from story(f"{title}, challenged after a synchronisation failure and a counter that was too small", made(
            known, sync(500), right, renews, second, small, sync(600), sync(700)))
        yield from story(f"{title}, four re-authentications and a counter that was too small", made(
            *resumed, again, renews, first, renews, second, again, GIVES + renews, third, again,
            renews, again_identity(4), small, right, renews, again_identity(5), renews, again_identity(6), again))
        for name, answer in ("a wrong counter", again_response(1)), ("an error", response(14, attr(22, b"\0\0"))):
            yield from story(f"{title}, a re-authentication that ended in {name}",
                             made(*resumed, answer, renews, first, renews, second))
        yield from through(f"{title}, a re-authentication and no number left", lambda: server(
            MAX_SEQ - 1, "held", *resumed, options=renews), [("the right answer", again), ("AT_COUNTER_TOO_SMALL", small)])


# Messages for a peer. The challenge is that of number `n`, for the identity last sent.

def next_id(end):
    return ((end.identifier or 0) + 1) % 256


def network(kdf=KDF, name=NAME):
    """AT_KDF_INPUT, if there is a name, and AT_KDF."""
    return (b"" if name is None else text_attr(23, name)) + kdf


def challenge(n=1, more=None, key=None, autn=None, identity=None, kdf=KDF, name=NAME, inner=None):
    """A challenge, with the right checkcode if no other attributes are given. What is encrypted comes before them. One of
    EAP-AKA' also has the attributes of a network."""
    def make(end):
        rand, right_autn, f = vector(n)
        proof = right_autn if autn is None else autn
        right = Keys(end.kind, name or b"", end.identity if identity is None else identity, proof, f)
        attrs = sixteen(1, rand) + sixteen(2, proof) + (network(kdf, name) if end.kind == 50 else b"")
        attrs += b"" if inner is None else hidden(right.encr, IV, inner)
        attrs += own_checkcode(end) if more is None else more
        return sealed(end.kind, right.aut if key is None else key * len(right.aut), REQUEST, next_id(end), 1, attrs)
    return make


def gives(text, *rest, **options):
    """A challenge that gives a pseudonym of this text, with further encrypted attributes."""
    return challenge(inner=text_attr(132, text) + b"".join(rest), **options)


def request(subtype, attrs=b"", kind=lambda end: end.kind):
    return lambda end: message(kind(end), REQUEST, next_id(end), subtype, attrs)


def notification(code, more=b""):
    return request(12, number_attr(12, code) + more)


def plain(code, add=0):
    return lambda end: packet(code, ((end.identifier or 0) + add) % 256, b"")


def again(end):
    return end.asked or b""


def asks(*kinds, more=b""):
    """An AKA-Identity request."""
    return request(5, b"".join(attr(kind, b"\0\0") for kind in kinds) + more)


FRESH = b"2" + b"0123456789abcdef" * 2
LATER = b"7" + b"fedcba9876543210" * 2
AGAIN = b"4" + b"00112233445566778899aabbccddeeff"
NEXT = b"8" + b"ffeeddccbbaa99887766554433221100"
ASK = lambda end: packet(REQUEST, next_id(end), b"\x01")
RAND_AND_AUTN = b"".join(sixteen(kind, value) for kind, value in zip((1, 2), vector(1)))
CHALLENGING = [
    ("the right challenge", challenge()),
    ("the right challenge, no checkcode, an unknown attribute, bytes past Length",
     lambda end: challenge(more=UNKNOWN)(end) + b"past"),
    ("a challenge under another identity", challenge(identity=b"0001010000000009")),
    ("a wrong AT_MAC", challenge(key=b"k")),
    ("a wrong MAC in AUTN", challenge(autn=vector(1)[1][:-1] + b"\0")),
    ("AUTN of another number", challenge(autn=vector(2)[1])),
    ("an SQN that is too far", challenge(REACH + 1)),
    ("the farthest SQN", challenge(REACH)),
    ("a checkcode", challenge(more=CHECKCODE)),
    ("an empty checkcode", challenge(more=EMPTY_CHECKCODE)),
    ("the checkcode of the last packet alone", lambda end: challenge(more=checkcode(end.kind, end.packets[-1:]))(end)),
    ("a pseudonym", gives(FRESH)),
    ("a pseudonym and no checkcode", gives(FRESH, more=b"")),
    ("a pseudonym and a wrong checkcode", gives(FRESH, more=CHECKCODE)),
    ("a pseudonym with a realm", gives(FRESH + b"@home@there")),
    ("a pseudonym of one digit less", gives(FRESH[:32])),
    ("a pseudonym of one digit more", gives(FRESH + b"0")),
    ("an empty pseudonym", gives(b"")),
    ("a pseudonym of other bytes", gives(b"\0\xff" + b"p" * 31)),
    ("a name of a re-authentication", challenge(inner=text_attr(133, FRESH))),
    ("a pseudonym, a name of a re-authentication and an unknown attribute",
     gives(FRESH, text_attr(133, LATER), UNKNOWN, attr(6, bytes(2)))),
    ("a pseudonym twice", gives(FRESH, text_attr(132, LATER))),
    ("a pseudonym, and AT_PADDING with a byte that isn't zero", gives(FRESH, attr(6, b"\0" * 5 + b"\1"))),
    ("a pseudonym, and an attribute past the end", gives(FRESH, b"\x84\x09\0\x21")),
    ("encrypted attributes, a pseudonym of 33 bytes that isn't encrypted", challenge(more=text_attr(132, FRESH))),
    ("AT_IV alone", challenge(more=sixteen(129, IV))),
    ("encrypted attributes of no block", challenge(more=sixteen(129, IV) + attr(130, b"\0\0"))),
    ("encrypted attributes of 20 bytes", challenge(more=sixteen(129, IV) + attr(130, b"\0\0" + bytes(20)))),
    ("encrypted attributes without AT_IV", challenge(more=attr(130, b"\0\0" + bytes(16)))),
    ("encrypted attributes that are none", challenge(more=sixteen(129, bytes(16)) + attr(130, b"\0\0" + bytes(16)))),
    ("AT_BIDDING with D clear", challenge(more=attr(136, b"\x7f\xff"))),
    ("AT_BIDDING with D set", challenge(more=attr(136, b"\x80\0") + EMPTY_CHECKCODE)),
]
TO_PEER = NO_PACKETS + [
    ("a response", lambda end: packet(RESPONSE, next_id(end), b"\x01")),
    ("a Success", plain(3)),
    ("a Success with another Identifier", plain(3, 1)),
    ("a Failure", plain(4)),
    ("a Failure with another Identifier", plain(4, 1)),
    ("the last request again", again),
    ("the last request and a byte past Length", lambda end: again(end) + b"\0"),
    ("type 3", lambda end: packet(REQUEST, next_id(end), b"\x03\x17")),
    ("the other method's type", request(1, RAND_AND_AUTN + MAC, other_kind)),
    ("an Identity request", ASK),
    ("subtype 9", request(9)),
    ("an Authentication-Reject", request(2)),
    ("a Synchronization-Failure", request(4, attr(4, bytes(14)))),
    ("a Client-Error", request(14, attr(22, b"\0\0"))),
    ("an attribute of length 0", request(1, b"\x01\0\0\0")),
    ("attribute 127", request(1, attr(127, b"\0\0"))),
    ("AT_RAND twice", request(1, sixteen(1, bytes(16)) * 2)),
    ("an attribute of another message", request(1, RAND_AND_AUTN + attr(4, bytes(14)) + MAC)),
    ("a request for the permanent identity", asks(10)),
    ("a request for any identity", asks(13)),
    ("a request for an identity for full authentication and an unknown attribute", asks(17, more=UNKNOWN)),
    ("a request for any identity and for the permanent one", asks(13, 10)),
    ("a request for any identity and for one for full authentication", asks(13, 17)),
    ("a request for three identities", asks(10, 13, 17)),
    ("a request for no identity", asks()),
    ("a request for an identity, and a checkcode", asks(more=CHECKCODE)),
    ("a request for an identity with AT_MAC", asks(13, more=MAC)),
    ("a request for an identity twice", asks(13, 13)),
    ("subtype Reauthentication", request(13, MAC)),
    ("no AT_RAND", request(1, sixteen(2, bytes(16)) + MAC)),
    ("no AT_AUTN", request(1, sixteen(1, bytes(16)) + MAC)),
    ("no AT_MAC", request(1, RAND_AND_AUTN)),
    ("a Notification of failure", notification(16384)),
    ("a Notification of failure with AT_MAC", notification(0x7001, MAC)),
    ("a Notification of success", notification(32768)),
    ("a Notification after the challenge", notification(1026)),
    ("a Notification without a code", request(12)),
    ("a Notification with a foreign attribute", notification(16384, attr(22, b"\0\0"))),
] + CHALLENGING

# Challenges of EAP-AKA' that differ in what is tested before the USIM is asked.
NO_SEPARATION = vector(1, b"\x7f\xff")[1]
TO_PRIME = [
    ("AT_KDF and AT_KDF_INPUT in the message of EAP-AKA",
     lambda end: message(23, REQUEST, next_id(end), 1, RAND_AND_AUTN + network() + MAC)),
    ("no AT_KDF", challenge(kdf=b"")),
    ("AT_KDF 2", challenge(kdf=attr(24, b"\0\2"))),
    ("AT_KDF 257", challenge(kdf=attr(24, b"\1\1"))),
    ("AT_KDF 1 and 2", challenge(kdf=KDF + attr(24, b"\0\2"))),
    ("AT_KDF 2 and 1", challenge(kdf=attr(24, b"\0\2") + KDF)),
    ("no AT_KDF_INPUT", challenge(name=None)),
    ("an empty name", challenge(name=b"")),
    ("another name", challenge(name=b"wlan")),
    ("the first bytes of the name", challenge(name=NAME[:3])),
    ("the name with a further byte", challenge(name=NAME + b"2")),
    ("a name of 300 bytes", challenge(name=b"n" * 300)),
    ("AT_KDF_INPUT twice", challenge(kdf=text_attr(23, NAME) + KDF)),
    ("AMF without the separation bit", challenge(autn=NO_SEPARATION)),
    ("neither AT_KDF nor AT_KDF_INPUT", challenge(kdf=b"", name=None)),
    ("another name and no separation bit", challenge(name=b"wlan", autn=NO_SEPARATION)),
    ("another name and no AT_MAC", request(1, RAND_AND_AUTN + network(name=b"wlan"))),
]


def again_request(counter=1, more=None, inner=None, late=b"", top=None, key=None, encr=None, over=b""):
    """A re-authentication under the context of the peer's device, with the right checkcode if no other attributes are given;
    the counter, a nonce and more are encrypted, or another list, or there are other attributes."""
    def make(end):
        keys = end.device.contexts.get(end.kind, BLANK).keys
        within = counted(counter) + NONCE + late if inner is None else inner
        attrs = hidden(keys.encr if encr is None else encr, IV, within) if top is None else top
        attrs += own_checkcode(end) if more is None else more
        return sealed(end.kind, keys.aut if key is None else key, REQUEST, next_id(end), 13, attrs, over)
    return make


def renews(text, counter=1, **options):
    """A re-authentication that gives the next identity."""
    return again_request(counter, late=text_attr(133, text), **options)


CHECKED_ASKING = [
    ("a checkcode in it", again_request(more=CHECKCODE)),
    ("an empty checkcode in it", again_request(more=EMPTY_CHECKCODE)),
    ("the checkcode of the last packet alone in it",
     lambda end: again_request(more=checkcode(end.kind, end.packets[-1:]))(end)),
    ("a checkcode and no AT_COUNTER", again_request(inner=NONCE, more=CHECKCODE)),
    ("a checkcode and a counter that isn't open", again_request(0, more=CHECKCODE)),
]
ASKING_AGAIN = [
    ("the right re-authentication", again_request()),
    ("an identity of a re-authentication", renews(NEXT)),
    ("a counter that isn't open", again_request(0)),
    ("a higher counter", again_request(7)),
    ("the last counter", again_request(65535)),
    ("no checkcode, unknown attributes in both places, bytes past Length",
     lambda end: again_request(more=UNKNOWN, late=UNKNOWN)(end) + b"past"),
    ("a counter that isn't open, and no checkcode", again_request(0, more=b"")),
    ("a re-authentication with an encrypted AT_COUNTER_TOO_SMALL", again_request(late=TOO_SMALL)),
    ("no AT_IV", again_request(top=attr(130, b"\0\0" + bytes(16)))),
    ("no AT_ENCR_DATA", again_request(top=sixteen(129, IV))),
    ("no AT_MAC in it", request(13, hidden(bytes(16), IV, counted(1) + NONCE))),
    ("no AT_IV and a wrong AT_MAC", again_request(top=attr(130, b"\0\0" + bytes(16)), key=b"k")),
    ("AT_COUNTER beside AT_ENCR_DATA", again_request(more=counted(1))),
    ("AT_NONCE_S beside AT_ENCR_DATA", again_request(more=NONCE)),
    ("a wrong AT_MAC of it", again_request(key=b"k")),
    ("AT_MAC over AT_NONCE_S too", again_request(over=NONCE[4:])),
    ("a wrong AT_MAC and a checkcode", again_request(key=b"k", more=CHECKCODE)),
    ("a wrong AT_MAC and a counter that isn't open", again_request(0, key=b"k")),
    *CHECKED_ASKING,
    ("no AT_COUNTER", again_request(inner=NONCE)),
    ("no AT_NONCE_S", again_request(inner=counted(1))),
    ("no AT_NONCE_S and a counter that isn't open", again_request(inner=counted(0))),
    *((title, again_request(**options)) for title, options in UNREADABLE),
]


def peer_rows():
    yield from through("peer, waiting for its first request", peer, TO_PEER, PEER_ENDS)
    yield from through("peer, asked for its identity", lambda: peer(0, ASK), TO_PEER, PEER_ENDS)
    yield from through("peer, after a synchronisation failure", lambda: peer(500, ASK, challenge()),
                       TO_PEER + [("the number after its greatest", challenge(501))], PEER_ENDS)
    yield from through("peer, answered", lambda: peer(0, ASK, challenge()), TO_PEER, PEER_ENDS)
    yield from through("peer, refusing", lambda: peer(0, ASK, request(9)), TO_PEER, PEER_ENDS)
    yield from through("peer, ended", lambda: peer(0, ASK, request(9), plain(4)), TO_PEER, PEER_ENDS)
    yield from through("peer with EAP-AKA'", lambda: peer(0, ASK, options=HAS_PRIME), TO_PEER[-2:] + [
        ("AT_BIDDING with D set, an SQN that is too far", challenge(REACH + 1, attr(136, b"\x80\0"))),
        ("the right challenge", challenge())], PEER_ENDS)
    yield from through("peer, attributes of EAP-AKA'", lambda: peer(0, ASK), [
        ("AT_KDF", challenge(more=KDF)), ("AT_KDF_INPUT", challenge(more=text_attr(23, NAME)))])
    yield from through("peer of EAP-AKA', waiting for its first request", lambda: peer(options=PRIME), TO_PEER, PEER_ENDS)
    yield from through("peer of EAP-AKA', asked for its identity", lambda: peer(0, ASK, options=PRIME),
                       TO_PEER + TO_PRIME, PEER_ENDS)
    yield from through("peer of EAP-AKA' without a name", lambda: peer(0, ASK, options=ANY_NAME), TO_PRIME, PEER_ENDS)
    yield from through("peer of EAP-AKA', after a synchronisation failure",
                       lambda: peer(500, ASK, challenge(), options=PRIME),
                       TO_PEER + [("the number after its greatest", challenge(501))], PEER_ENDS)
    yield from through("peer of EAP-AKA', answered", lambda: peer(0, ASK, challenge(), options=PRIME), TO_PEER, PEER_ENDS)
    yield from through("peer of EAP-AKA', refusing", lambda: peer(0, ASK, request(9), options=PRIME), TO_PEER, PEER_ENDS)
    identities = [("an Identity request", ASK)] + [(f"a request {it}", asks(it)) for it in (10, 13, 17)]
    challenges = [("a challenge", challenge(2)), ("a challenge with a pseudonym", gives(LATER, n=2))]
    early = lambda end: message(end.kind, REQUEST, 2, 5, attr(13, b"\0\0"))
    for title, method in ("peer", PLAIN), ("peer of EAP-AKA'", PRIME):
        yield from through(f"{title}, asked for three identities",
                           lambda: peer(0, ASK, asks(13), asks(17), asks(10), options=method), CHALLENGING, PEER_ENDS)
        yield from through(f"{title}, asked for any identity alone", lambda: peer(0, asks(13), options=method),
                           [("the last request again", again), ("an Identity request", ASK), ("the right challenge", challenge())])
        yield from through(f"{title}, a request again after a synchronisation failure",
                           lambda: peer(500, ASK, asks(13), challenge(), early, options=method),
                           [("the number after its greatest", challenge(501))])
        for first, option in ("held", PLAIN), ("permanent", PERMANENT), ("a text", SOMEBODY):
            told_first = option + method
            yield from through(f"{title}, whose first identity is {first}", lambda: peer(0, options=told_first),
                               identities)
            yield from through(f"{title}, whose first identity is {first}, with a pseudonym",
                               lambda: peer(0, ASK, gives(FRESH), plain(3), told_first, options=method), identities)
            yield from through(f"{title}, whose first identity is {first}, asked with a pseudonym",
                               lambda: peer(0, ASK, gives(FRESH), plain(3), told_first, ASK, options=method), challenges)
        given = ASK, gives(FRESH)
        adopted = *given, plain(3), method
        yield from through(f"{title}, the next pseudonym", lambda: peer(
            0, *adopted, asks(17), gives(LATER, n=2), plain(3), method, options=method), identities)
        for name, end in ("no Success", ()), ("a Failure", (plain(4),)), ("a Success of another request", (plain(3, 1),)):
            yield from through(f"{title}, a pseudonym was given and {name} came",
                               lambda: peer(0, *given, *end, method, options=method), identities)
        yield from through(f"{title}, the Challenge after a pseudonym gives none",
                           lambda: peer(0, *adopted, ASK, challenge(2), plain(3), method, options=method), identities)
    yield from through("peer of EAP-AKA' with a pseudonym of EAP-AKA",
                       lambda: peer(0, ASK, gives(FRESH), plain(3), PRIME), identities)
    yield from through("peer with pseudonyms of both methods", lambda: peer(
        0, ASK, gives(FRESH), plain(3), PRIME, ASK, gives(LATER, n=2), plain(3), PLAIN), identities)
    yield from again_peer_rows()
    yield from kept_name_rows()


def again_peer_rows():
    """The rows of peers that are given re-authentication identities and asked under them."""
    right, small = again_request(), again_request(0)
    for title, options, other in ("peer", PLAIN, PRIME), ("peer of EAP-AKA'", PRIME, PLAIN):
        # Each end is made anew for each message, so what it is made of is bound here.
        def made(*before, of=options):
            return lambda: peer(0, *before, options=of)

        def naming(text, n=1, *more):
            return ASK, challenge(n, inner=text_attr(133, text) + b"".join(more)), plain(3)

        held = *naming(AGAIN), options
        asked = *held, ASK
        known = f"{title} with a context"
        yield from story(f"{known}, its identities", made(*held, right, asks(13), asks(17), right, asks(10), right, ASK, right))
        yield from through(f"{known}, asked for its identity", made(*asked), ASKING_AGAIN, PEER_ENDS)
        yield from through(f"{known}, asked for three identities", made(*held, ASK, asks(17), asks(13)),
                           ASKING_AGAIN[:3] + CHECKED_ASKING + [("a challenge", challenge(2))])
        yield from through(f"{known}, after a counter that isn't open", made(*asked, small), [
            ("the last request again", again), *ASKING_AGAIN[:4], ("a challenge", challenge(2)),
            ("a challenge that gives an identity", challenge(2, inner=text_attr(133, NEXT))),
            ("a challenge that was sent before", challenge()), ("a Success", plain(3)), ("a Failure", plain(4)),
            ("a Notification", notification(16384)), ("a request for any identity", asks(13))])
        yield from through(f"{known}, answered", made(*asked, right),
                           (TO_PEER if options == PLAIN else CHALLENGING[:1] + TO_PEER[5:12]) + ASKING_AGAIN[:4])
        yield from story(f"{known}, refusing a re-authentication", made(
            *asked, again_request(key=b"k"), right, again, challenge(2), plain(3), plain(4)))
        yield from story(f"{known} of the other method",
                         made(*naming(AGAIN), other, ASK, right, asks(13), challenge(2), plain(3)))
        yield from story(f"{title} with contexts of both methods", made(
            *naming(AGAIN), other, *naming(NEXT, 2), options, ASK, right, plain(3), other, ASK, renews(AGAIN), plain(3),
            options, ASK, other, ASK, again_request(2), plain(3)))
        for text in b"permanent", b"=" + AGAIN + b"@home", b"=" + AGAIN[:32], b"=" + AGAIN + b"0", b"=" + AGAIN.upper():
            first = f" {text.decode()}"
            yield from story(f"{known}, whose first identity is {text.decode()}", made(
                *held[:-1], first + options, ASK, right, asks(13), again_request(2)))
        for name, before in [
                ("a re-authentication that gave an identity", (*asked, renews(NEXT), plain(3))),
                ("a re-authentication that gave none", (*asked, right, plain(3))),
                ("a re-authentication that gave an identity with a realm", (*asked, renews(NEXT + b"@home"), plain(3))),
                ("a re-authentication that gave an identity of one digit less", (*asked, renews(NEXT[:32]), plain(3))),
                ("a re-authentication that gave a pseudonym", (*asked, again_request(late=text_attr(132, FRESH)), plain(3))),
                ("a re-authentication without Success", (*asked, renews(NEXT))),
                ("a re-authentication with Failure", (*asked, renews(NEXT), plain(4))),
                ("a counter that isn't open, and Failure", (*asked, small, plain(4))),
                ("a counter that isn't open, and a challenge that gave an identity",
                 (*held[:-1], options, ASK, renews(NEXT), plain(3), options, ASK, right, *naming(AGAIN, 2)[1:])),
                ("the last counter", (*asked, renews(NEXT, 65535), plain(3))),
                ("the last counter without Success", (*asked, renews(NEXT, 65535))),
                ("the last two counters",
                 (*asked, renews(NEXT, 65534), plain(3), options, ASK, again_request(65534), renews(AGAIN, 65535), plain(3))),
                ("a session that gave another identity", (*held, *naming(NEXT, 2))),
                ("a session that gave none", (*held, ASK, challenge(2), plain(3))),
                ("a session that gave an identity of one digit more", naming(AGAIN + b"0")),
                ("a session that gave a pseudonym too", naming(AGAIN + b"@home", 1, text_attr(132, FRESH)))]:
            yield from story(f"{title}, after {name}", made(
                *before, options, asks(17), asks(13), right, again_request(2), again_request(65535), plain(3)))


# What a server may give as a pseudonym or as a re-authentication identity: a device keeps a username of 1 to 255 bytes.
LETTERS = b"abcdefghijklmnopqrstuvwxyz"
KEPT_OR_NOT = [
    *((f"{size} bytes", (LETTERS * 40)[:size]) for size in (0, 1, 21, 32, 33, 34, 254, 255, 256, 900)),
    *((f"{size} bytes and a realm", (LETTERS * 10)[:size] + b"@home") for size in (0, 1, 21, 33, 255, 256)),
    ("an `@` alone", b"@"),
    ("21 bytes and a realm with an `@`", LETTERS[:21] + b"@home@there"),
    ("33 bytes, of which one is an `@`", LETTERS[:20] + b"@" + LETTERS[:12]),
    ("bytes of all values", bytes(value for value in range(256) if value != 64)),
    ("21 bytes with a zero behind", LETTERS[:20] + b"\0"),
]


def kept_name_rows():
    """The rows of peers that are given names of each length, with and without a realm, and that send them afterwards."""
    for title, options in ("peer", PLAIN), ("peer of EAP-AKA'", PRIME):
        for name, text in KEPT_OR_NOT:
            yield from story(f"{title}, a pseudonym of {name}", lambda: peer(
                0, ASK, gives(text), plain(3), options, ASK, asks(13), asks(17), challenge(2), plain(3), options=options))
            yield from story(f"{title}, an identity of a re-authentication of {name}", lambda: peer(
                0, ASK, challenge(inner=text_attr(133, text)), plain(3), options, ASK, asks(17), asks(13), again_request(),
                plain(3), options=options))
            yield from story(f"{title}, the next identity of a re-authentication of {name}", lambda: peer(
                0, ASK, challenge(inner=text_attr(133, AGAIN)), plain(3), options, ASK, renews(text), plain(3),
                options, ASK, again_request(2), plain(3), options=options))
        for name, text in KEPT_OR_NOT[6:8]:
            yield from story(f"{title}, both names of {name}", lambda: peer(
                0, ASK, gives(text, text_attr(133, text[::-1])), plain(3), options, ASK, asks(17), options=options))
        whole = KEPT_OR_NOT[2][1]
        for first in whole[:20], whole, whole + b"v":
            yield from story(f"{title} with a context of 21 bytes, whose first identity is a text of {len(first)}", lambda: peer(
                0, ASK, challenge(inner=text_attr(133, whole)), plain(3), f" ={first.decode()}{options}", ASK, again_request(),
                options=options))
        yield from story(f"{title} with a context whose name ends in a zero, whose first identity has none", lambda: peer(
            0, ASK, challenge(inner=text_attr(133, whole[:20] + b"\0")), plain(3), f" ={whole[:20].decode()}{options}", ASK,
            again_request(), options=options))


# A packet of each kind, and one for each fault that a reader finds. Their Identifiers are fixed, so that some are of no request.
PACKETS = [
    ("an Identity request", "0101000501"),
    ("an Identity response", "020100150130303031303130303030303030303031"),
    ("a request for the permanent identity", "0102000c170500000a010000"),
    ("a Notification of failure", "0103000c170c00000c014000"),
    ("a Client-Error", "0202000c170e000016010000"),
    ("an Authentication-Reject", "0202000817020000"),
    ("a Success", "03020004"),
    ("attribute 200 alone", "0102000c17050000c8010000"),
    ("attribute 127", "0102000c170500007f010000"),
    ("an attribute of length 0", "0102000c170500000a000000"),
    ("an attribute past the end", "0102000c170500000a020000"),
    ("AT_PADDING with a byte that isn't zero", "0102001017050000060100010a010000"),
    ("an attribute twice", "01020010170500000a0100000a010000"),
    ("a Length above the bytes", "0102000d170500000a010000"),
    ("three bytes", "010200"),
    ("code 5", "05020004"),
    ("type 3", "0102000503"),
    ("subtype 3", "0102000817030000"),
]
TO_ANY_END = [(title, lambda end, data=bytes.fromhex(digits): data) for title, digits in PACKETS]


def packet_rows():
    """The rows of these packets at ends that wait for their first message, and at servers that wait for the answer to a Challenge."""
    for kind, method in ("", PLAIN), (" of EAP-AKA'", PRIME):
        yield from through(f"peer{kind}, a packet of each kind", lambda: peer(options=method), TO_ANY_END, PEER_ENDS)
        yield from through(f"server{kind}, a packet of each kind", lambda: server(options=method), TO_ANY_END, SERVER_ENDS)
        yield from through(f"server{kind}, a packet of each kind after a Challenge",
                           lambda: server(0, "held", permanent(), options=method), TO_ANY_END, SERVER_ENDS)


def rows():
    """Each line and its answer."""
    yield from server_rows()
    yield from peer_rows()
    yield from packet_rows()
    yield from sim_rows.rows()


def main():
    if sys.argv[1:] not in (["stdin"], ["stdout"]):
        sys.exit(__doc__)
    place = sys.argv[1] == "stdout"
    for row in rows():
        print(row[place])


if __name__ == "__main__":
    run_main(main, __doc__)
