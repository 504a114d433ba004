"""What a session with a foreign end was: its transcript, and a verdict, for tools/foreign.

A verdict rests on what our end answered. Where it names a wrong field, a second implementation, tools/eap,
computes what the field has to be, and tries which other input the foreign end may have used.
"""
from dataclasses import dataclass, field

from eap.attributes import (AT_AUTN, AT_AUTS, AT_CHECKCODE, AT_IDENTITY, AT_KDF_INPUT, AT_MAC, AT_RAND,
                            AT_RES, NAMES, number_in, text_in, values_in)
from eap.keys import Keys
from eap.messages import (AKA, AKA_IDENTITY, CHALLENGE, CLIENT_ERROR, IDENTITY, METHODS, NAK, NOTIFICATION,
                          PRIME, REAUTHENTICATION, REJECT, REQUEST, RESPONSE, SIM, SYNC, checkcode, is_sealed,
                          lacking, name_of_subtype, right_mac, within)
from eap.milenage import xor
from eap.names import username
from foreign_ours import Answer
from report_packets import parts_of
from transcript import name_of, other

TITLES = {"aka": "EAP-AKA", "prime": "EAP-AKA'", "sim": "EAP-SIM"}
FULL, AFTER_SYNC, AGAIN = "full authentication", "full authentication after a resynchronisation", "re-authentication"
KINDS = {"full": FULL, "sync": AFTER_SYNC, "reauth": AGAIN, "any": ""}
EQUAL, DIFFERENT, UNSEEN, FAILED = "equal keys", "keys differ", "keys unseen", "fails"
# The field that each cause of our end is about, in the packet of the foreign end that it refuses.
FIELDS = {"wrongautn": "AT_AUTN", "wrongmac": "AT_MAC", "wrongcheckcode": "AT_CHECKCODE", "badname": "AT_KDF_INPUT",
          "badkdf": "AT_KDF", "noseparation": "AT_AUTN", "downgrade": "AT_BIDDING", "undecryptable": "AT_ENCR_DATA",
          "wrongres": "AT_RES", "wrongcounter": "AT_COUNTER", "badauts": "AT_AUTS", "secondsync": "AT_AUTS",
          "beyond": "AT_AUTS", "unknownidentity": "identity", "notforme": "Code or Identifier", "othertype": "Type",
          "unexpected": "Subtype", "nocontext": "identity"}
# The fields that stand in the line of a packet's name.
HEAD = ("Code", "Identifier", "Length", "Type", "Subtype", "Reserved")
REASONS = {
    "secondsync": "a second AUTS came in one session",
    "beyond": "its SEQ_MS is further below our number than a USIM accepts",
    "unknownidentity": "it names no subscriber of ours",
    "wrongcounter": "it isn't the counter of the request, or can't be read",
    "noseparation": "the separation bit, the top bit of AMF, is clear",
    "downgrade": "the server tells that it has EAP-AKA', and so does our device",
    "undecryptable": "its plaintext can't be read under K_encr",
    "unexpected": "our end doesn't wait for this message",
    "nocontext": "our device has told another identity than that of its context, or has none",
}


def fields_of(data):
    """The fields of a packet, as `parts_of` has them, also of bytes that are no packet."""
    data = within(data)
    return parts_of(data) if len(data) >= 4 else [["not a packet", 0, len(data), ""]]


@dataclass
class Packet:
    number: int
    sender: str
    data: bytes
    # What our end answered to it, if the foreign end sent it.
    answer: Answer | None = None
    # Whether the tool made it, in place of an access point, or to have our end tell its cause.
    made: bool = False

    @property
    def kind(self):
        return self.data[4] if len(self.data) > 4 and self.data[0] in (REQUEST, RESPONSE) else 0

    @property
    def subtype(self):
        return self.data[5] if self.kind in METHODS and len(self.data) > 5 else 0

    @property
    def attributes(self):
        return values_in(within(self.data)[8:]) if self.subtype else {}

    @property
    def is_ignored(self):
        return self.answer is not None and self.answer.step == "ignored"

    def text(self):
        return f"packet {self.number}, {name_of(self.data) or 'no EAP'} of the {self.sender}"


@dataclass
class Session:
    """A session: `role` is our end, and `where` says what the foreign end is."""
    number: int
    role: str
    method: str
    where: str
    packets: list = field(default_factory=list)
    answers: list = field(default_factory=list)
    remarks: list = field(default_factory=list)
    # The foreign end's MSK, if it is known.
    msk: bytes | None = None
    # Why no packet came any more, if none did.
    silence: str = ""
    # Whether a foreign server accepted the session.
    accepted: bool | None = None

    @property
    def foreign(self):
        return other(self.role)

    def add(self, sender, data, answer=None, made=False):
        self.packets.append(Packet(len(self.packets) + 1, sender, data, answer, made))

    def began(self, answer):
        """Our end began the session; a server sends its first request."""
        self.answers.append(answer)
        if answer.packet:
            self.add(self.role, answer.packet)

    def hear(self, end, data, made=False):
        """Hands our end a packet: its answer."""
        answer = end.tell(f"bytes {data.hex()}")
        self.add(self.foreign, data, answer, made)
        self.answers.append(answer)
        if answer.packet:
            self.add(self.role, answer.packet)
        return answer

    def give_up(self, end):
        # An end of EAP-SIM has nothing to give up.
        if not self.end and self.method != "sim":
            self.answers.append(end.tell("giveup"))

    @property
    def end(self):
        """The answer with which our end ended."""
        return next((it for it in self.answers if it.has_ended), None)

    @property
    def notes(self):
        return [note.split() for answer in self.answers for note in answer.notes]

    @property
    def kind(self):
        words = {note[0]: note[1:] for note in self.notes}
        if "resumed" in words or "counter" in words:
            return f"{AGAIN} {(words.get('resumed') or words['counter'])[0]}"
        return AFTER_SYNC if {"moved", "inrange", "sync"} & words.keys() else FULL

    def last(self, sender):
        return next((it for it in reversed(self.packets) if it.sender == sender and not it.made), None)

    def before(self, packet, sender):
        """The last packet of a sender before this one."""
        earlier = self.packets[:packet.number - 1] if packet else self.packets
        return next((it for it in reversed(earlier) if it.sender == sender), None)


@dataclass
class Difference:
    """Which end is at odds, in which packet, and in which field."""
    end: str
    packet: Packet | None
    field: str
    text: str

    def __str__(self):
        where = self.packet.text() if self.packet else f"the {self.end}"
        return f"{where}, {self.field}: {self.text}" if self.field else f"{where}: {self.text}"


# ---- the second implementation

def sum_of(packet, keys):
    """The code that AT_MAC of a message has to have."""
    return right_mac(packet.kind, keys.aut, within(packet.data))


def identity_of(packet):
    """The identity that a response tells, or nothing."""
    if packet.kind == IDENTITY and packet.data[0] == 2:
        return packet.data[5:]
    value = packet.attributes.get(AT_IDENTITY)
    return None if value is None else text_in(value)


class Judge:
    """What the packets of a session have to be, by K and OPc of the subscriber."""

    def __init__(self, subscriber, network):
        self.subscriber, self.network = subscriber, network.encode()

    def challenge_before(self, session, packet):
        """The last challenge up to a packet that has RAND and AUTN."""
        for it in reversed(session.packets[:packet.number] if packet else session.packets):
            found = it.attributes
            if it.kind != SIM and it.subtype == CHALLENGE and it.data[0] == 1 and len(found.get(AT_RAND, b"")) == len(found.get(AT_AUTN, b"")) == 18:
                return it
        return None

    def guesses(self, session, challenge):
        """The keys of the last identity and the challenge's network name; then those of other inputs, each with its name."""
        found, kind = challenge.attributes, challenge.kind
        rand, autn = found[AT_RAND][2:], found[AT_AUTN][2:]
        told = [identity_of(it) for it in reversed(session.packets[:challenge.number])]
        identities = [it for it in told if it is not None] or [b""]
        others = [self.subscriber.permanent(kind), self.subscriber.imsi.encode()]
        others.append(self.subscriber.permanent(AKA + PRIME - kind))
        others += [username(it) for it in identities if b"@" in it]
        names = [text_in(found[AT_KDF_INPUT]) if AT_KDF_INPUT in found else b"", *([self.network, b""] if kind == PRIME else [])]
        f = self.subscriber.functions(rand)
        for name in dict.fromkeys(names):
            for identity in dict.fromkeys([*identities, *others]):
                what = f"the identity {identity.decode(errors='replace')}"
                what += f" and the network name '{name.decode(errors='replace')}'" if kind == PRIME else ""
                yield what, Keys(kind, name, identity, autn, f)

    def keys(self, session, packet=None):
        """The keys of the last challenge up to a packet; nothing if there is none."""
        challenge = self.challenge_before(session, packet)
        return challenge and next((keys for _, keys in self.guesses(session, challenge)), None)

    def fitting(self, session, packet, is_right):
        """Of the guesses the first that is right: whether it is the first of all, and what it is made from."""
        challenge = self.challenge_before(session, packet)
        for place, (what, keys) in enumerate(self.guesses(session, challenge) if challenge else ()):
            if is_right(keys):
                return place == 0, what
        return None

    def is_mac_right(self, session, packet):
        """Whether AT_MAC of a message of a full authentication is right; nothing if that can't be told."""
        keys = self.keys(session, packet)
        if packet.subtype != CHALLENGE or not keys or len(packet.attributes.get(AT_MAC, b"")) != 18:
            return None
        return is_sealed(packet.kind, keys.aut, within(packet.data))

    def is_autn_right(self, challenge):
        """Whether MAC-A of a challenge is right."""
        found = challenge.attributes
        return self.subscriber.functions(found[AT_RAND][2:]).is_right(found[AT_AUTN][2:])

    # ---- what a field has to be

    def of_mac(self, session, packet):
        if packet.subtype == REAUTHENTICATION:
            return "it isn't that of the context's K_aut"
        found, keys = packet.attributes[AT_MAC][2:], self.keys(session, packet)
        if not keys:
            return f"it is {found.hex()}"
        fits = self.fitting(session, packet, lambda it: sum_of(packet, it) == found)
        wanted = f"it is {found.hex()}, and has to be {sum_of(packet, keys).hex()}"
        return f"{wanted}; it fits {fits[1]}" if fits and not fits[0] else f"{wanted}; no other input that was tried fits"

    def of_autn(self, session, packet):
        found = packet.attributes
        rand, autn = found[AT_RAND][2:], found[AT_AUTN][2:]
        f = self.subscriber.functions(rand)
        sqn = f.sqn_of(autn)
        told = f"with the SQN {sqn.hex()} and the AMF {autn[6:8].hex()} that AUTN then has"
        wanted = f.f1(sqn, autn[6:8])[0].hex()
        return f"MAC-A is {autn[8:].hex()}, and by our K and OPc, {told}, it has to be {wanted}: compare K and OPc"

    def of_res(self, session, packet):
        challenge = self.challenge_before(session, packet)
        value = packet.attributes[AT_RES]
        size = number_in(value)
        found = value[2:2 + size // 8].hex()
        if not challenge:
            return f"it is {found}"
        wanted = self.subscriber.functions(challenge.attributes[AT_RAND][2:]).res.hex()
        return f"it is {found} ({size} bits), and has to be {wanted}"

    def of_auts(self, session, packet):
        challenge, auts = self.challenge_before(session, packet), packet.attributes[AT_AUTS]
        f = self.subscriber.functions(challenge.attributes[AT_RAND][2:])
        sqn = xor(auts[:6], f.ak_star)
        told, wanted = f"with the AMF 0000 and the SQN_MS {sqn.hex()} that AUTS then has", f.f1(sqn, bytes(2))[1].hex()
        return f"MAC-S is {auts[6:].hex()}, and by our K and OPc, {told}, it has to be {wanted}"

    def of_checkcode(self, session, packet):
        """The hash over the packets of AKA-Identity rounds that both ends took (RFC 4187 §10.13)."""
        taken = [it for it in session.packets[:packet.number] if it.subtype == AKA_IDENTITY and not it.is_ignored]
        wanted = checkcode(packet.kind, dict.fromkeys(within(it.data) for it in taken))[4:].hex() or "empty"
        return f"it is {packet.attributes[AT_CHECKCODE][2:].hex() or 'empty'}, and has to be {wanted}"

    def of_functions(self, session, packet):
        told = [meaning for name, _, _, meaning in fields_of(packet.data) if name == "AT_KDF"]
        return f"it says {' and '.join(told)}, and our peer takes 1 alone" if told else "it isn't there"

    def of_name(self, session, packet):
        value = packet.attributes.get(AT_KDF_INPUT)
        return f"it is {shown(text_in(value))}, and ours is {shown(self.network)}" if value is not None else "it isn't there"


def shown(text):
    return f"'{text.decode(errors='replace')}'"


# ---- which end differs

def form_of(packet):
    """Where the form of a packet breaks, as far as that can be seen."""
    if not name_of_subtype(packet.kind, packet.subtype):
        return f"the subtype {packet.subtype} isn't known"
    if packet.data[0] == 1 and packet.subtype in (REJECT, SYNC, CLIENT_ERROR):
        return "a server doesn't send this message"
    for name, start, _, _ in fields_of(packet.data):
        if name == "not an attribute":
            return f"from byte {start} on there is no attribute: a length is 0, or goes beyond the packet"
        if name.startswith("attribute ") and int(name.split()[1]) < 128:
            return f"{name} isn't known, and isn't one of those that may be skipped"
    return "an attribute has a wrong size or value, comes twice, or may not stand in this message"


def lacking_text(packet):
    if packet.subtype == AKA_IDENTITY and packet.data[0] == 1:
        return "exactly one of AT_PERMANENT_ID_REQ, AT_ANY_ID_REQ and AT_FULLAUTH_ID_REQ"
    names = [NAMES[it] for it in lacking(packet.data[0], packet.subtype, packet.attributes)]
    return " and ".join(names) or "what the message needs"


def why(judge, session, packet, cause):
    """What is wrong with a packet of the foreign end, by the cause of our end."""
    computed = {"wrongmac": judge.of_mac, "wrongautn": judge.of_autn, "wrongres": judge.of_res, "badauts": judge.of_auts,
                "badname": judge.of_name, "badkdf": judge.of_functions, "wrongcheckcode": judge.of_checkcode}
    if cause in computed:
        return computed[cause](session, packet)
    if cause == "unknownidentity":
        return f"{shown(identity_of(packet) or b'')} names no subscriber of ours"
    if cause == "notforme":
        asked = session.before(packet, session.role)
        return f"they are {packet.data[:2].hex()}, and our last packet has the Identifier {asked.data[1]:02x}" if asked else ""
    if cause == "othertype" and packet.kind == NAK:
        return f"the peer refuses the method by a Nak, and wants type {' or '.join(map(str, packet.data[5:])) or 'none'}"
    return REASONS.get(cause, f"it is {packet.kind}, and our end waits for another one" if cause == "othertype" else cause)


def opinion(judge, session, packet):
    """What the second implementation finds of a packet of ours that the foreign end refuses."""
    right = judge.is_mac_right(session, packet) if packet else None
    if right is None:
        return ""
    has_autn = packet.data[0] == 1
    if not right or has_autn and not judge.is_autn_right(packet):
        return "; the second implementation finds other codes in this packet than our end: our end may err"
    codes = "AT_AUTN and AT_MAC" if has_autn else "AT_MAC"
    return f"; by our K, OPc and names the second implementation finds its {codes} right, so the other end has other ones, or errs"


def refused_by_foreign(judge, session, packet, text):
    """A difference that the foreign end tells about our last packet before one of its packets."""
    mine = session.before(packet, session.role)
    about = f" after {mine.text()}" if mine else ""
    return Difference(session.foreign, packet, "", f"{text}{about}{opinion(judge, session, mine)}")


def told_by_foreign(judge, session, cause, number):
    """The difference if the foreign end refused, by the cause that our end names; else nothing."""
    ending = (it for it in session.packets if it.answer and it.answer.has_ended and not it.made)
    last = next(ending, session.last(session.foreign))
    if cause == "rejected":
        fields = "AT_AUTN" if session.method == "aka" else "AT_AUTN, AT_KDF or AT_KDF_INPUT"
        return refused_by_foreign(judge, session, last, f"the peer refuses {fields}")
    if cause == "clienterror":
        return refused_by_foreign(judge, session, last, f"the peer can't take the packet, Client-Error {number}")
    if cause == "notified":
        told = next((it for it in session.packets if it.sender == "server" and it.subtype == NOTIFICATION), last)
        return refused_by_foreign(judge, session, told, f"the server tells the failure {number}")
    if cause == "failurereceived" and last and last.data[:1] == b"\4":
        return refused_by_foreign(judge, session, last, "the server ends the session")
    return None


def refused_packet(session):
    """The packet of the foreign end that our end refused first, or ignored last."""
    for it in session.packets:
        answer = it.answer
        if answer and not it.made and (refuses(answer.packet) or answer.step == "failure"):
            return it
    return next((it for it in reversed(session.packets) if it.is_ignored), session.last(session.foreign))


def refuses(data):
    """Whether our end refuses by a packet: by Authentication-Reject, Client-Error or a Notification."""
    return Packet(0, "", data).subtype in (REJECT, CLIENT_ERROR, NOTIFICATION)


def difference(judge, session):
    """Which end differs, where a session failed."""
    cause, *numbers = (session.end.cause if session.end else "").split() or [""]
    ignored = next((it for it in reversed(session.packets) if it.is_ignored), None)
    if found := told_by_foreign(judge, session, cause, " ".join(numbers)):
        return found
    if cause in ("", "givenup") and ignored and not ignored.made:
        cause = ignored.answer.cause
    if cause in ("exhausted", "stopped"):
        return Difference(session.role, None, "", f"our centre has no number: {cause} {' '.join(numbers)}")
    packet = refused_packet(session)
    if cause in ("", "givenup", "failurereceived") or packet is None:
        return silent(session)
    if cause == "malformed":
        return Difference(session.foreign, packet, "", form_of(packet))
    if cause == "missing":
        return Difference(session.foreign, packet, lacking_text(packet), "it isn't there")
    return Difference(session.foreign, packet, FIELDS.get(cause, ""), why(judge, session, packet, cause))


def silent(session):
    last = session.packets[-1] if session.packets else None
    about = f"; the last packet is {last.text()}" if last else ""
    return Difference(session.foreign, None, "", f"{session.silence or 'it sends nothing more'}{about}")


def difference_of_keys(judge, session):
    """Which end's MSK the second implementation has, and from what the other one may be made."""
    ours, theirs = session.end.msk, session.msk
    halves = [name for name, at in (("first", 0), ("second", 32)) if ours[at:at + 32] != theirs[at:at + 32]]
    text = f"MSK differs in its {' and its '.join(halves)} 32 bytes; the {session.foreign}'s is {theirs.hex()}, ours {ours.hex()}"
    if session.kind.startswith(AGAIN):
        return Difference(session.foreign, None, "", text)
    fits = judge.fitting(session, None, lambda keys: keys.words[3] == theirs)
    keys = judge.keys(session)
    if keys and keys.words[3] == ours:
        guess = f", and the other one fits {fits[1]}" if fits else ", and the other one fits no input that was tried"
        return Difference(session.foreign, None, "", f"{text}; the second implementation has ours{guess}")
    if fits and fits[0]:
        return Difference(session.role, None, "", f"{text}; the second implementation has the {session.foreign}'s: our end may err")
    return Difference(session.foreign, None, "", f"{text}; the second implementation has neither")


# ---- the verdict

@dataclass
class Verdict:
    word: str
    text: str
    is_expected: bool

    def __str__(self):
        return f"{self.word}: {self.text}"


def verdict_of(judge, session, expected="", needs_keys=True):
    """The verdict on a session that has to be of a kind, if one is named."""
    if not session.end or session.end.step != "success":
        return Verdict(FAILED, str(difference(judge, session)), False)
    if session.accepted is False:
        text = f"the {session.foreign} refuses, and our {session.role} succeeds"
        return Verdict(FAILED, text, False)
    if session.msk is None:
        text = f"{session.kind}; our {session.role} succeeds, and the {session.foreign}'s MSK isn't known"
        return Verdict(UNSEEN, *with_kind(session, text, expected, not needs_keys))
    if session.msk != session.end.msk:
        return Verdict(DIFFERENT, str(difference_of_keys(judge, session)), False)
    return Verdict(EQUAL, *with_kind(session, session.kind, expected, True))


def with_kind(session, text, expected, is_right):
    if not expected or session.kind == expected or expected == AGAIN and session.kind.startswith(AGAIN):
        return text, is_right
    return f"{text}, and a {expected} was expected", False


# ---- the transcript

def arrow(packet):
    return "server -> peer" if packet.sender == "server" else "peer -> server"


def lines_of(session):
    """A transcript, a line for each packet, for each of its fields and for each answer of our end."""
    yield f"session {session.number}: {TITLES[session.method]}, our {session.role} with {session.where}"
    for packet in session.packets:
        made = " (made by this tool)" if packet.made else ""
        yield f"  {packet.number:>2} {arrow(packet)}  {name_of(packet.data) or 'no EAP'}{made}"
        yield f"       {packet.data.hex()}"
        for name, start, end, meaning in fields_of(packet.data):
            if name not in HEAD:
                yield f"       {name}  {meaning or packet.data[start:end].hex()}"
        if packet.answer:
            yield f"       our {session.role}: {spoken(packet.answer)}"
    for remark in session.remarks:
        yield f"     {remark}"
    if session.end and session.end.msk:
        yield f"     MSK of our {session.role}     {session.end.msk.hex()}"
    if session.msk:
        yield f"     MSK of the foreign {session.foreign} {session.msk.hex()}"


def spoken(answer):
    """An answer in the words of auc_ends_cli, without the bytes."""
    steps = {"success": ["ended success"], "failure": ["ended failure", answer.cause], "ignored": ["ignored", answer.cause]}
    return " ".join([*answer.notes, *steps.get(answer.step, [answer.step])])
