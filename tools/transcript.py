"""Reads a transcript, which is what `auc run` prints: its sessions, their events and packets. tools/pcap, tools/chart and
tools/report show it; tools/transcript_lines.py has its other lines.

A packet's number counts the packets of its job, and a session's number is its own in the whole transcript. The session of a `sim`
line has packets of its own, which count from 1, and is called `sim1`, `sim2` and so on, as the transcript has them.
"""
import os
import re
import sys
from dataclasses import dataclass, field

from eap.attributes import (AT_COUNTER, AT_COUNTER_TOO_SMALL, AT_ENCR_DATA, AT_IDENTITY, AT_IV,
                            AT_NEXT_PSEUDONYM, AT_NEXT_REAUTH_ID, AT_NONCE_S, AT_PADDING, ID_REQUESTS, NAMES,
                            text_in, values_in)
from eap.ciphers import decrypted
from eap.messages import CODES, IDENTITY, METHODS, SIM, name_of_subtype
from eap.names import username
from ends import needs_python

needs_python(3, 10)

# How many words follow the first one of a note, and the ends that they come from.
CENTRE_NOTES = {"moved": 2, "inrange": 2, "beyond": 2, "drew": 1, "exhausted": 1, "withheld": 2}
OWN_NOTES = {"badauts": 0, "resumed": 1, "accepted": 1, "sync": 1, "wrongmac": 0, "counter": 1, "small": 1}
NOTES = CENTRE_NOTES | OWN_NOTES
# The name of the session of a `sim` line.
SIM_NAME = r"sim[1-9][0-9]*"
# The first words of the lines that tell nothing of a session's packets.
OTHER_LINES = {"restart", "vector", "withheld", "exhausted", "sync", "give", "kasme", "hxresstar", "fiveg", "seaf", "sites"}
# Of an event's line, the words before its notes.
EVENTS = {"start": 2, "repeat": 2, "giveup": 3, "deliver": 4}
# Of a line on a packet that the network changes, the words before what came of it.
CHANGES = {"tamper": 4, "cut": 3}
REFUSALS = {"nosuchpacket", "nosuchend", "started"}
# The bytes that the length of an EAP packet can tell (RFC 3748 §4).
LONGEST_PACKET = 65535
ENDS = ("server", "peer")
# What an identity is, by the form of its username (RFC 4186 §4.2.1.6, RFC 4187 §4.1.1.6 and §4.1.1.7, RFC 9048 §5.1).
FORMS = {"permanent": rb"[016][0-9]{6,15}", "pseudonym": rb"[27][0-9a-f]{32}", "re-authentication": rb"[48][0-9a-f]{32}"}
# How the value of an encrypted attribute is shown.
ENCRYPTED = {
    AT_COUNTER: lambda value: f"AT_COUNTER {int.from_bytes(value, 'big')}",
    AT_COUNTER_TOO_SMALL: lambda value: "AT_COUNTER_TOO_SMALL",
    AT_NONCE_S: lambda value: f"AT_NONCE_S {value[2:].hex()}",
    AT_NEXT_PSEUDONYM: lambda value: f"AT_NEXT_PSEUDONYM {text_in(value).decode(errors='replace')}",
    AT_NEXT_REAUTH_ID: lambda value: f"AT_NEXT_REAUTH_ID {text_in(value).decode(errors='replace')}",
}


class Unreadable(Exception):
    """Why a text is no transcript."""


@dataclass
class Packet:
    number: int
    session: "Session"
    sender: str
    event: "Event | Change"
    data: bytes | None = None
    # The events that deliver it.
    deliveries: list = field(default_factory=list)
    # The number of the first packet of its session and sender that has its bytes, if that is another one.
    original: int | None = None
    # If the network made it, the packet that it is a changed copy of. It has that one's session and sender, and its event is the
    # `Change` that made it.
    source: "Packet | None" = None


@dataclass
class Event:
    line: int
    text: str
    word: str
    session: "Session"
    # The end that acts: the server for `start` and `repeat`.
    end: str
    delivered: Packet | None = None
    # Whether the packet reaches an end.
    arrives: bool = False
    notes: list = field(default_factory=list)
    sent: Packet | None = None
    # What is left of the line: `ended success`, `ignored closed`, `nosuchpacket`; nothing if a packet is all that came.
    step: str = ""
    # With a full print: RAND, AUTN, XRES, CK and IK of the number that was drawn; AUTS of a synchronisation failure and the RAND
    # that it answers; K_encr, K_aut, K_re, MSK and EMSK of the end.
    vector: list | None = None
    failure: list | None = None
    keys: list | None = None


@dataclass
class Change:
    """A line on a packet that the network changes."""
    line: int
    text: str
    # What it does, such as `tamper 3 48 7f`.
    deed: str
    # The packet, if there is one, and its changed copy; or why there is no copy.
    source: Packet | None
    sent: Packet | None = None
    step: str = ""


@dataclass
class Session:
    # A number, or the name of the session of a `sim` line.
    number: int | str
    round: int
    job: int
    # The packets of its network: all of its job, or, of a `sim` line, its own.
    network: list
    # The subscriber of a `sim` line, which the line names, and the vectors of its job; nothing for other sessions.
    imsi: str = ""
    vectors: dict = field(default_factory=dict)
    events: list = field(default_factory=list)
    # The packets that its ends sent. Those that the network made of them, and the lines that say so, are apart.
    packets: list = field(default_factory=list)
    changed: list = field(default_factory=list)
    changes: list = field(default_factory=list)
    verdict: str = ""
    # The only subscriber whose number moved in its round, and the only one up to the end of its round; nothing if there are several.
    only_moved: str = ""
    only_ever: str = ""
    # How many bits the subscriber's IND has.
    bits: int = 5
    # The key of what is encrypted in the session since its last challenge or resumption, if the server succeeded in a full
    # print.
    k_encr: bytes | None = None


@dataclass
class Job:
    packets: list = field(default_factory=list)
    # With a full print: AUTN, XRES, CK and IK of the vectors that its lines released, by their RANDs.
    vectors: dict = field(default_factory=dict)
    sessions: dict = field(default_factory=dict)


def other(end):
    return ENDS[1 - ENDS.index(end)]


def name_of(data):
    """What a packet is called in RFC 3748, RFC 4186, RFC 4187 and RFC 9048; nothing if its bytes aren't known."""
    code = CODES.get(data[0], "") if data else ""
    if data is None or len(data) < 5 or code not in ("Request", "Response"):
        return code
    if data[4] in METHODS and len(data) > 5 and name_of_subtype(data[4], data[5]):
        return f"{code}/{METHODS[data[4]]}-{name_of_subtype(data[4], data[5])}"
    return f"{code}/Identity" if data[4] == IDENTITY else f"{code}/type {data[4]}"


def attributes_of(packet):
    """Those of a message of a method."""
    data = packet.data or b""
    return values_in(data[8:]) if len(data) > 8 and data[4] in METHODS else {}


def identity_in(packet):
    """The identity that a response tells; nothing if it tells none."""
    data = packet.data or b""
    if name_of(data) == "Response/Identity":
        return data[5:]
    value = attributes_of(packet).get(AT_IDENTITY)
    return None if value is None else text_in(value)


def encrypted_in(packet):
    """The attributes that a message has encrypted, as `values_in` has them, if their key is known. Under the key of another
    challenge they don't read as any."""
    found, key = attributes_of(packet), packet.session.k_encr
    if key is None or len(found.get(AT_IV, b"")) != 18 or len(found.get(AT_ENCR_DATA, b"")) % 16 != 2:
        return {}
    inner = values_in(decrypted(key, found[AT_ENCR_DATA][2:], found[AT_IV][2:]))
    return inner if inner.keys() <= ENCRYPTED.keys() | {AT_PADDING} else {}


def shown_in(packet):
    """What a message has encrypted, an attribute a line."""
    return [ENCRYPTED[kind](value) for kind, value in encrypted_in(packet).items() if kind != AT_PADDING]


def marks_of(packet):
    """What a message asks for, which kind of identity it tells, and that it has encrypted something; each if it is so."""
    found, identity = attributes_of(packet), identity_in(packet)
    marks = [NAMES[kind] for kind in ID_REQUESTS if kind in found]
    if identity is not None:
        marks += [kind for kind, form in FORMS.items() if re.fullmatch(form, username(identity))]
    return marks + (["AT_ENCR_DATA"] if AT_ENCR_DATA in found else [])


def is_brief(session):
    """Whether a session's packets have no bytes, as in a brief print."""
    return bool(session.packets) and all(packet.data is None for packet in session.packets)


def methods_of(session):
    """The methods of a session's packets; none if none of them is of a method, or if their bytes aren't known."""
    if session.imsi:
        return [f"EAP-{METHODS[SIM]}"]
    kinds = {packet.data[4] for packet in session.packets if len(packet.data or b"") > 5 and packet.data[0] in (1, 2)}
    return [f"EAP-{name}" for kind, name in METHODS.items() if kind in kinds]


def subscriber_of(session):
    """The IMSI of a session's subscriber; nothing if the transcript doesn't tell it.

    A session that draws a number has a subscriber whose number moves in its round. One that takes up a context has a subscriber
    whose number moved in its round or before. Else the subscriber is the one whose permanent identity the peer told last. A `sim`
    line names its own."""
    if session.imsi:
        return session.imsi
    notes = {note.split()[0] for event in session.events for note in event.notes}
    if "drew" in notes and session.only_moved:
        return session.only_moved
    if "resumed" in notes and session.only_ever:
        return session.only_ever
    told = [identity_in(packet) or b"" for packet in session.packets if packet.sender == "peer"]
    names = [username(identity) for identity in told]
    permanent = [name for name in names if re.fullmatch(FORMS["permanent"], name)]
    return permanent[-1][1:].decode() if permanent else ""


def index_bits(sqns):
    """How many bits IND has in the SQNs of a subscriber, which are given by their 12 hexadecimal digits. A transcript doesn't say it;
    but in the centre's SQNs IND is the remainder of SEQ. It is the usual 5 bits if that is so in most of them."""
    values = [int(it, 16) for it in sqns]
    fit = {bits: sum(it % 2**bits == (it >> bits) % 2**bits for it in values) for bits in (5, 6, 4, 3, 2, 1, 0)}
    return next(bits for bits, count in fit.items() if 2 * count > len(values) or not values)


def seq_of(sqn, bits):
    """The number that an SQN has, which is given by its 12 hexadecimal digits (TS 33.102 Annex C.1.1)."""
    return int(sqn, 16) >> bits


def sqns_in(session):
    """The SQNs that a session's USIM told."""
    notes = [note.split() for event in session.events for note in event.notes]
    return [note[1] for note in notes if note[0] in ("accepted", "sync")]


def find_bits(sessions):
    """Tells each session how many bits IND has, by the SQNs of all sessions of its subscriber."""
    groups = {}
    for session in sessions:
        groups.setdefault(subscriber_of(session) or session.number, []).append(session)
    for group in groups.values():
        bits = index_bits([sqn for session in group for sqn in sqns_in(session)])
        for session in group:
            session.bits = bits


def rows_in(session):
    """The events of a session and the changes of its packets, in the order of their lines."""
    return sorted([*session.events, *session.changes], key=lambda it: it.line) if session.changes else session.events


class Reader:
    def __init__(self):
        # All sessions by their numbers, in the order in which they are opened.
        self.sessions, self.round, self.job_number, self.job, self.event = {}, 0, 0, None, None
        # The line before, if it changes a packet.
        self.change = None
        # Whether the line before is a `give` line with a synchronisation failure.
        self.refused = False
        # The session of the last `sim` line of the job, and how many sessions of such lines there are.
        self.sim, self.sims = None, 0
        # The sessions of the round, and the subscribers whose numbers moved in it and up to it.
        self.opened, self.moved, self.ever = [], set(), set()

    def number(self, word):
        if not re.fullmatch(r"[0-9]{1,20}", word):
            raise Unreadable(f"{word!r} isn't a number")
        return int(word)

    def session(self, word):
        found = self.job and self.job.sessions.get(self.number(word))
        if not found:
            raise Unreadable(f"session {word} isn't open in this job")
        return found

    def read(self, line, text):
        words = text.split(" ")
        word, change, refused = words[0], self.change, self.refused
        self.change, self.refused = None, word == "give" and words[3:4] == ["sync"]
        if word in ("round", "job") and len(words) == 2:
            self.begin(word, self.number(words[1]))
        elif word == "session" and len(words) == 3 and words[2] in ("open", "agree", "differ"):
            self.open_or_judge(words)
        elif word == "packet" and len(words) == 3:
            self.bytes_of_packet(words, change)
        elif word == "bytes" and len(words) == 6:
            self.bytes_of_vector(words)
        elif word == "auts" and len(words) == 3:
            self.auts(words, refused)
        elif word == "keys" and len(words) == 6:
            self.keys(words)
        elif word in EVENTS and len(words) > EVENTS[word]:
            self.read_event(line, text, words)
        elif word in CHANGES and len(words) > CHANGES[word]:
            self.read_change(line, text, words)
        elif word == "sim" and len(words) > 2:
            self.read_sim(line, text, words)
        elif word == "closed" and len(words) > 1:
            self.event = None
            self.moved.add(words[1])
        elif words[:2] in (["premise", "held"], ["premise", "broken"]):
            self.event = None
            self.end_round()
        elif word in OTHER_LINES:
            self.event = None
        else:
            raise Unreadable(f"{text[:60]!r} is no line of a transcript")

    def begin(self, word, number):
        if word == "round":
            self.round, self.job = number, None
            self.opened, self.moved = [], set()
        else:
            self.job_number, self.job, self.sim = number, Job(), None

    def end_round(self):
        """A round's subscribers are known at its last line, and not if the transcript ends before it."""
        self.ever |= self.moved
        for session in self.opened:
            session.only_moved = "".join(self.moved) if len(self.moved) == 1 else ""
            session.only_ever = "".join(self.ever) if len(self.ever) == 1 else ""

    def open_or_judge(self, words):
        number = self.number(words[1])
        if words[2] != "open":
            if number not in self.sessions:
                raise Unreadable(f"session {number} was never opened")
            self.sessions[number].verdict = words[2]
        elif self.job is None:
            raise Unreadable("a session is opened outside of a job")
        else:
            session = Session(number, self.round, self.job_number, self.job.packets)
            self.job.sessions[number] = self.sessions[number] = session
            self.opened.append(session)

    def bytes_of_packet(self, words, change):
        """A packet that is sent has 4 bytes at least. The network may leave none of a copy. No packet has more than its length can
        tell."""
        event, least = (change, 0) if change else (self.event, 4)
        packet = event and event.sent
        form = rf"([0-9a-f]{{2}}){{{least},{LONGEST_PACKET}}}"
        if not packet or packet.number != self.number(words[1]) or not re.fullmatch(form, words[2]):
            raise Unreadable("the bytes aren't those of the packet that was sent before")
        packet.data = bytes.fromhex(words[2])

    def bytes_of_vector(self, words):
        """Those of a session's number. The bytes after a line `vector` are of no event, and may be those of a triplet."""
        if not all(re.fullmatch(r"([0-9a-f]{2})+", word) for word in words[1:]):
            raise Unreadable("the bytes aren't those of a vector")
        if self.event:
            self.event.vector = words[1:]
        elif self.job:
            self.job.vectors[words[1]] = words[2:]

    def auts(self, words, refused):
        """AUTS of the line before, and the RAND that it answers. That of a `give` line is of no event."""
        if not re.fullmatch(r"[0-9a-f]{28} [0-9a-f]{32}", " ".join(words[1:])):
            raise Unreadable("the bytes aren't those of an AUTS and a RAND")
        if refused:
            return
        event = self.event
        if not event or event.failure or event.sent and event.sent.data or not any(note.startswith("sync ") for note in event.notes):
            raise Unreadable("the AUTS is of no synchronisation failure")
        event.failure = words[1:]

    def keys(self, words):
        if not self.event or not re.fullmatch(r"[0-9a-f]{32}", words[1]):
            raise Unreadable("the keys are of no end")
        self.event.keys = words[1:]
        if self.event.end == "server":
            self.event.session.k_encr = bytes.fromhex(words[1])

    def read_event(self, line, text, words):
        word, session = words[0], self.session(words[1])
        end = words[2] if word in ("giveup", "deliver") else "server"
        if end not in ENDS:
            raise Unreadable(f"{end!r} is no end of a session")
        event = Event(line, text, word, session, end)
        rest = words[EVENTS[word]:]
        if word == "deliver":
            self.deliver(event, words[3], rest)
        self.read_notes(event, rest)
        self.read_step(event, rest)
        session.events.append(event)
        self.event = event

    def deliver(self, event, word, rest):
        event.delivered = self.packet_in(event.session.network, self.number(word), rest)
        event.arrives = event.delivered is not None and rest != ["nosuchend"]
        if event.arrives:
            event.delivered.deliveries.append(event)

    def read_sim(self, line, text, words):
        """A line of a session of EAP-SIM: its start, a delivery, or whether the keys of both ends are equal."""
        imsi, what, rest = words[1], words[2], words[3:]
        if what == "start":
            self.open_sim(imsi)
        session = self.sim
        if session is None or session.imsi != imsi:
            raise Unreadable(f"no session of {imsi[:15]} was started by a `sim` line before")
        if what in ("agree", "differ") and not rest:
            session.verdict, self.event = what, None
            return
        event = Event(line, text, "start", session, "server")
        if what in ENDS and len(rest) > 1:
            event.word, event.end = "deliver", what
            self.deliver(event, rest[0], rest[1:])
        elif what != "start" or rest != ["sent", "1"]:
            raise Unreadable(f"{text[:60]!r} is no line of a transcript")
        self.read_step(event, rest if what == "start" else rest[1:])
        session.events.append(event)
        self.event = event

    def open_sim(self, imsi):
        if self.job is None:
            raise Unreadable("a session is opened outside of a job")
        self.sims += 1
        self.sim = Session(f"sim{self.sims}", self.round, self.job_number, [], imsi, self.job.vectors)
        self.sessions[self.sim.number] = self.sim

    def read_change(self, line, text, words):
        count = CHANGES[words[0]]
        rest = words[count:]
        source = self.packet_in(self.job.packets if self.job else [], self.number(words[1]), rest)
        change = Change(line, text, " ".join(words[:count]), source)
        if rest[0] == "made" and len(rest) == 2:
            change.sent = self.next_packet(rest[1], source.session, source.sender, change, source)
            source.session.changed.append(change.sent)
        elif rest in (["nosuchpacket"], ["nosuchplace"]):
            change.step = rest[0]
        else:
            raise Unreadable(f"{rest[0]!r} is nothing that the network does")
        if source:
            source.session.changes.append(change)
        self.event, self.change = None, change

    def next_packet(self, word, *what):
        session, sender, event, source = what
        packets = session.network
        if self.number(word) != len(packets) + 1:
            raise Unreadable(f"packet {word} follows packet {len(packets)}")
        packets.append(Packet(len(packets) + 1, session, sender, event, source=source))
        return packets[-1]

    def packet_in(self, packets, number, rest):
        """A packet by its number; nothing if the line says that there is none."""
        if rest == ["nosuchpacket"]:
            return None
        if not 1 <= number <= len(packets):
            raise Unreadable(f"packet {number} wasn't sent before")
        return packets[number - 1]

    def read_notes(self, event, rest):
        """Takes the notes from the front of the words."""
        while rest and rest[0] in NOTES:
            count = 1 + NOTES[rest[0]]
            if len(rest) <= count:
                raise Unreadable(f"{event.text[:60]!r} ends after its notes")
            event.notes.append(" ".join(rest[:count]))
            del rest[:count]

    def read_step(self, event, rest):
        if rest[0] == "sent" and len(rest) > 1:
            event.sent = self.next_packet(rest[1], event.session, event.end, event, None)
            event.session.packets.append(event.sent)
            del rest[:2]
        if rest and rest[0] not in {"ended", "ignored"} | REFUSALS:
            raise Unreadable(f"{rest[0]!r} is nothing that an end does")
        event.step = " ".join(rest)


def find_copies(session):
    """Tells each packet that an end sent, and that has the bytes of an earlier one of its sender, which one that is."""
    first = {}
    for packet in session.packets:
        number = first.setdefault((packet.sender, packet.data), packet.number)
        if packet.data is not None and number != packet.number:
            packet.original = number


def sessions_in(text):
    """The sessions of a transcript, in the order in which they are opened. Each of its lines has to have its form."""
    # The module stands on this one.
    from transcript_lines import Lines, objects_in
    lines = Lines()
    for _ in objects_in(text, lines):
        pass
    sessions = list(lines.reader.sessions.values())
    for session in sessions:
        find_copies(session)
    find_bits(sessions)
    return sessions


def text_of(path):
    """The text of a file, or of standard input if the path is `-`."""
    try:
        if path == "-":
            return sys.stdin.read()
        with open(path, encoding="utf-8") as file:
            return file.read()
    except OSError as error:
        raise Unreadable(f"{path}: {error.strerror}") from None
    except UnicodeDecodeError:
        raise Unreadable(f"{path}: it is no text") from None


def keep_apart(path, output):
    """Refuses an output that is the very file that is read, by whichever name: to write it would destroy it."""
    try:
        source = sys.stdin.fileno() if path == "-" else path
        same = output != "-" and os.path.isfile(source) and os.path.samefile(source, output)
    except OSError:
        return
    if same:
        raise Unreadable(f"{output}: it is the transcript that is read, so it can't be the output")


def sessions_of(path):
    """The sessions of a file, or of standard input if the path is `-`."""
    text = text_of(path)
    try:
        return sessions_in(text)
    except Unreadable as reason:
        raise Unreadable(f"{path}: {reason}") from None
