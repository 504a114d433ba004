"""Finds for tools/report the subscriber of each session, and what became of each subscriber's numbers."""
import re
from bisect import bisect_left
from dataclasses import dataclass, field

import transcript
from eap.attributes import AT_NEXT_PSEUDONYM, text_in
from eap.names import username
from eap.usim import BITS, REACH
from transcript import FORMS, identity_in

AT_NEXT_REAUTH_ID = 133
CLOSED = "round", "open", "close", "drawn", "skipped", "released", "withheld"
DRAWN, ACCEPTED, REFUSED, MOVED, WITHHELD, EXHAUSTED, STAYED = range(7)


# ---- whose session it is

class Intervals:
    """The lines `closed` of a round, each with the numbers that were drawn in it."""

    def __init__(self, closed):
        self.closed = closed
        self.opens = self.ends("open")
        self.closes = self.ends("close")

    def ends(self, name):
        """The ends in their order, and before each place the sum of the lines that they are of."""
        pairs, sums = sorted((it[name], place) for place, it in enumerate(self.closed)), [0]
        for _, place in pairs:
            sums.append(sums[-1] + place)
        return [end for end, _ in pairs], sums

    def owner(self, number):
        """The only subscriber that can have drawn a number in the round; nothing if there are several."""
        (opens, sums), (closes, less) = self.opens, self.closes
        begun, ended = bisect_left(opens, number), bisect_left(closes, number)
        return self.closed[sums[begun] - less[ended]]["imsi"] if begun - ended == 1 else None


def scenario_subscribers(text):
    """Of a scenario, the IMSI of each session."""
    rows = [line.split() for line in text.splitlines()]
    return {int(row[1]): row[2] for row in rows if len(row) == 8 and row[0] == "session" and re.fullmatch("[0-9]{1,20}", row[1])}


def names_given(session):
    """The names that the server gives in a session, if they can be decrypted."""
    given = [transcript.encrypted_in(packet) for packet in session.packets if packet.sender == "server"]
    names = [found[kind] for found in given for kind in (AT_NEXT_PSEUDONYM, AT_NEXT_REAUTH_ID) if kind in found]
    return [username(text_in(name)) for name in names]


def told_in(session, names):
    """The IMSI that the last identity of a session tells: a permanent one, or a name that was given before."""
    for packet in reversed(session.packets):
        name = username(identity_in(packet) or b"")
        if re.fullmatch(FORMS["permanent"], name):
            return name[1:].decode()
        if name in names:
            return names[name]
    return None


def drawn_in(objects):
    """Of each round, its lines `closed`; of each session, the first number that it draws."""
    closed, drawn = {}, {}
    for it in objects:
        if it["kind"] == "closed":
            closed.setdefault(it["round"], []).append(it)
        for note in it.get("notes", []):
            if note["note"] == "drew":
                drawn.setdefault(it["session"], note["number"])
    return {number: Intervals(lines) for number, lines in closed.items()}, drawn


@dataclass
class Subscribers:
    """The IMSI of each session, as far as something tells it: that of its device, which the scenario tells, and that of the
    subscriber whom the server challenges, which the numbers tell or else the identities. They are nearly always the same."""
    devices: dict = field(default_factory=dict)
    challenged: dict = field(default_factory=dict)


def subscribers_of(sessions, objects, scenario):
    (intervals, drawn), names, found = drawn_in(objects), {}, Subscribers()
    for session in sessions:
        number, imsi = session.number, None
        if number in drawn and session.round in intervals:
            imsi = intervals[session.round].owner(drawn[number])
        imsi = imsi or session.imsi or told_in(session, names) or scenario.get(number)
        found.devices[number], found.challenged[number] = scenario.get(number, imsi), imsi
        if imsi is not None:
            names.update(dict.fromkeys(names_given(session), imsi))
    return found


# ---- what became of the numbers

@dataclass
class Numbers:
    """A subscriber's steps in the order of the lines: line, kind, number, and what the kind has besides."""
    # How many bits IND has.
    bits: int
    steps: list = field(default_factory=list)
    # The number that was accepted last for each IND, and its line.
    accepted: dict = field(default_factory=dict)
    closed: list = field(default_factory=list)

    def accept(self, line, number):
        self.steps.append([line, ACCEPTED, number])
        self.accepted[number % 2**self.bits] = (number, line)

    def refuse(self, line, number, sqn_ms):
        """A synchronisation failure: the cause, and the number and line of the accepted vector that stands in its way."""
        greatest, ind = sqn_ms >> self.bits, number % 2**self.bits
        held, where = self.accepted.get(ind, (-1, 0))
        if number > greatest + REACH:
            cause = ["far", greatest, 0]
        elif held >= number:
            cause = ["place", held, where, ind]
        else:
            cause = ["before", greatest, 0]
        self.steps.append([line, REFUSED, number, *cause])


class Steps:
    """Reads the objects of a transcript's lines into the numbers of the subscribers."""

    def __init__(self, subscribers, lengths):
        # By the IMSI; the sessions of nobody that is known have the empty one.
        self.numbers, self.subscribers, self.lengths = {}, subscribers, lengths
        # Of each session the number that was drawn last; of each packet of the job the number that its challenge has.
        self.last, self.challenges = {}, {}

    def of(self, imsi):
        return self.numbers.setdefault(imsi or "", Numbers(self.lengths.get(imsi or "", BITS)))

    def read(self, it):
        kind, line = it["kind"], it["line"]
        if kind == "job":
            self.challenges = {}
        elif kind == "event":
            self.event(it)
        elif kind in ("tamper", "cut") and it["packet"] in self.challenges and "made" in it:
            self.challenges[it["made"]] = self.challenges[it["packet"]]
        elif kind == "vector":
            self.of(it["imsi"]).steps.append([line, DRAWN, it["number"]])
        elif kind == "give" and it["result"] == "accepted":
            self.of(it["imsi"]).accept(line, it["number"])
        elif kind == "give" and it["result"] == "sync":
            self.of(it["imsi"]).refuse(line, it["number"], int(it["sqn"], 16))
        elif kind == "sync":
            self.moved(self.of(it["imsi"]), line, it["result"], it)
        elif kind == "withheld":
            self.of(it["imsi"]).steps.append([line, WITHHELD, it["number"]])
        elif kind == "exhausted":
            self.of(it["imsi"]).steps.append([line, EXHAUSTED, it["word"]])
        elif kind == "closed":
            self.of(it["imsi"]).closed.append([it[name] for name in CLOSED])

    def moved(self, numbers, line, result, it):
        if result == "moved":
            numbers.steps.append([line, MOVED, it["from"], it["to"]])
        elif result in ("inrange", "beyond"):
            numbers.steps.append([line, STAYED, it["number"], it["seq"], result])

    def event(self, it):
        session, line = it["session"], it["line"]
        # The centre's notes are of the subscriber whom the server challenges, the USIM's of the device.
        owners = self.subscribers.challenged if it["end"] == "server" else self.subscribers.devices
        numbers = self.of(owners.get(session))
        for note in it["notes"]:
            word = note["note"]
            if word == "drew":
                self.last[session] = note["number"]
                numbers.steps.append([line, DRAWN, note["number"]])
            elif word == "accepted":
                numbers.accept(line, transcript.seq_of(note["sqn"], numbers.bits))
            elif word == "sync" and it.get("packet") in self.challenges:
                numbers.refuse(line, self.challenges[it["packet"]], int(note["sqn"], 16))
            elif word == "withheld":
                numbers.steps.append([line, WITHHELD, note["number"]])
            elif word == "exhausted":
                numbers.steps.append([line, EXHAUSTED, note["word"]])
            else:
                self.moved(numbers, line, word, note)
        if it["end"] == "server" and "sent" in it and session in self.last:
            self.challenges[it["sent"]] = self.last[session]


def lengths_of(objects, subscribers):
    """How many bits the IND of each subscriber has, by the SQNs of its USIM."""
    sqns = {}
    for it in objects:
        if it["kind"] == "give" and "sqn" in it:
            sqns.setdefault(it["imsi"], []).append(it["sqn"])
        elif it["kind"] == "event":
            owner = subscribers.devices.get(it["session"]) or ""
            sqns.setdefault(owner, []).extend(note["sqn"] for note in it["notes"] if "sqn" in note)
    return {imsi: transcript.index_bits(found) for imsi, found in sqns.items()}


def numbers_of(objects, subscribers):
    """What became of each subscriber's numbers, by its IMSI."""
    steps = Steps(subscribers, lengths_of(objects, subscribers))
    for it in objects:
        steps.read(it)
    return dict(sorted(steps.numbers.items()))
