"""The ladders that tools/chart draws: each session of a transcript as rows between peer, server and centre."""
import re
from dataclasses import dataclass

import transcript
from transcript import CENTRE_NOTES, Change, Unreadable, marks_of, name_of, rows_in

# How many of the places where a packet arrives stand in its label.
MOST_PLACES = 8


@dataclass
class Arrow:
    """A packet on its way to an end. It is lost, or goes to another session, or comes from one; one that the network changed comes
    from nowhere."""
    to: str
    label: str
    # The label in a picture, where arrows cross.
    short: str
    # The packet's number in its job.
    packet: int
    lost: bool = False
    away: bool = False
    foreign: bool = False
    changed: bool = False
    # What the end does that it reaches.
    words: str = ""
    # The number of the packet that is sent after this row.
    sends: int = 0


@dataclass
class Answer:
    """What the centre answers to the server."""
    label: str
    sends: int = 0


@dataclass
class Words:
    """What an end does by itself, or what the network does."""
    end: str
    words: str
    sends: int = 0


@dataclass
class Ladder:
    # The session's number, round and job; its method and subscriber; and how it ends.
    title: str
    facts: str
    outcome: str
    rows: list


def label(packet, *marks, short=False):
    """A packet's number and name, what it says of identities, and what is special about it. In short what is special stands alone,
    and without a name if an earlier arrow of the ladder has it."""
    source = f"changed copy of {packet.source.number}" if packet.source else f"copy of {packet.original}" if packet.original else ""
    special = [mark for mark in (source, *marks) if mark]
    is_named = short and (packet.original or special == ["again"])
    name = "" if is_named else name_of(packet.data)
    marks = special if short and special else [*marks_of(packet), *special]
    return " ".join(word for word in (str(packet.number), name, f"({', '.join(marks)})" if marks else "") if word)


def labelled(to, packet, *marks, only="", **more):
    """The arrow of a packet. The mark that it is delivered again stands in the short label only if an earlier arrow is here."""
    return Arrow(to, label(packet, *marks), label(packet, *(mark for mark in marks if mark != only), short=True), packet.number, **more)


def own_note(note, bits):
    """A note of an end. An SQN is also told as its number, which is what the centre tells."""
    found = re.fullmatch(r"(accepted|sync) ([0-9a-f]{12})", note)
    return f"{found[1]} {transcript.seq_of(found[2], bits)} ({found[2]})" if found else note


def is_at_home(event):
    """Whether a delivery is in its packet's own session, at the end to which it was sent. What the network changed was sent by
    nobody."""
    packet = event.delivered
    return event.session is packet.session and event.end != packet.sender and packet.source is None


def arrival(event):
    packet = event.delivered
    whose = f"of session {packet.session.number}" if packet.session is not event.session else ""
    own = "" if packet.sender != event.end else f"of a {packet.sender}"
    again = "again" if packet.deliveries[0] is not event else ""
    is_second = is_at_home(packet.deliveries[0]) and is_at_home(event)
    words = [own_note(note, event.session.bits) for note in event.notes if note.split()[0] not in CENTRE_NOTES] + [event.step]
    return labelled(event.end, packet, whose, own, again, only="" if is_second else "again", foreign=not is_at_home(event),
                    changed=packet.source is not None, words=", ".join(word for word in words if word))


def departure(packet):
    """The row of a packet where it was sent, if it doesn't arrive in its own session."""
    to = transcript.other(packet.sender)
    if not packet.deliveries:
        return [labelled(to, packet, lost=True)]
    if not any(is_at_home(event) for event in packet.deliveries):
        return [labelled(to, packet, *places_named({place_of(event) for event in packet.deliveries}), away=True)]
    return []


def place_of(event):
    """Where a packet arrives that doesn't arrive in its own session."""
    session = event.session
    return f"to a {event.end}" if session is event.delivered.session else f"to session {session.number}"


def places_named(places):
    """Some places of many, so that each label is short."""
    named = sorted(places)[:MOST_PLACES]
    return [*named, f"and {len(places) - len(named)} more"] if len(places) > len(named) else named


def deed(event):
    """What an end does in an event that delivers no packet."""
    if event.word == "deliver":
        what = event.text.split(" ")
        return f"packet {what[3]}"
    return {"start": "start", "repeat": "repeat", "giveup": "gives up"}[event.word]


def own_words(event):
    """The row of an event that delivers no packet."""
    if event.step == "ended failure givenup":
        return Words(event.end, "gives up")
    return Words(event.end, ": ".join(word for word in (deed(event), event.step) if word))


def change_of(change):
    """The row of a packet that the network changes: what comes of it."""
    packet = change.sent
    if packet is None:
        return Words("network", f"{change.deed}: {change.step}")
    elsewhere = {f"to session {event.session.number}" for event in packet.deliveries if event.session is not packet.session}
    at_home = any(event.session is packet.session for event in packet.deliveries)
    where = "" if at_home else "".join(f", {place}" for place in places_named(elsewhere) or ["lost"])
    return Words("network", f"{change.deed}: packet {packet.number}{where}")


def rows_of(session):
    rows = []
    for event in rows_in(session):
        if isinstance(event, Change):
            rows.append(change_of(event))
            continue
        rows.append(arrival(event) if event.arrives else own_words(event))
        rows += [Answer(note) for note in event.notes if note.split()[0] in CENTRE_NOTES]
        if event.sent:
            rows[-1].sends = event.sent.number
            rows += departure(event.sent)
    return rows


def facts_of(session):
    """A session's method and subscriber, or why they aren't known."""
    method, imsi = " and ".join(transcript.methods_of(session)), transcript.subscriber_of(session)
    if session.imsi:
        return f"{method}, subscriber {imsi}"
    if transcript.is_brief(session):
        subscriber = f", subscriber {imsi}" if imsi else ""
        return f"{'method' if imsi else 'method and subscriber'} not in a brief print{subscriber}"
    marks = [mark for packet in session.packets for mark in marks_of(packet) if mark in transcript.FORMS]
    under = f"subscriber under a {marks[-1]}{' identity' if marks[-1] == 're-authentication' else ''}" if marks else ""
    return f"{method or 'method not told'}, {f'subscriber {imsi}' if imsi else under or 'subscriber not told'}"


def outcome_of(session):
    """How a session ends at both ends."""
    ended = {event.end: event.step.removeprefix("ended ") for event in session.events if event.step.startswith("ended ")}
    if list(ended.values()) == ["success"] * 2:
        keys = {"agree": ", with equal keys", "differ": ", but their keys differ"}
        return "both ends succeed" + keys.get(session.verdict, "")
    return ", ".join(f"{end}: {ended.get(end, 'not ended')}" for end in transcript.ENDS)


def ladder_of(session):
    title = f"session {session.number}, round {session.round}, job {session.job}"
    return Ladder(title, facts_of(session), outcome_of(session), rows_of(session))


def ladders_of(path, numbers=()):
    """The ladders of a transcript's sessions that have events, or of those with the given numbers alone."""
    sessions = {session.number: session for session in transcript.sessions_of(path)}
    if not sessions:
        raise Unreadable(f"{path}: it has no session")
    for number in numbers:
        if number not in sessions or not sessions[number].events:
            raise Unreadable(f"{path}: {f'session {number} has no event' if number in sessions else f'it has no session {number}'}")
    chosen = set(numbers) or sessions.keys()
    ladders = [ladder_of(session) for number, session in sessions.items() if number in chosen and session.events]
    if not ladders:
        raise Unreadable(f"{path}: no session has an event")
    return ladders


def end_of(row):
    """The end whose words a row has, or the network."""
    return row.to if isinstance(row, Arrow) else row.end
