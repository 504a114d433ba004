"""The two trials of tools/foreign: our peer with a foreign server, and our server with a foreign peer. Both speak RADIUS, the first
as an access point does, the second as a server does.
"""
import os
import re
import socket
import time
from dataclasses import dataclass

import foreign_radius
from eap.messages import IDENTITY, RESPONSE, packet
from foreign_ours import NotThere, peer_line, server_line
from foreign_radius import ACCEPT, CHALLENGE, CODES, REJECT, STATE
from foreign_verdict import Session

# What an access point asks for first, in the trial of a server.
IDENTITY_REQUEST = bytes.fromhex("0100000501")
TRIES, LONGEST_DATAGRAM, LINGER = 3, 4096, 1
# The most answers of a server in a session, so that a trial of one that never ends it comes to an end.
MOST_ANSWERS = 100
WON = "CTRL-EVENT-EAP-SUCCESS"


@dataclass
class Chosen:
    """What is tried. Each session has options, which stand in turn."""
    method: str
    network: str = "WLAN"
    # Where our server's numbers, or our USIM's, begin.
    number: int = 0
    sessions: int = 5
    options: tuple = ((),)
    # The identity that an access point tells in EAP-SIM. Our peer of the other methods is asked for it.
    identity: bytes = b""
    # Seconds without a packet after which a session ends, and that the first packet of one may take.
    patience: float = 10
    wait: float = 120

    def options_of(self, number):
        return self.options[min(number, len(self.options) - 1)]


def shown_address(address):
    return f"{address[0]}:{address[1]}"


def socket_for(address):
    """A socket of UDP, for an address of any family. The codec of names tells by an error of its own that a name can't be one."""
    try:
        family = socket.getaddrinfo(*address, type=socket.SOCK_DGRAM)[0][0]
    except UnicodeError as error:
        raise NotThere(f"{address[0]}: it is no name of a host") from error
    return socket.socket(family, socket.SOCK_DGRAM)


# ---- our peer with a foreign server

class Server:
    """A foreign RADIUS server, of which we are a client."""

    def __init__(self, radius, address, patience):
        self.radius, self.address, self.patience, self.identifier = radius, address, patience, 0
        self.door = socket_for(address)
        self.door.connect(address)

    def ask(self, name, eap, states):
        """A request and its answer, or a request and why there is none."""
        self.identifier = (self.identifier + 1) % 256
        asked, why = self.radius.request(self.identifier, name, eap, states), ""
        for _ in range(TRIES):
            try:
                self.door.send(asked)
                answered, why = self.heard(asked, why)
            except ConnectionRefusedError:
                answered, why = None, "nobody listens at its port"
            if answered:
                return asked, answered, ""
            if why == "nobody listens at its port":
                time.sleep(min(1, self.patience / TRIES))
        return asked, None, why or f"it doesn't answer in {self.patience:g} seconds: compare address and secret"

    def heard(self, asked, why):
        """The answer to a request, if it comes in time; else why one that came doesn't count."""
        until = time.monotonic() + self.patience / TRIES
        while (left := until - time.monotonic()) > 0:
            self.door.settimeout(left)
            try:
                return self.radius.read_answer(self.door.recv(LONGEST_DATAGRAM), asked), ""
            except foreign_radius.Fault as fault:
                why = f"its answer doesn't count: {fault}"
            except TimeoutError:
                break
        return None, why


def first_identity(end, session, chosen):
    """The EAP-Response/Identity of our peer; in EAP-SIM that of the access point, since our peer takes that method's messages alone."""
    if chosen.method != "sim":
        return session.hear(end, IDENTITY_REQUEST, made=True).packet
    told = packet(RESPONSE, IDENTITY_REQUEST[1], bytes([IDENTITY]) + chosen.identity)
    session.add("peer", told, made=True)
    return told


def ran_with_server(end, server, session, chosen):
    """Carries a session's packets between our peer and a server, until one of them ends it or the server goes on for too long."""
    eap, states = first_identity(end, session, chosen), []
    name = eap[5:]
    for _ in range(MOST_ANSWERS):
        asked, answered, session.silence = server.ask(name, eap, states)
        if not answered:
            return
        code, states = answered[0], foreign_radius.values(answered, STATE)
        if data := foreign_radius.eap_in(answered):
            eap = session.hear(end, data).packet
        else:
            session.silence, eap = f"its {CODES[code]} has no EAP-Message", b""
        if code != CHALLENGE:
            session.accepted, session.msk = code == ACCEPT, server.radius.msk_in(answered, asked)
            session.remarks.append(f"RADIUS: {CODES[code]}")
        if code != CHALLENGE or not eap:
            return
    session.silence = f"it hasn't ended the session after {MOST_ANSWERS} answers"


def with_server(end, server, chosen, before=lambda number: None):
    """Runs the sessions, one after the other; `before` is called before each."""
    for number in range(chosen.sessions):
        before(number)
        session = Session(number + 1, "peer", chosen.method, f"the server at {shown_address(server.address)}")
        session.began(end.tell(peer_line(number, chosen, chosen.options_of(number))))
        ran_with_server(end, server, session, chosen)
        if not session.end and (last := session.last("server")) and len(last.data) > 1:
            # Our peer tells its cause at the end of the session alone.
            session.hear(end, bytes([4, last.data[1], 0, 4]), made=True)
        session.give_up(end)
        yield session


# ---- our server with a foreign peer

class Silence(Exception):
    """No session began in time."""


class Door:
    """A RADIUS server with our server behind it, of which a foreign access point is a client. It serves one session at a time."""

    def __init__(self, radius, address, say=lambda text: None):
        self.radius, self.say, self.door = radius, say, socket_for(address)
        self.door.bind(address)
        self.last = self.answered = self.state = None

    @property
    def address(self):
        return self.door.getsockname()

    def next(self, seconds):
        """The next request that isn't a repeated one, with its sender; nothing if none comes in time."""
        until = time.monotonic() + seconds
        while (left := until - time.monotonic()) > 0:
            self.door.settimeout(left)
            try:
                data, sender = self.door.recvfrom(LONGEST_DATAGRAM)
                data = self.radius.read_request(data)
            except TimeoutError:
                break
            except foreign_radius.Fault as fault:
                self.say(f"a packet of {shown_address(sender)} is dropped: {fault}")
                continue
            if (data, sender) != self.last:
                return data, sender
            if self.answered:
                self.door.sendto(self.answered, sender)
        return None, None

    def answer(self, code, asked, sender, answer):
        """Answers a request by what our server did; by nothing if it sent nothing."""
        self.last, self.answered = (asked, sender), None
        if answer.packet:
            state = self.state if code == CHALLENGE else None
            self.answered = self.radius.answer(code, asked, answer.packet, answer.msk, state)
            self.door.sendto(self.answered, sender)

    def linger(self):
        """Repeats the last answer for a moment, if it is asked for again."""
        self.next(LINGER)


def code_of(answer):
    return {"success": ACCEPT, "failure": REJECT}.get(answer.step, CHALLENGE)


def begun(end, door, chosen, number, asked, sender):
    """A session that begins by a request without a State."""
    session = Session(number + 1, "server", chosen.method, f"the peer behind {shown_address(sender)}")
    told = foreign_radius.eap_in(asked)[5:].decode(errors="replace")
    session.remarks.append(f"RADIUS: the access point told the identity '{told}'; our server asks for it anew")
    answer = end.tell(server_line(number, chosen, chosen.options_of(number)))
    door.state = os.urandom(8)
    session.began(answer)
    door.answer(CHALLENGE, asked, sender, answer)
    return session


def ran_with_peer(end, door, chosen, session):
    """Carries a session's packets, until our server ends it or nothing comes any more. It returns a request that begins another
    session."""
    while not session.end:
        asked, sender = door.next(chosen.patience)
        if not asked:
            session.silence = f"it sends nothing more for {chosen.patience:g} seconds"
            return None
        states = foreign_radius.values(asked, STATE)
        if not states:
            session.silence = "it begins another session"
            return asked, sender
        if states != [door.state]:
            door.say(f"a packet of {shown_address(sender)} is dropped: its State is that of another session")
            continue
        answer = session.hear(end, foreign_radius.eap_in(asked))
        door.answer(code_of(answer), asked, sender, answer)
    return None


def first_request(door, chosen):
    """The next request that begins a session."""
    while True:
        asked, sender = door.next(chosen.wait)
        if not asked:
            raise Silence(f"no session began in {chosen.wait:g} seconds")
        if not foreign_radius.values(asked, STATE):
            return asked, sender


def with_peer(end, door, chosen):
    """Serves the sessions, as the access point begins them."""
    begins = None
    for number in range(chosen.sessions):
        asked, sender = begins or first_request(door, chosen)
        session = begun(end, door, chosen, number, asked, sender)
        begins = ran_with_peer(end, door, chosen, session)
        session.give_up(end)
        yield session


# ---- the keys of a foreign peer

def keys_in(text):
    """MSK of each session that succeeded, in the log of wpa_supplicant or eapol_test, or in a list with one of them a line."""
    found, msk = [], None
    hexes = re.compile(r"(?<!E)\bMSK\)? - hexdump\(len=64\): ([0-9a-f ]+)")
    for line in text.splitlines():
        if hit := hexes.search(line):
            msk = bytes.fromhex(hit[1])
        elif WON in line and msk:
            found.append(msk)
        elif re.fullmatch(r"\s*[0-9a-fA-F]{128}\s*", line):
            found.append(bytes.fromhex(line.strip()))
    return found


def give_keys(sessions, keys):
    """Gives each session in which our server succeeded the peer's keys, in their order."""
    won = [it for it in sessions if it.end and it.end.step == "success"]
    for session, msk in zip(won, keys):
        session.msk = msk
