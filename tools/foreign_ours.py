"""Our ends in a trial with a foreign one, for tools/foreign: the program of crates/auc_ends_cli, whose server and peer are the
proved crates auc_server, auc_peer and auc_sim, or the ends of tools/eap, which are Python.

Either gets a line of text for each packet and answers by one, as crates/auc_ends_cli/src/main.rt has them.
"""
import re
import subprocess
from dataclasses import dataclass, field
from pathlib import Path

from eap import ciphers
from eap.lines import Ends
from ends import missing
from launcher.places import IS_INSTALLED
from transcript import NOTES

PROGRAM = Path(__file__).resolve().parent.parent / "crates/auc_ends_cli/out/auc_ends_cli"
KEY_WORDS = 5
# How many triplets our server of EAP-SIM challenges with.
TRIPLETS = 3


@dataclass
class Answer:
    """What an end answered to a line: its notes, and what it did."""
    text: str
    notes: list = field(default_factory=list)
    # `sent`, `success`, `failure`, `ignored`, or the line's only word.
    step: str = ""
    # Why it failed, or ignored a packet.
    cause: str = ""
    packet: bytes = b""
    # K_encr, K_aut, K_re, MSK and EMSK.
    keys: list | None = None

    @property
    def has_ended(self):
        return self.step in ("success", "failure")

    @property
    def msk(self):
        return self.keys[3] if self.keys else None


class NotThere(Exception):
    """The program of our ends isn't there."""


class Unreadable(Exception):
    """A line that is no answer of an end."""


def notes_in(words):
    """Takes the notes off the front of an answer's words."""
    found = []
    while words and words[0] in NOTES:
        size = 1 + NOTES[words[0]]
        found.append(" ".join(words[:size]))
        del words[:size]
    return found


def answer_in(line):
    """An answer, of its line."""
    words = line.split()
    answer = Answer(line, notes_in(words))
    match words:
        case ["sent", data]:
            answer.step, answer.packet = "sent", bytes.fromhex(data)
        case ["ignored", why]:
            answer.step, answer.cause = "ignored", why
        case ["ended", "success", *rest] if rest[-KEY_WORDS - 1:-KEY_WORDS] == ["keys"]:
            answer.step, answer.keys = "success", [bytes.fromhex(it) for it in rest[-KEY_WORDS:]]
            answer.packet = bytes.fromhex("".join(rest[:-KEY_WORDS - 1]))
        case ["ended", "failure", *rest] if rest:
            # A server's Failure stands behind the cause.
            if re.fullmatch("04[0-9a-f]{2}0004", rest[-1]):
                answer.packet = bytes.fromhex(rest.pop())
            answer.step, answer.cause = "failure", " ".join(rest)
        case ["peer"]:
            answer.step = "peer"
        case _:
            raise Unreadable(f"our end answered: {line or 'nothing'}")
    return answer


# ---- the lines of an end

def network_of(method, network):
    return f" prime {network}" if method == "prime" else ""


def server_line(number, chosen, options):
    """Begins a session of our server. The subscriber's last number counts for the first one alone."""
    if chosen.method == "sim":
        return f"simserver {chosen.number} {TRIPLETS}" if number == 0 else "next"
    first = f"server {chosen.number} held" if number == 0 else "next"
    return first + "".join(f" {it}" for it in options) + network_of(chosen.method, chosen.network)


def peer_line(number, chosen, options):
    """Begins a session of our peer. The USIM's number counts for the first one alone; in EAP-SIM it is that of NONCE_MT."""
    if chosen.method == "sim":
        return f"simpeer {chosen.number + 1}" if number == 0 else "next"
    first = f"peer {chosen.number}" if number == 0 else "next"
    return first + "".join(f" {it}" for it in options) + network_of(chosen.method, chosen.network)


# ---- the ends

class Program:
    """The program of crates/auc_ends_cli, which is kept running."""

    def __init__(self, program=PROGRAM):
        self.title = f"that of the program {Path(program).name}"
        if not Path(program).is_file():
            advice = "" if IS_INSTALLED else "`rt run` in crates/auc_ends_cli proves and builds it; or "
            raise NotThere(f"{program} isn't there: {advice}take --ends python")
        self.child = subprocess.Popen([program], stdin=subprocess.PIPE, stdout=subprocess.PIPE, text=True)

    def tell(self, line):
        print(line, file=self.child.stdin, flush=True)
        return answer_in(self.child.stdout.readline().rstrip("\n"))

    def close(self):
        self.child.stdin.close()
        self.child.wait(10)


class Python:
    """The ends of tools/eap, for any subscriber."""
    title = "that of tools/eap, in Python"

    def __init__(self, subscriber):
        if ciphers.Cipher is None:
            raise missing("cryptography")
        self.ends = Ends(subscriber)

    def tell(self, line):
        return answer_in(self.ends.tell(line))

    def close(self):
        pass
