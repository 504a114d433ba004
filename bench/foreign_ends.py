#!/usr/bin/env python3
"""Runs our peer with hostapd's server, and our server with wpa_supplicant's peer, by each method, by the trials of tools/foreign.

    bench/foreign_ends.py [--sessions N] [--ends PROGRAM] [--hostapd PROGRAM] [--packets]

Each pair has N sessions, 5 unless it is given. PROGRAM of our ends is crates/auc_ends_cli/out/auc_ends_cli, and hostapd is the one
on the PATH, unless they are given. --packets prints the packets of each session.

Our ends are those of the program of crates/auc_ends_cli, which is kept running. The vectors for hostapd and the answers of
wpa_supplicant's USIM are made by tools/eap, under the key of the program's subscriber. The USIM is ahead at first, so the first
challenge ends in a resynchronisation. Pseudonyms and re-authentication identities are given.

Our peer with hostapd, of each five sessions: a full authentication; a re-authentication by the identity of EAP; one by that of
an AKA-Identity round, after the permanent one. Then hostapd is started anew and knows no name: it asks for the others, and a full
authentication follows; and a re-authentication. hostapd's names have 21 bytes, and those of our server 33; a device of ours keeps
both. --hostapd takes a hostapd that was built otherwise.

Our server with wpa_supplicant, of each five sessions: a full authentication; a re-authentication; one by an AKA-Identity round,
which gives no further identity; so a full authentication by the pseudonym; and a re-authentication.

In EAP-SIM each session is a full authentication: our peer has the Start request of hostapd, which asks for any identity, and our
server challenges with three triplets.

From the sixth session on the first of five is a re-authentication, too. Each session has to be what is told above and to succeed at
both ends, with equal MSK and EMSK, and RADIUS has to tell that MSK. It needs Debian's packages hostapd and eapoltest, and Python's
`cryptography`. The exit status is 0 only if all is so.
"""
import argparse
import re
import sys
import tempfile
import time
from contextlib import ExitStack
from pathlib import Path

import hostapd
from measure import TOP

sys.path.append(str(TOP / "tools"))
from ends import Missing, needs, run_main

if __name__ == "__main__":
    needs("cryptography", __doc__)

import foreign_trial
import foreign_verdict
from eap.lines import RANDOM_KEY, SIM_DIGIT
from eap.session import Row, Subscriber
from eap.streams import rand_of
from eap.usim import Usim, sqn_of, triplet
from foreign_ours import PROGRAM, Program
from foreign_radius import Radius
from foreign_verdict import AFTER_SYNC, AGAIN, FULL

# hostapd's name of a method; the name of its network is fixed.
METHODS = {"aka": "AKA", "prime": "AKA'", "sim": "SIM"}
AHEAD, TURN, BEFORE_RESTART = 100, 5, 3
PEER_OPTIONS = ((), (), ("permanent",), (), ())
SERVER_OPTIONS = (("pseudonym", "reauth"), ("pseudonym", "reauth"), ("any", "pseudonym"), ("any", "pseudonym", "reauth"),
                  ("pseudonym", "reauth"))
FIRST_KINDS = (AFTER_SYNC, f"{AGAIN} 1", f"{AGAIN} 2", FULL, f"{AGAIN} 1")
LATER_KINDS = (f"{AGAIN} 2", f"{AGAIN} 3", f"{AGAIN} 4", FULL, f"{AGAIN} 1")
SERVER_WON, PEER_WON = "EAP: EAP entering state SUCCESS", "CTRL-EVENT-EAP-SUCCESS"


def options():
    parser = argparse.ArgumentParser(description=__doc__, formatter_class=argparse.RawDescriptionHelpFormatter)
    parser.add_argument("--sessions", type=int, default=TURN, help="how many sessions each pair has")
    parser.add_argument("--ends", type=Path, default=PROGRAM, help="the program of our ends")
    parser.add_argument("--hostapd", default="hostapd", help="another program of hostapd")
    parser.add_argument("--packets", action="store_true", help="print the packets of each session")
    return parser.parse_args()


def in_turn(of_five, count):
    return tuple(of_five[number % TURN] for number in range(count))


def kinds(method, count):
    """What the sessions of a pair have to be. In EAP-SIM each is a full authentication."""
    if method == "sim":
        return (FULL,) * count
    return FIRST_KINDS[:count] + in_turn(LATER_KINDS, max(0, count - TURN))


# ---- what the foreign ends are served with, and what they tell

class Centre:
    """Draws hostapd's vectors, from number 1 on."""

    def __init__(self):
        self.row = Row(Subscriber())

    def play(self, sockets):
        while True:
            asked, sender = sockets.recvfrom(4096)
            word, imsi, *rest = asked.decode().split()
            if word == "AKA-REQ-AUTH":
                sockets.sendto(f"AKA-RESP-AUTH {imsi} {self.vector()}".encode(), sender)
            elif word == "SIM-REQ-AUTH":
                triplets = " ".join(self.triplet() for _ in range(int(rest[0])))
                sockets.sendto(f"SIM-RESP-AUTH {imsi} {triplets}".encode(), sender)
            elif word == "AKA-AUTS":
                self.resynchronise(*map(bytes.fromhex, rest))

    def drawn(self):
        """The next number, its RAND, and what Milenage gives of it."""
        number = self.row.draw()
        rand = rand_of(RANDOM_KEY, self.row.place, number)
        return number, rand, self.row.subscriber.functions(rand)

    def triplet(self):
        _, rand, f = self.drawn()
        sres, kc = triplet(f.res, f.ck, f.ik)
        return f"{kc.hex()}:{sres.hex()}:{rand.hex()}"

    def vector(self):
        number, rand, f = self.drawn()
        return " ".join(it.hex() for it in (rand, f.autn(sqn_of(number), self.row.amf), f.ik, f.ck, f.res))

    def resynchronise(self, auts, rand):
        sqn_ms = self.row.subscriber.functions(rand).sqn_in(auts)
        if sqn_ms is not None:
            self.row.resynchronise(sqn_ms)


def usim():
    """What wpa_supplicant's USIM answers to each challenge."""
    functions = Subscriber().functions
    array = Usim(functions, AHEAD)

    def gsm(rand):
        f = functions(bytes.fromhex(rand))
        sres, kc = triplet(f.res, f.ck, f.ik)
        return f"{kc.hex()}:{sres.hex()}"

    def answer(kind, *values):
        if kind == "GSM-AUTH":
            return f"GSM-AUTH:{':'.join(map(gsm, values))}"
        rand, autn = values
        _, f, auts = array.challenge(bytes.fromhex(rand), bytes.fromhex(autn))
        if auts:
            return f"UMTS-AUTS:{auts.hex()}"
        return f"UMTS-AUTH:{f.ik.hex()}:{f.ck.hex()}:{f.res.hex()}" if f else "UMTS-FAIL"

    return answer


def keys_in(log, won):
    """MSK and EMSK of each session of a log, in which this line tells that a session succeeded."""
    found, told = [], {}
    for line in log.splitlines():
        if hit := re.search(r"\b(MSK|EMSK)\)? - hexdump\(len=64\): (.*)", line):
            told[hit[1]] = bytes.fromhex(hit[2])
        elif won in line:
            found.append((told["MSK"], told["EMSK"]))
    return found


# ---- the pairs

class Servers:
    """hostapd, started anew at the times that the sessions name, and its logs."""

    def __init__(self, folder, program):
        self.folder, self.program, self.logs, self.stack = folder, program, "", ExitStack()

    def before(self, number):
        if number == 0 or number % TURN == BEFORE_RESTART:
            self.end()
            self.stack.enter_context(hostapd.serving(self.folder, self.program, "-dd", "-K"))

    def end(self):
        self.stack.close()
        log = self.folder / "server.log"
        self.logs += log.read_text(errors="replace") if log.exists() else ""


def with_hostapd(given, method):
    """The sessions of our peer, hostapd's keys of them, and what the sessions have to be."""
    end = Program(given.ends)
    with tempfile.TemporaryDirectory(dir="/tmp") as text:
        folder, port = Path(text), hostapd.free_port()
        hostapd.write_files(folder, port, METHODS[method], renews=True)
        hostapd.begin(Centre().play, hostapd.bound(folder / "centre"))
        servers = Servers(folder, given.hostapd)
        server = foreign_trial.Server(Radius(hostapd.SECRET), ("127.0.0.1", port), 10)
        identity = SIM_DIGIT + Subscriber().imsi.encode()
        chosen = foreign_trial.Chosen(method, "WLAN", AHEAD, given.sessions, in_turn(PEER_OPTIONS, given.sessions), identity)
        sessions = list(foreign_trial.with_server(end, server, chosen, servers.before))
        servers.end()
    end.close()
    return sessions, keys_in(servers.logs, SERVER_WON), kinds(method, given.sessions)


def with_wpa_supplicant(given, method):
    """The sessions of our server, wpa_supplicant's keys of them, and what the sessions have to be."""
    end, sessions = Program(given.ends), []
    door = foreign_trial.Door(Radius(hostapd.SECRET), ("127.0.0.1", 0))
    chosen = foreign_trial.Chosen(method, "WLAN", 0, given.sessions, in_turn(SERVER_OPTIONS, given.sessions))
    with tempfile.TemporaryDirectory(dir="/tmp") as text:
        folder = Path(text)
        hostapd.write_files(folder, door.address[1], METHODS[method], renews=True)
        hostapd.begin(lambda: sessions.extend(foreign_trial.with_peer(end, door, chosen)))
        # It ends this script if a session fails, or if the keys of RADIUS aren't those of wpa_supplicant.
        hostapd.ran_peer(folder, door.address[1], given.sessions, usim())
        log = (folder / "peer.log").read_text(errors="replace")
    hostapd.wait_until(lambda: len(sessions) == given.sessions, "the last session")
    foreign_trial.give_keys(sessions, [msk for msk, _ in keys_in(log, PEER_WON)])
    end.close()
    return sessions, keys_in(log, PEER_WON), kinds(method, given.sessions)


def is_as_it_has_to_be(given, pair, sessions, told, wanted):
    """Prints the verdict on each session of a pair, and tells whether all were as they have to be."""
    judge, right = foreign_verdict.Judge(Subscriber(), "WLAN"), 0
    for session, keys, kind in zip(sessions, told, wanted):
        verdict = foreign_verdict.verdict_of(judge, session, kind)
        are_equal = verdict.is_expected and tuple(session.end.keys[3:]) == keys
        right += are_equal
        print(f"{pair}, session {session.number}: {verdict}{'' if are_equal else '; NOT AS IT HAS TO BE'}", flush=True)
        if given.packets or not are_equal:
            print("\n".join(foreign_verdict.lines_of(session)))
    return right == given.sessions == len(sessions) == len(told)


def tried(given, method, pair, run):
    begin = time.monotonic()
    sessions, told, wanted = run(given, method)
    seconds = time.monotonic() - begin
    right = is_as_it_has_to_be(given, f"{method}: {pair}", sessions, told, wanted)
    again = sum(it.kind.startswith(AGAIN) for it in sessions)
    print(f"{method}: {pair}: {len(sessions)} sessions, {again} of them re-authentications, "
          f"{'all' if right else 'NOT ALL'} as they have to be, {seconds:.0f} s")
    return right


def main():
    given = options()
    if not hostapd.are_there():
        raise Missing("hostapd or eapol_test", "apt-get install hostapd eapoltest")
    if not given.ends.exists():
        raise Missing(given.ends, "`rt run` in crates/auc_ends_cli proves and builds it")
    pairs = {"our peer with hostapd": with_hostapd, "our server with wpa_supplicant": with_wpa_supplicant}
    right = [tried(given, method, pair, run) for method in METHODS for pair, run in pairs.items()]
    raise SystemExit(not all(right))


if __name__ == "__main__":
    run_main(main, __doc__)
