#!/usr/bin/env python3
"""Lets hostapd's EAP server authenticate eapol_test through tools/gateway, and kills the gateway and the program under load.

    bench/live.py [--program PROGRAM] [--hlr-auc-gw FILE] [--kills N] [--seconds N] [--seed N] [--write]

PROGRAM is crates/auc_cli/out/auc_cli, unless it is given. hostapd and eapol_test come from Debian's packages hostapd and
eapoltest; without them the sessions are left out. All is on the loopback, in a folder of its own.

sessions    EAP-AKA, EAP-AKA' and EAP-SIM, each three times, before and after the gateway was killed. The USIM is ahead at
            first, so the first session by EAP-AKA and EAP-AKA' has a resynchronisation.
kills       four clients ask for vectors of twelve subscribers, some of them with AUTS that are right, replayed or wrong. The
            gateway, or the program that it keeps, is killed at random moments. Each SQN that a client received is counted.
            hostapd's hlr_auc_gw is asked and killed in the same way, over its text file and over SQLite. FILE is it;
            bench/peers.py --help says how it is built, and without it the two are left out.

--write puts what came of it into README.md, between its marks. The exit status is 0 only if each session succeeded and no SQN of
tools/gateway came twice.
"""
import argparse
import datetime
import os
import random
import signal
import socket
import subprocess
import sys
import tempfile
import threading
import time
from pathlib import Path

import hostapd
from journal import imsi
from measure import BUILT, HEADER, KEYS, TOP, runnable
from peers import gateway_version
from repository import version_of, write_part
from rivals import HOW, Sqlite, TextFile

sys.path.append(str(TOP / "tools"))
from eap.usim import seq_of, sqn_of
from ends import run_main
from gateway_centre import Subscriber

# The leading digit of the permanent identity of each method, and where its USIM is opened.
METHODS = {"AKA": ("0", 500), "AKA'": ("6", 5000), "SIM": ("1", 0)}
SCRIPT, SESSIONS, CLIENTS, SUBSCRIBERS = "bench/live.py", 3, 4, 12
MOST_ANSWERS, LONGEST_WAIT = 100, 3


def options():
    parser = argparse.ArgumentParser(description=__doc__, formatter_class=argparse.RawDescriptionHelpFormatter)
    parser.add_argument("--program", type=Path, default=BUILT)
    parser.add_argument("--hlr-auc-gw", type=Path, help="the program that was built from hostapd's sources")
    parser.add_argument("--kills", type=int, default=200, help="of each one (default 200)")
    parser.add_argument("--seconds", type=int, default=300, help="the kills end after this time, however many there were")
    parser.add_argument("--seed", type=int, default=1)
    parser.add_argument("--patience", type=float, default=1.0, help="tools/gateway's option")
    parser.add_argument("--write", action="store_true", help="put what came of it into README.md")
    return parser.parse_args()


def row_of(place):
    return Subscriber(imsi(place), *KEYS)


class Gateway:
    """A gateway over a folder, which can be killed and started again."""

    def __init__(self, folder, given, subscribers, *words):
        self.folder, self.given, self.words = folder, given, words
        self.path = folder / "centre"
        (folder / "journal").mkdir()
        rows = [",".join((imsi(place), *KEYS)) + "\n" for place in range(subscribers)]
        (folder / "subscribers").write_text(f"{HEADER}\n" + "".join(rows))
        self.child = None

    def start(self):
        words = [TOP / "tools/gateway", self.folder / "subscribers", "--socket", self.path, "--folder",
                 self.folder / "journal", "--program", self.given.program, "--patience", self.given.patience, *self.words]
        with open(self.folder / "gateway.log", "a") as log:
            self.child = subprocess.Popen([str(word) for word in words], stderr=log)
        hostapd.wait_until(self.is_there, "tools/gateway")

    def is_there(self):
        if self.child.poll() is not None:
            raise SystemExit(f"tools/gateway ended: {(self.folder / 'gateway.log').read_text()}")
        with socket.socket(socket.AF_UNIX, socket.SOCK_DGRAM) as probe:
            return probe.connect_ex(str(self.path)) == 0

    def kill(self):
        self.child.kill()
        self.child.wait()

    def kill_program(self):
        """Kills the program, if there is one soon: how many it killed."""
        path = Path(f"/proc/{self.child.pid}/task/{self.child.pid}/children")
        until = time.monotonic() + LONGEST_WAIT
        while time.monotonic() < until:
            for number in path.read_text().split():
                try:
                    os.kill(int(number), signal.SIGKILL)
                except ProcessLookupError:
                    continue
                return 1
            time.sleep(0.001)
        return 0

    def end(self):
        if self.child and self.child.poll() is None:
            self.child.terminate()
            self.child.wait(60)


class Rival:
    """hlr_auc_gw over its files in a folder, which can be killed and started again. It is one process."""

    def __init__(self, kind, folder, given):
        self.made, self.running = kind(given.hlr_auc_gw, folder), None
        self.made.store(imsis=[imsi(it) for it in range(SUBSCRIBERS)])

    def start(self):
        self.running = self.made.start()
        self.path = self.running.path

    def kill(self):
        self.running.end()

    end = kill


# ---- sessions

def ran_sessions(folder, port, method):
    """Runs some sessions of eapol_test by a method: what its USIM found."""
    number = METHODS[method][1]
    words = ["eapol_test", "-c", folder / "peer.conf", "-p", str(port), "-r", str(SESSIONS - 1), "-t", "60", "-W"]
    usim_words = [TOP / "tools/usim", folder / "ctrl/test", folder / "subscribers", imsi(0), "--number", str(number)]
    with open(folder / "peer.log", "w") as log:
        peer = subprocess.Popen(words, stdout=log, stderr=subprocess.STDOUT)
    usim = subprocess.Popen(usim_words, stdout=subprocess.PIPE, text=True)
    status, found = peer.wait(120), usim.communicate(timeout=60)[0].split("\n")[:-1]
    keys = f"MPPE keys OK: {SESSIONS}  mismatch: 0" in (folder / "peer.log").read_text(errors="replace")
    return status == 0 and keys, found


def try_method(given, method):
    """Sessions by a method before and after a kill of the gateway: whether all succeeded, and what the USIM found."""
    with tempfile.TemporaryDirectory(dir="/tmp") as name:
        folder, port = Path(name), hostapd.free_port()
        hostapd.write_files(folder, port, method)
        (folder / "peer.conf").write_text((folder / "peer.conf").read_text().replace(hostapd.IMSI, imsi(0)))
        gateway = Gateway(folder, given, 1)
        try:
            gateway.start()
            with hostapd.serving(folder, "hostapd"):
                before = ran_sessions(folder, port, method)
                gateway.kill()
                gateway.start()
                after = ran_sessions(folder, port, method)
        finally:
            gateway.end()
        log = (folder / "gateway.log").read_text()
    return before[0] and after[0], before[1] + after[1], log


def all_sessions(given):
    good = True
    for method in METHODS:
        succeeded, found, log = try_method(given, method)
        syncs = sum(line.startswith("sync") for line in found)
        wanted = 0 if method == "SIM" else 1
        good = good and succeeded and syncs >= wanted
        outcome = "all succeeded" if succeeded else "NOT ALL SUCCEEDED"
        print(f"EAP-{method}: {2 * SESSIONS} sessions, {outcome}, {syncs} resynchronised")
        if not succeeded:
            print(log)
    return good


# ---- kills

class Client(threading.Thread):
    """Asks for vectors, one after the other, until it is told to end, and keeps each SQN that it received."""

    def __init__(self, folder, place, seed, subscribers=SUBSCRIBERS, path=None):
        super().__init__(daemon=True)
        self.gateway, self.own = str(path or folder / "centre"), folder / f"caller{place}"
        self.chance, self.rows = random.Random(seed), [row_of(it) for it in range(subscribers)]
        self.sqns, self.auts, self.refused, self.ending = [], {}, 0, False

    def run(self):
        with socket.socket(socket.AF_UNIX, socket.SOCK_DGRAM) as self.socket:
            self.socket.bind(str(self.own))
            self.socket.settimeout(0.5)
            while not self.ending:
                try:
                    self.ask(self.chance.choice(self.rows))
                except OSError:
                    # The gateway is dead, or was killed before it answered.
                    time.sleep(0.005)

    def ask(self, row):
        self.socket.sendto(f"AKA-REQ-AUTH {row.imsi}".encode(), self.gateway)
        words = self.socket.recv(4096).decode().split()
        if words[2] == "FAILURE":
            self.refused += 1
            return
        rand, autn = (bytes.fromhex(word) for word in words[2:4])
        row = self.rows[int(words[1][5:])]
        f = row.functions(rand)
        sqn = f.sqn_of(autn)
        assert f.is_right(autn), words
        self.sqns.append((row.imsi, int.from_bytes(sqn, "big")))
        if self.chance.random() < 0.05:
            self.resynchronise(row, rand, f, seq_of(sqn))

    def resynchronise(self, row, rand, f, seq):
        """Sends an AUTS whose SEQ is somewhat above or below what was received; at times a wrong one, or an old one."""
        seq = max(0, seq + self.chance.randrange(-200, 400))
        said = f"AKA-AUTS {row.imsi} {f.auts(sqn_of(seq)).hex()} {rand.hex()}"
        what = self.chance.randrange(3)
        if what == 1:
            said = said[:-1] + ("0" if said[-1] != "0" else "1")
        elif what == 2:
            said = self.auts.get(row.imsi, said)
        self.auts[row.imsi] = said
        self.socket.sendto(said.encode(), self.gateway)


def wait_for_answers(clients, count):
    """Waits until the clients have got so many more answers, or for some seconds."""
    until, wanted = time.monotonic() + LONGEST_WAIT, sum(len(client.sqns) for client in clients) + count
    while time.monotonic() < until and sum(len(client.sqns) for client in clients) < wanted:
        time.sleep(0.001)


def killed(gateway, clients, given):
    """Kills the gateway or, if it keeps one, the program at random moments: how often each of them."""
    chance, until, counts = random.Random(given.seed), time.monotonic() + given.seconds, {"gateway": 0, "program": 0}
    while sum(counts.values()) < given.kills and time.monotonic() < until:
        wait_for_answers(clients, chance.randrange(MOST_ANSWERS))
        time.sleep(chance.uniform(0, 0.05))
        if chance.random() < 0.5 or isinstance(gateway, Rival):
            gateway.kill()
            gateway.start()
            counts["gateway"] += 1
        else:
            counts["program"] += gateway.kill_program()
    for client in clients:
        client.ending = True
    for client in clients:
        client.join()
    return counts


class Kills:
    """What four clients received while something was killed."""

    def __init__(self, name, counts, clients):
        sqns = [it for client in clients for it in client.sqns]
        self.name, self.counts, self.received, self.again = name, counts, len(sqns), len(sqns) - len(set(sqns))
        self.refused = sum(client.refused for client in clients)

    def times(self):
        program = f", {self.counts['program']} of the program" if self.counts["program"] else ""
        return f"{self.counts['gateway']} kills of the gateway{program}"

    def said(self):
        return f"{self.name}: {self.times()}; {self.received} SQNs received, {self.again} came again; {self.refused} requests refused"

    def cell(self):
        verdict = f"{self.again:,}" if self.again else "holds: none"
        return f"{verdict} of {self.received:,} SQNs came again; {self.times()}"


def kills_of(name, gateway, folder, given):
    clients = []
    try:
        gateway.start()
        clients = [Client(folder, place, given.seed + place, path=gateway.path) for place in range(CLIENTS)]
        for client in clients:
            client.start()
        counts = killed(gateway, clients, given)
    finally:
        gateway.end()
    found = Kills(name, counts, clients)
    print(found.said(), flush=True)
    return found


def all_kills(given):
    """What came of the kills of tools/gateway, and of the rivals that are there."""
    with tempfile.TemporaryDirectory(dir="/tmp") as name:
        found = [kills_of("`tools/gateway` over `auc serve`", Gateway(Path(name), given, SUBSCRIBERS), Path(name), given)]
    for kind in (TextFile, Sqlite) if given.hlr_auc_gw else ():
        with tempfile.TemporaryDirectory(dir="/tmp") as name:
            found.append(kills_of(kind.name, Rival(kind, name, given), Path(name), given))
    return found


def table(found, sessions, given):
    version = f"; hlr_auc_gw of hostapd {gateway_version(given.hlr_auc_gw)}" if given.hlr_auc_gw else ""
    rows = [[it.name for it in found], ["---"] * len(found), [it.cell() for it in found]]
    text = "".join(f"| {' | '.join(row)} |\n" for row in rows)
    return (f"{text}\n{CLIENTS} clients at once, {SUBSCRIBERS} subscribers, AUTS that are right, wrong or replayed. {sessions}"
            f"Version {version_of(TOP)}{version}; {datetime.date.today()}. `{SCRIPT}` runs the trial.\n")


def main():
    given = options()
    given.program = runnable(given.program)
    if given.hlr_auc_gw is not None:
        runnable(given.hlr_auc_gw, HOW)
    good, sessions = True, ""
    if hostapd.are_there():
        good = all_sessions(given)
        sessions = f"All {2 * SESSIONS * len(METHODS)} sessions of a stock hostapd succeeded, before and after a kill. " if good else ""
    else:
        print("sessions: hostapd and eapol_test aren't there")
    found = all_kills(given)
    if given.write:
        write_part(TOP / "README.md", SCRIPT, table(found, sessions, given))
    return 0 if good and not found[0].again and found[0].received else 1


if __name__ == "__main__":
    run_main(main)
