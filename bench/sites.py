#!/usr/bin/env python3
"""Lets several gateways serve one set of subscribers by leases of a real PostgreSQL, kills gateways and the server under load, and
measures what the leases cost.

    bench/sites.py [--program PROGRAM] [--subscribers N] [--seconds N] [--seed N] [--write]

PROGRAM is crates/auc_cli/out/auc_cli, unless it is given. The server comes from Debian's package postgresql; the script runs one
of its own on the loopback, in a new folder, and needs no other. --write puts the table into docs/LEASES.md, between its two marks.

rates       one, two and three gateways out of three, and one over a journal, each with a client that has 64 requests on their way:
            requests a second, and the processor time of a request in gateway, master and program
indices     what a USIM says to the vectors of each subscriber in the order in which they came from three gateways: if each
            has indices of its own, and if all three were started as the first one
kills       three gateways, six clients that ask for vectors, some with AUTS that are right, replayed or wrong. Gateways, their
            masters and programs, and the server are killed by SIGKILL at random moments, and started again
fail-over   the same three gateways. The server has a standby that each commit waits for; it is killed, and the standby takes over.
            Then the old server comes back for a while, and the masters, which were killed, find it first

Each SQN that a client received is counted. The exit status is 0 only if none came twice, and the USIMs accepted each vector of
gateways with indices of their own.
"""
import argparse
import contextlib
import datetime
import os
import random
import resource
import signal
import socket
import statistics
import subprocess
import sys
import tempfile
import time
from collections import Counter, defaultdict
from concurrent.futures import ProcessPoolExecutor, ThreadPoolExecutor
from pathlib import Path

import live
from journal import imsi
from measure import BUILT, KEYS, TOP, runnable
from postgres import PASSWORD, USER, Server, children_of, programs

sys.path.append(str(TOP / "tools"))
from eap.ciphers import encryption
from eap.milenage import Functions
from eap.usim import Usim
from ends import Missing, run_main
from gateway_centre import Subscriber
from gateway_leases import IN_MEMORY

PAGE = TOP / "docs/LEASES.md"
BEGIN, END = "<!-- begin: bench/sites.py -->\n", "<!-- end: bench/sites.py -->\n"
SITES, WINDOW, TURNS, FIRST_SECONDS, RATE_SECONDS, CLIENTS = 3, 64, 3, 10, 6, 2
KINDS = "gateway", "master", "program", "server"
# How many SQNs come before and after a fail-over, and for how many seconds the old server comes back.
AT_FAIL_OVER, RETURNED = 10_000, 5
# Seconds that clients get for so many answers.
LONGEST_WAIT = 120


def options():
    parser = argparse.ArgumentParser(description=__doc__, formatter_class=argparse.RawDescriptionHelpFormatter)
    parser.add_argument("--program", type=Path, default=BUILT)
    parser.add_argument("--subscribers", type=int, default=1000)
    parser.add_argument("--seconds", type=int, default=60, help="how long the kills go on (default 60)")
    parser.add_argument("--seed", type=int, default=1)
    parser.add_argument("--write", action="store_true", help="put the table into docs/LEASES.md")
    parser.set_defaults(patience=1.0)
    return parser.parse_args()


# ---- servers and gateways

@contextlib.contextmanager
def trial():
    """A new folder with a server in it that has the table."""
    with tempfile.TemporaryDirectory(dir="/tmp") as name:
        server = Server(Path(name))
        try:
            server.make()
            server.start()
            os.environ["PGPASSWORD"] = PASSWORD
            master(server.place(), "--make")
            yield Path(name), server
        finally:
            server.end()


def master(*words):
    return subprocess.run([TOP / "tools/master", *words], check=True, capture_output=True, text=True).stdout


def is_master(number):
    try:
        return b"tools/master" in Path(f"/proc/{number}/cmdline").read_bytes()
    except OSError:
        return False


class Site(live.Gateway):
    """A gateway with leases of a store, or over a journal."""

    def __init__(self, folder, given, place=None, site=None):
        folder.mkdir(parents=True)
        words = ["--leases", f"{TOP / 'tools/master'} {place}", "--site", f"{site}/{SITES}", "--folder", IN_MEMORY] if place else []
        super().__init__(folder, given, given.subscribers, *words)

    def kill_child(self, what):
        """Kills the master, or a run that is under way: whether there was one soon."""
        until = time.monotonic() + live.LONGEST_WAIT
        while time.monotonic() < until:
            for number in children_of(self.child.pid):
                if (what == "master") == is_master(number):
                    with contextlib.suppress(ProcessLookupError):
                        os.kill(number, signal.SIGKILL)
                    return True
            time.sleep(0.001)
        return False

    def seconds(self):
        """Ends the gateway: the processor time that it, its runs and its master took."""
        before = resource.getrusage(resource.RUSAGE_CHILDREN)
        self.end()
        after = resource.getrusage(resource.RUSAGE_CHILDREN)
        return after.ru_utime + after.ru_stime - before.ru_utime - before.ru_stime


@contextlib.contextmanager
def sites(folder, given, place, numbers):
    """Gateways that serve, each with the number of its site."""
    found = [Site(folder / f"site{at}", given, place, number) for at, number in enumerate(numbers)]
    try:
        with ThreadPoolExecutor(SITES) as pool:
            list(pool.map(Site.start, found))
        yield found
    finally:
        for it in found:
            it.end()


# ---- what came

# All subscribers have the same keys.
K, OPC = bytes.fromhex(KEYS[0]), bytes.fromhex(KEYS[2])


def functions(rand):
    return Functions(encryption(K), OPC, rand)


def sqns_of(answers):
    """The IMSI and the SQN of each answer."""
    found = []
    for answer in answers:
        _, own, rand, autn, *_ = answer.split()
        sqn = functions(bytes.fromhex(rand)).sqn_of(bytes.fromhex(autn))
        found.append((own, int.from_bytes(sqn, "big")))
    return found


def came_again(sqns):
    return len(sqns) - len(set(sqns))


class Told:
    """The functions of a vector whose MAC is right, for a USIM that is told the SQN."""

    def sqn_of(self, autn):
        return autn

    def is_right(self, _):
        return True

    def auts(self, _):
        return None


def refused_by_usims(sqns):
    """How many of the vectors, in their order, the USIMs of their subscribers refuse."""
    usims = defaultdict(lambda: Usim(lambda _: Told(), 0))
    return sum(usims[own].challenge(b"", sqn.to_bytes(6, "big"))[0].startswith("sync") for own, sqn in sqns)


# ---- rates

def asked(path, own, seed, given, until):
    """Keeps some requests on their way until then: each answer with its time."""
    chance, answers = random.Random(seed), []
    with socket.socket(socket.AF_UNIX, socket.SOCK_DGRAM) as client:
        client.bind(own)
        client.connect(path)
        client.settimeout(0.5)

        def say():
            client.send(f"AKA-REQ-AUTH {imsi(chance.randrange(given.subscribers))}".encode())

        for _ in range(WINDOW):
            say()
        while time.monotonic() < until:
            with contextlib.suppress(socket.timeout):
                answers.append((client.recv(4096).decode(), time.monotonic()))
                say()
    return answers


def rate(given, place, numbers, folder):
    """Requests a second of these sites, the processor time of a request, and the vectors in the order of their coming. The rate
    counts after most subscribers have come once."""
    with sites(folder, given, place, numbers) as found, ProcessPoolExecutor(len(found)) as pool:
        counted = time.monotonic() + FIRST_SECONDS
        until = counted + RATE_SECONDS
        clients = [pool.submit(asked, str(it.path), str(it.folder / "client"), at, given, until) for at, it in enumerate(found)]
        answers = [answer for it in clients for answer in it.result()]
        spent = sum(it.seconds() for it in found)
    vectors = sorted((at, answer) for answer, at in answers if not answer.endswith("FAILURE"))
    rate = sum(at >= counted for at, _ in vectors) / RATE_SECONDS
    return rate, spent / len(vectors), [answer for _, answer in vectors]


def median(rows, place):
    return statistics.median(row[place] for row in rows)


def all_rates(given):
    """The rows of the table, and whether all was well. The kinds take turns, so that the load of the machine meets each alike."""
    kinds = {"a journal": None, **{f"leases, {count} of {SITES}": range(1, count + 1) for count in range(1, SITES + 1)}}
    found, again = defaultdict(list), 0
    with trial() as (folder, server):
        for turn in range(TURNS):
            for at, (kind, numbers) in enumerate(kinds.items()):
                place = server.place() if numbers else None
                found[kind].append(rate(given, place, numbers or [None], folder / f"rate{turn}{at}"))
        every = [answer for kind in kinds if kinds[kind] for *_, answers in found[kind] for answer in answers]
        again = came_again(sqns_of(every))
    journal, one = found["a journal"], found[f"leases, 1 of {SITES}"]
    rows = []
    for kind, runs in found.items():
        speed, spent = median(runs, 0), median(runs, 1)
        rows.append((kind, speed / median(journal, 0), speed / median(one, 0), spent / median(journal, 1)))
        print(f"rates: {kind}: {speed:.0f} requests a second, {1000 * spent:.3f} ms of processor time each")
    print(f"rates: {len(every)} SQNs received, {again} came again")
    return rows, again == 0


def all_indices(given):
    """How many of how many vectors USIMs refuse, with indices of their own and with the same ones."""
    said = []
    for numbers in ((1, 2, 3), (1, 1, 1)):
        with trial() as (folder, server):
            sqns = sqns_of(rate(given, server.place(), numbers, folder / "rate")[2])
        said.append((refused_by_usims(sqns), len(sqns), came_again(sqns)))
        print(f"indices: sites {numbers}: {said[-1][1]} vectors, USIMs refuse {said[-1][0]}, {said[-1][2]} came again")
    return said, said[0][0] == 0 and not any(again for *_, again in said)


# ---- kills

class Row(Subscriber):
    """A subscriber whose vectors are read by a faster cipher, if there is one."""

    def functions(self, rand):
        return functions(rand)


class Client(live.Client):
    """A client of one gateway, for all subscribers."""

    def __init__(self, site, place, given):
        super().__init__(site.folder, place, given.seed + place, given.subscribers)
        self.rows = [Row(*it) for it in self.rows]


@contextlib.contextmanager
def clients_of(found, given):
    """Clients that ask until the end of the block."""
    clients = [Client(site, place * CLIENTS + at, given) for place, site in enumerate(found) for at in range(CLIENTS)]
    for client in clients:
        client.start()
    try:
        yield clients
    finally:
        for client in clients:
            client.ending = True
        for client in clients:
            client.join()


def judged(clients, place, what):
    """Whether no SQN came twice, and each is at or below the number that the store has."""
    sqns = [it for client in clients for it in client.sqns]
    numbers = {line.split()[1]: int(line.split()[2]) for line in master(place, "--numbers").splitlines()}
    above = sum(sqn >> 5 > numbers.get(own, 0) for own, sqn in sqns)
    said = (f"{what}; {len(sqns)} SQNs received, {came_again(sqns)} came again, {above} above the store's number; "
            f"{sum(client.refused for client in clients)} requests refused")
    print(said)
    return said, came_again(sqns) == 0 and above == 0 and len(sqns) > 0


def wait_for(clients, count):
    """Waits until the clients have got so many more answers: whether they did in this time."""
    until, wanted = time.monotonic() + LONGEST_WAIT, sum(len(it.sqns) for it in clients) + count
    while time.monotonic() < until and sum(len(it.sqns) for it in clients) < wanted:
        time.sleep(0.001)
    return time.monotonic() < until


def kill_one(found, server, chance):
    """Kills something: what it was."""
    site, [what] = chance.choice(found), chance.choices(KINDS, (4, 2, 4, 1))
    if what == "gateway":
        site.kill()
        time.sleep(chance.uniform(0, 0.2))
        site.start()
    elif what == "server":
        server.kill()
        time.sleep(chance.uniform(0, 0.5))
        server.start()
    elif not site.kill_child(what):
        return None
    return what


def all_kills(given):
    chance, counts = random.Random(given.seed), Counter()
    with trial() as (folder, server), sites(folder, given, server.place(), range(1, SITES + 1)) as found:
        with clients_of(found, given) as clients:
            until = time.monotonic() + given.seconds
            while time.monotonic() < until:
                wait_for(clients, chance.randrange(500))
                counts[kill_one(found, server, chance)] += 1
        said = ", ".join(f"{counts[what]} of {'the server' if what == 'server' else f'{what}s'}" for what in KINDS)
        return judged(clients, server.place(), f"kills in {given.seconds} s: {said}")


def all_fail_overs(given):
    with trial() as (folder, server):
        standby = Server(folder, "standby")
        try:
            standby.follow(server)
            place = (f"postgresql://{USER}@127.0.0.1:{server.port},127.0.0.1:{standby.port}/postgres"
                     "?target_session_attrs=read-write")
            with sites(folder, given, place, range(1, SITES + 1)) as found, clients_of(found, given) as clients:
                good = wait_for(clients, AT_FAIL_OVER)
                server.kill()
                standby.promote()
                # It has no standby of its own.
                for statement in ("ALTER SYSTEM RESET synchronous_standby_names", "SELECT pg_reload_conf()"):
                    standby.ask(statement)
                good = wait_for(clients, AT_FAIL_OVER) and good
                # The old one takes connections again, and each commit waits for the standby that it has lost.
                server.start()
                for site in found:
                    good = site.kill_child("master") and good
                time.sleep(RETURNED)
                server.kill()
                good = wait_for(clients, AT_FAIL_OVER) and good
            what = (f"fail-over: to a standby after some {AT_FAIL_OVER} SQNs; after as many more the old server came back for "
                    f"{RETURNED} s")
            said, none = judged(clients, place, what)
            return said, none and good
        finally:
            standby.end()


# ---- the table

def table(rates, indices, said):
    lines = ["| Gateways | Requests a second, as a ratio to a journal | to one with leases | Processor time of a request, to a "
             "journal |", "|---|---:|---:|---:|"]
    lines += [f"| {kind} | {first:.2f} | {second:.2f} | {third:.2f} |" for kind, first, second, third in rates]
    own, same = indices
    lines += ["", f"- Indices: USIMs refused {own[0]} of {own[1]} vectors of three gateways with indices of their own, and "
                  f"{same[0]} of {same[1]} of three that were all started as `--site 1/{SITES}`."]
    lines += [f"- {it[0].upper()}{it[1:]}." for it in said]
    version = subprocess.run([programs() / "postgres", "--version"], capture_output=True, text=True).stdout.strip()
    lines += ["", f"{version}; {os.cpu_count()} processors for the server, gateways, programs and clients, beside other work; "
                  f"{datetime.date.today()}. `bench/sites.py --write` measures it anew."]
    return "\n".join([*lines, ""])


def write(text):
    before, rest = PAGE.read_text().split(BEGIN)
    PAGE.write_text(before + BEGIN + text + END + rest.split(END)[1])


def main():
    given = options()
    given.program = runnable(given.program)
    if programs() is None:
        raise Missing("PostgreSQL", "apt-get install postgresql")
    done = [part(given) for part in (all_rates, all_indices, all_kills, all_fail_overs)]
    text = table(done[0][0], done[1][0], [said for said, _ in done[2:]])
    print(text, end="")
    if given.write:
        write(text)
    return 0 if all(good for _, good in done) else 1


if __name__ == "__main__":
    run_main(main)
