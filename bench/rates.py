#!/usr/bin/env python3
"""Measures how many requests a second the gateway answers, beside hostapd's hlr_auc_gw.

    bench/rates.py --hlr-auc-gw FILE [--program PROGRAM] [--disk DIR] [--memory DIR] [--turns N] [--subscribers N,N]
                   [--clients N,N] [--write]

PROGRAM is crates/auc_cli/out/auc_cli, unless it is given. FILE is built from Debian's sources: bench/peers.py --help says how. The
two folders are one on a disk and one in memory.

Each client has a socket of its own. It asks for one vector of a subscriber that it takes by chance, waits for the answer, and asks
again. All clients are one process. Two that answer them are measured in turns of a second, over files on the same disk:

on the disk     tools/gateway over a journal, and hlr_auc_gw over SQLite
in memory       tools/gateway over a journal, and hlr_auc_gw over its text file, which it reads once and writes at its end

The gateway draws a vector ahead for each subscriber when it starts, and is asked after that; a note says how long it took. What it
draws ahead meanwhile is in its time. An answer without a vector ends the measurement. --write puts the table into docs/HOSTAPD.md,
between its marks.
"""
import argparse
import datetime
import os
import random
import select
import socket
import sys
import tempfile
import time
from contextlib import contextmanager
from pathlib import Path
from statistics import median

import live
from hostapd import wait_until
from journal import imsi
from measure import BUILT, TOP, runnable
from peers import gateway_version
from repository import version_of, write_part
from rivals import HOW, LONGEST_WAIT, Sqlite, TextFile

sys.path.append(str(TOP / "tools"))
from ends import run_main

SCRIPT, SEED, LONGEST_START = "bench/rates.py", 1, 60
# The shortest answer with a vector.
SHORTEST = 100
HEAD = ("| Subscribers | Clients | Disk: gateway | SQLite | Ratio | Memory: gateway | Text file | Ratio | Processor µs: gateway | Text file"
        " |\n|---|---:|---:|---:|---:|---:|---:|---:|---:|---:|\n")
TICKS = os.sysconf("SC_CLK_TCK")


def numbers(text):
    return [int(it) for it in text.split(",")]


def options():
    parser = argparse.ArgumentParser(description=__doc__, formatter_class=argparse.RawDescriptionHelpFormatter)
    parser.add_argument("--hlr-auc-gw", type=Path, required=True, help="the program that was built from hostapd's sources")
    parser.add_argument("--program", type=Path, default=BUILT)
    parser.add_argument("--disk", type=Path, default=Path("/var/tmp"), help="a folder on a disk (default /var/tmp)")
    parser.add_argument("--memory", type=Path, default=Path("/dev/shm"), help="a folder in memory (default /dev/shm)")
    parser.add_argument("--turns", type=int, default=5, help="how many seconds each rate is measured (default 5)")
    parser.add_argument("--subscribers", type=numbers, default=[1, 65536], help="how many there are (default 1,65536)")
    parser.add_argument("--clients", type=numbers, default=[1, 16], help="how many there are (default 1,16)")
    parser.add_argument("--write", action="store_true", help="put the table into docs/HOSTAPD.md")
    given = parser.parse_args()
    given.program, given.patience = runnable(given.program), LONGEST_WAIT
    runnable(given.hlr_auc_gw, HOW)
    return given


# ---- the clients

@contextmanager
def clients(count, path):
    """So many sockets that are connected to a gateway, by their descriptors."""
    with tempfile.TemporaryDirectory(dir="/tmp") as folder:
        sockets = [socket.socket(socket.AF_UNIX, socket.SOCK_DGRAM) for _ in range(count)]
        try:
            for place, it in enumerate(sockets):
                it.bind(f"{folder}/{place}")
                it.settimeout(LONGEST_WAIT)
                it.connect(str(path))
            yield {it.fileno(): it for it in sockets}
        finally:
            for it in sockets:
                it.close()


def ready(sockets):
    """A call that gives the sockets that may have an answer. One alone is waited for as it is read."""
    if len(sockets) == 1:
        return sockets.values
    poll = select.poll()
    for it in sockets:
        poll.register(it, select.POLLIN)
    return lambda: [sockets[it] for it, _ in poll.poll(1000 * LONGEST_WAIT)]


def take(client):
    """Takes an answer, which has to have a vector."""
    answer = client.recv(1000)
    if len(answer) < SHORTEST:
        raise SystemExit(f"no vector came: {answer}")


def asked(count, path, requests):
    """The answers in a second to requests that so many clients take of these, one after the other, and how long it was."""
    with clients(count, path) as sockets:
        some, answers = ready(sockets), 0
        for it in sockets.values():
            it.send(next(requests))
        began = now = time.monotonic()
        while now < began + 1:
            for it in some():
                take(it)
                answers += 1
                it.send(next(requests))
            now = time.monotonic()
        for it in sockets.values():
            take(it)
    return answers, now - began


def request(place):
    return f"AKA-REQ-AUTH {imsi(place)}".encode()


def by_chance(subscribers):
    """Requests for one of so many subscribers, each taken by chance, without an end."""
    requests, chance = [request(it) for it in range(subscribers)], random.Random(SEED)
    while True:
        yield chance.choice(requests)


# ---- what answers them

@contextmanager
def own(given, folder, subscribers):
    """The gateway after its start, and how long that took."""
    gateway, began = live.Gateway(folder, given, subscribers), time.monotonic()
    try:
        gateway.start()
        wait_until(lambda: "are ready" in (folder / "gateway.log").read_text(), "vectors that were drawn ahead", LONGEST_START)
        yield Measured(gateway.path, gateway.child.pid, time.monotonic() - began)
    finally:
        gateway.end()


@contextmanager
def rival(kind, given, folder, subscribers):
    made = kind(given.hlr_auc_gw, folder)
    made.store(imsis=[imsi(it) for it in range(subscribers)])
    gateway = made.start()
    try:
        yield Measured(gateway.path, gateway.child.pid)
    finally:
        gateway.end()


def processor_time(process):
    """The seconds of a process and of those that it started."""
    fields = Path(f"/proc/{process}/stat").read_text().rpartition(")")[2].split()
    children = Path(f"/proc/{process}/task/{process}/children").read_text().split()
    return (int(fields[11]) + int(fields[12])) / TICKS + sum(map(processor_time, children))


class Measured:
    """What was measured of one that answers."""

    def __init__(self, path, process, start=0):
        self.path, self.process, self.start = path, process, start
        self.rates, self.answers, self.spent = [], 0, 0

    def ask(self, count, requests):
        before = processor_time(self.process)
        answers, seconds = asked(count, self.path, requests)
        self.spent += processor_time(self.process) - before
        self.answers += answers
        self.rates.append(answers / seconds)

    def rate(self):
        return median(self.rates)

    def microseconds(self):
        """Of the processor, for each answer."""
        return 1e6 * self.spent / self.answers


def in_turns(count, both, subscribers, turns):
    """Measures two, each in every other second."""
    requests = by_chance(subscribers)
    for _ in range(turns):
        for it in both:
            it.ask(count, requests)
    return both


def measured(kind, place, count, subscribers, given):
    """The gateway and a rival, over files in a folder."""
    with tempfile.TemporaryDirectory(dir=place) as name, own(given, Path(name), subscribers) as first, \
            tempfile.TemporaryDirectory(dir=place) as other, rival(kind, given, Path(other), subscribers) as second:
        return in_turns(count, (first, second), subscribers, given.turns)


# ---- the table

def cells(both):
    ours, theirs = (it.rate() for it in both)
    return f"{ours:,.0f} | {theirs:,.0f} | {ours / theirs:.2f}"


def row(subscribers, count, given):
    """A row, and how long the gateway took to start on the disk."""
    disk = measured(Sqlite, given.disk, count, subscribers, given)
    memory = measured(TextFile, given.memory, count, subscribers, given)
    spent = " | ".join(f"{it.microseconds():,.0f}" for it in memory)
    return f"| {subscribers:,} | {count} | {cells(disk)} | {cells(memory)} | {spent} |\n", disk[0].start


def table(given):
    rows, starts = [HEAD], {}
    for subscribers in given.subscribers:
        for count in given.clients:
            text, starts[subscribers] = row(subscribers, count, given)
            rows.append(text)
            print(text, end="", flush=True)
    return "".join(rows), ", ".join(f"{seconds:.1f} s for {count:,}" for count, seconds in starts.items())


def main():
    given = options()
    before = os.getloadavg()[0]
    text, starts = table(given)
    text += (f"\nAnswers a second, each the middle one of {given.turns} turns of a second; and the processor time of an answer in memory,"
             f" of the gateway with its program. On the disk the gateway had drawn a vector ahead for each subscriber after {starts}."
             f" {os.cpu_count()} processors, and a load of {before:.0f} by `uptime` before and"
             f" {os.getloadavg()[0]:.0f} after. Version {version_of(TOP)}; hlr_auc_gw of hostapd"
             f" {gateway_version(given.hlr_auc_gw)}; {datetime.date.today()}. `{SCRIPT}` measures it.\n")
    print(text, end="")
    if given.write:
        write_part(TOP / "docs/HOSTAPD.md", SCRIPT, text)
    return 0


if __name__ == "__main__":
    run_main(main)
