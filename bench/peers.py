#!/usr/bin/env python3
"""Puts the program and other implementations through the same trials, and prints a table of what each does.

    bench/peers.py [--program PROGRAM] [--hlr-auc-gw FILE] [--write]

PROGRAM is crates/auc_cli/out/auc_cli, unless it is given. osmo-hlr and libosmogsm are in Debian's packages osmo-hlr and
libosmogsm18; without the first it is left out. hlr_auc_gw is built from Debian's source package: `apt-get source wpa`, then in
its folder hostapd `cp defconfig .config`, `echo CONFIG_SQLITE=y >> .config`, and `make hlr_auc_gw`. --write puts the table into
README.md, between its two marks. All is on the loopback, and it takes up to five minutes.

Each trial looks at the SQNs of one subscriber's vectors, as their AUTNs have them, and counts those that had come before. An
implementation holds if there are none. osmo-hlr gives 5 vectors a request, the others one. The trials:

killed      a request is made, the process is killed by SIGKILL and started again, 20 times
two         two processes over one store are asked at the same time, till each has given 2000 vectors, for 60 seconds at most
locked      another process holds the lock of the store while 10 requests are made
replayed    the AUTS of a USIM that accepted SEQ 100 is handed in; after 50 vectors it is handed in again, and so are 50
end         vectors are asked for at the last number but one, 3 or more

hlr_auc_gw's text file has no lock. libosmogsm keeps nothing: its caller hands it a number and gets the next, so the first three
trials aren't its own. SQN and AUTS are made by tools/eap.
"""
import argparse
import datetime
import fcntl
import signal
import subprocess
import sys
import tempfile
import time
from concurrent.futures import ThreadPoolExecutor
from pathlib import Path

from journal import NAME, run, write_scenario
from measure import BUILT, KEYS, TOP, runnable, subscriber_line
from rivals import HOW, IMSI, LAST, Library, OsmoHlr, Sqlite, TextFile, auts_of, sqns_of

sys.path.append(str(TOP / "tools"))
from eap import usim
from ends import run_main

PAGE = TOP / "README.md"
BEGIN, END = "<!-- begin: bench/peers.py -->\n", "<!-- end: bench/peers.py -->\n"
KILLS, EACH, REQUESTS, SEEN, AFTER = 20, 2000, 10, 100, 50
# Seconds that a client asks at most, and that it waits after a refusal.
LONGEST_TRIAL, AFTER_REFUSAL = 60, 0.005
# The trials of what is stored.
STORED = ("killed", "two", "locked")
# What each trial does, and what its figures count.
HEADS = {
    "killed": f"killed after an answer and started again, {KILLS} times",
    "two": f"two processes on one store, asked at once for {EACH} vectors each, {LONGEST_TRIAL} seconds at most",
    "locked": f"another process holds the store's lock during {REQUESTS} requests",
    "replayed": f"an AUTS of SEQ {SEEN} comes a second time, {AFTER} vectors after it each time",
    "end": "the end of the numbers: vectors at the last one but one",
}


def options():
    parser = argparse.ArgumentParser(description=__doc__, formatter_class=argparse.RawDescriptionHelpFormatter)
    parser.add_argument("--program", type=Path, default=BUILT)
    parser.add_argument("--hlr-auc-gw", type=Path, help="the program that was built from hostapd's sources")
    parser.add_argument("--write", action="store_true", help="put the table into README.md")
    return parser.parse_args()


def came_again(sqns, refused=0):
    """Whether an SQN came that had come before. It is said if requests were refused."""
    count, also = len(sqns) - len(set(sqns)), f"; {refused} requests refused" if refused else ""
    if not sqns:
        return f"holds: no vector{also}"
    return f"{count} of {len(sqns)} SQNs came again{also}" if count else f"holds: none of {len(sqns)} SQNs came again{also}"


def sqn_of(seq):
    """An SQN of this SEQ, with the index 1."""
    return 32 * seq + 1


# ---- the program

class Auc:
    """The program, over one journal."""
    name = "`auc`"
    keeps = True

    def __init__(self, program, folder):
        self.program, self.folder = runnable(program), folder

    def lines(self, scenario, seq=0):
        keys = [*KEYS[:4], str(seq), "0"]
        write_scenario(self.folder, [" ".join(["subscriber", IMSI, *keys]), "round", "job", *scenario])
        return run(self.program, self.folder)

    def sqns(self, lines):
        # A vector of number n carries the SQN of n: SEQ n and the index n modulo 32.
        return [int.from_bytes(usim.sqn_of(int(line[2])), "big") for line in lines if line[0] == "vector"]

    def write_many_rounds(self):
        write_scenario(self.folder, [subscriber_line(IMSI), *["round", "job", f"draw {IMSI} 1"] * 1000])

    def started(self):
        return subprocess.Popen([self.program, "run", "scenario"], cwd=self.folder, stdout=subprocess.PIPE, text=True)

    def killed(self):
        sqns = []
        self.write_many_rounds()
        for _ in range(KILLS):
            child = self.started()
            printed = [child.stdout.readline() for _ in range(3)]
            child.kill()
            printed += child.stdout.readlines()
            child.wait()
            sqns += self.sqns([line.split() for line in printed if line.endswith("\n")])
        return came_again(sqns)

    def two(self):
        self.write_many_rounds()
        first = self.started()
        first.stdout.readline()
        first.send_signal(signal.SIGSTOP)
        status, lines = run(self.program, self.folder)
        first.send_signal(signal.SIGCONT)
        sqns = self.sqns([line.split() for line in first.communicate()[0].splitlines()])
        assert status == 6 and not lines and len(sqns) == len(set(sqns)), (status, lines)
        return "holds: the second process is refused"

    def locked(self):
        assert self.lines([f"draw {IMSI} 1"])[0] == 0
        with open(Path(self.folder) / NAME, "rb") as journal:
            fcntl.flock(journal, fcntl.LOCK_EX)
            done = [self.lines([f"draw {IMSI} 1"]) for _ in range(REQUESTS)]
        refused = sum(status == 6 for status, _ in done)
        return came_again(self.sqns(line for _, lines in done for line in lines), refused)

    def replayed(self):
        status, lines = self.lines([f"sync {IMSI} {SEEN} - {AFTER}", f"sync {IMSI} {SEEN} - {AFTER}"])
        assert status == 0, status
        return came_again(self.sqns(lines))

    def end(self):
        status, lines = self.lines([f"draw {IMSI} 3"], seq=2**43 - 2)
        assert status == 0, status
        assert any(line[0] == "exhausted" for line in lines), lines
        return f"holds: {len(self.sqns(lines))} vector, then it says that none is left"


# ---- the others

def asked(client, count):
    """The first vectors that a client gets, so many or few more, and how many of its requests were refused. After a refusal it
    waits a little, so that another client of the store gets on."""
    vectors, refused, until = [], 0, time.monotonic() + LONGEST_TRIAL
    while len(vectors) < count and time.monotonic() < until:
        got = client.vectors()
        vectors += got
        refused += not got
        time.sleep(0 if got else AFTER_REFUSAL)
    return vectors, refused


class Rival:
    """Another implementation in each trial, over a store in a folder of its own."""

    def __init__(self, kind, program, folder):
        self.rival = kind(program, folder)
        self.keeps = self.rival.keeps

    def killed(self):
        self.rival.store()
        vectors = []
        for _ in range(KILLS):
            client = self.rival.start()
            vectors += client.vectors()
            client.end()
        return came_again(sqns_of(vectors))

    def two(self):
        self.rival.store()
        both = [self.rival.start(number) for number in range(2)]
        with ThreadPoolExecutor(2) as pool:
            done = list(pool.map(lambda client: asked(client, EACH), both))
        for client in both:
            client.end()
        vectors = [vector for got, _ in done for vector in got]
        return came_again(sqns_of(vectors), sum(refused for _, refused in done))

    def locked(self):
        if self.rival.locked is None:
            return "has no lock"
        self.rival.store()
        client = self.rival.start()
        with self.rival.locked():
            done = [client.vectors() for _ in range(REQUESTS)]
        client.end()
        return came_again(sqns_of(vector for got in done for vector in got), sum(not got for got in done))

    def replayed(self):
        self.rival.store()
        client = self.rival.start()
        (rand, _), *_ = client.vectors()
        auts, vectors = auts_of(rand, sqn_of(SEEN)), []
        for turn in range(1, 3):
            vectors += client.resynchronise(auts, rand)
            vectors += asked(client, turn * AFTER - len(vectors))[0]
        client.end()
        return came_again(sqns_of(vectors))

    def end(self):
        self.rival.store(LAST - 63)
        client = self.rival.start()
        sqns = sqns_of(asked(client, 3)[0])
        client.end()
        fallen = [later for sqn, later in zip(sqns, sqns[1:]) if later <= sqn]
        return f"it begins again, with SQN {fallen[0]}" if fallen else came_again(sqns)


# ---- the table

def version_of(package):
    answer = subprocess.run(["dpkg-query", "-W", "-f", "${Version}", package], capture_output=True, text=True)
    return answer.stdout or "unknown"


def gateway_version(program):
    """Of the folder that hlr_auc_gw was built in."""
    text = (program.resolve().parent.parent / "src/common/version.h").read_text()
    return text.split('VERSION_STR "')[1].split('"')[0]


def peers(given):
    """Each that is there, with its program, and what is to be said of its version."""
    kinds, notes = [], []
    if given.hlr_auc_gw is not None:
        runnable(given.hlr_auc_gw, HOW)
        kinds += [TextFile, Sqlite]
        notes.append(f"hlr_auc_gw of hostapd {gateway_version(given.hlr_auc_gw)}")
    if OsmoHlr.is_there():
        kinds.append(OsmoHlr)
        notes.append(f"osmo-hlr {version_of('osmo-hlr')} by GSUP, 5 vectors a request")
    notes.append(f"libosmogsm {version_of('libosmogsm18')} of Debian")
    return [*kinds, Library], ", ".join(notes)


def tried(make):
    """What a peer does in each trial, each in a folder of its own."""
    answers = {}
    for trial in HEADS:
        with tempfile.TemporaryDirectory(dir="/tmp") as folder:
            peer = make(folder)
            has_none = trial in STORED and not peer.keeps
            answers[trial] = "keeps no numbers" if has_none else getattr(peer, trial)()
    return answers


def table(rows, notes):
    lines = [f"| Trial | {' | '.join(rows)} |", "|---|" + "---|" * len(rows)]
    for trial, head in HEADS.items():
        lines.append(f"| {head} | {' | '.join(row[trial] for row in rows.values())} |")
    return "\n".join([*lines, "", notes, ""])


def write(text):
    before, rest = PAGE.read_text().split(BEGIN)
    PAGE.write_text(before + BEGIN + text + END + rest.split(END)[1])


def main():
    given = options()
    kinds, notes = peers(given)
    rows = {Auc.name: tried(lambda folder: Auc(given.program, folder))}
    for kind in kinds:
        rows[kind.name] = tried(lambda folder: Rival(kind, given.hlr_auc_gw, folder))
    text = table(rows, f'Each figure counts the SQNs that one subscriber had got before; "holds" means none. {notes};'
                       f" {datetime.date.today()}. `bench/peers.py` runs the trials.")
    print(text, end="")
    if given.write:
        write(text)


if __name__ == "__main__":
    run_main(main)
