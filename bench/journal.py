"""What the scripts here know of a journal: its bytes, read by the format in docs/journal.md, and runs over one."""
import subprocess
from pathlib import Path

from measure import subscriber_line

HEADER, MOST, MAX_SEQ, FRAME, ENTRY, GROUP = b"AUC-SQN-JOURNAL1", 2**30, 8796093022207, 19, 17, 256
NAME = "auc.journal"


class NotJournal(Exception):
    """These bytes are no journal, at a place."""

    def __init__(self, place):
        super().__init__(place)
        self.place = place


def entry_in(entry):
    """The IMSI and the limit of an entry; nothing if it is none."""
    number, limit = int.from_bytes(entry[1:9], "big"), int.from_bytes(entry[9:17], "big")
    if not 6 <= entry[0] <= 15 or number >= 10 ** entry[0] or not 1 <= limit <= MAX_SEQ:
        return None
    return f"{number:0{entry[0]}}", limit


def entries_in(rest):
    """The entries of the body that some bytes begin with, and its length; nothing if there is none."""
    kind, count = rest[:1], int.from_bytes(rest[1:3], "big")
    if kind not in (b"\1", b"\2") or kind == b"\2" and not 2 <= count <= GROUP:
        return None
    first, count = (1, 1) if kind == b"\1" else (3, count)
    size = first + ENTRY * count
    if len(rest) < size:
        return None
    entries = [entry_in(rest[at:at + ENTRY]) for at in range(first, size, ENTRY)]
    return None if None in entries else (entries, size)


def frames_in(data):
    """Each frame of a journal's bytes: the place of its gate, the place of the next gate, and its entries."""
    if data and data[:16] != HEADER:
        raise NotJournal(0)
    if len(data) > MOST:
        raise NotJournal(MOST)
    at = 16
    while len(data) > 17 and at < len(data) and data[at] == 1:
        body = entries_in(data[at + 1:at + 4 + ENTRY * GROUP])
        if body is None:
            raise NotJournal(at)
        yield at, at + 1 + body[1], body[0]
        at += 1 + body[1]
    if len(data) == at == MOST:
        raise NotJournal(MOST)


def limits_of(data):
    """The limit of each IMSI of a journal's bytes."""
    limits = {}
    for _, _, entries in frames_in(data):
        for owner, limit in entries:
            limits[owner] = max(limit, limits.get(owner, 0))
    return limits


def imsi(sub):
    return f"00101{sub:010}"


def subscriber(sub):
    return subscriber_line(imsi(sub))


def write_scenario(folder, lines, name="scenario"):
    (Path(folder) / name).write_text("".join(line + "\n" for line in lines))


def run(program, folder, *words):
    """A run in a folder: its status, and the lines that it printed, each as its words."""
    done = subprocess.run([program, *(words or ("run", "scenario"))], cwd=folder, capture_output=True, text=True, timeout=120)
    assert not done.stderr, done.stderr
    return done.returncode, [line.split() for line in done.stdout.splitlines()]


def vectors_in(lines):
    """The subscriber and the number of each vector of some lines."""
    return [(line[1], int(line[2])) for line in lines if line[0] == "vector"]
