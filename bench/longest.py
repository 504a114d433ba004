#!/usr/bin/env python3
"""Runs the program on journals of about the greatest length, 2^30 bytes.

    bench/longest.py [PROGRAM]      PROGRAM: crates/auc_cli/out/auc_cli, unless it is given

A frame has 19 bytes, so the longest journal has 56,512,726 frames, and 1,073,741,811 bytes. All its frames are of one
subscriber, with limit 64. Then, by docs/journal.md:

- `reserved` tells the limit 64;
- a run that draws the number 65 needs another limit, for which there is no room: the number is withheld, the round is written,
  no further round is run, and the status is 8;
- the same holds if bytes stand behind the closed gate, up to 2^30;
- in a journal of one frame less there is room for one: a run draws 65, and leaves the longest journal with limit 128; the next run
  withholds 129;
- a file of more than 2^30 bytes is no journal, at place 1073741824.

No run changes the file but the one that appends. It needs 1 GiB of disk and 3 GiB of memory, and takes about a minute. The exit
status is 0 only if each rule holds.
"""
import sys
import tempfile
import time
from pathlib import Path

from journal import FRAME, HEADER, MOST, NAME, imsi, run, subscriber, write_scenario
from measure import TOP, program

sys.path.append(str(TOP / "tools"))
from ends import run_main

FRAMES = 56512726
LONGEST = 1073741811
PIECE = 1 << 20
SUB = imsi(0)


def frame(limit):
    """A frame of the subscriber: an open gate and a body."""
    return bytes([1, 1, len(SUB)]) + int(SUB).to_bytes(8, "big") + limit.to_bytes(8, "big")


def pieces(frames, last, behind):
    """The bytes of a journal of so many frames of limit 64 and then a last one, with bytes behind its closed gate."""
    yield HEADER
    many = frame(64) * PIECE
    for _ in range((frames - 1) // PIECE):
        yield many
    yield frame(64) * ((frames - 1) % PIECE) + frame(last) + b"\0" + behind


def write_journal(folder, frames, behind=b""):
    """Writes such a journal, and answers its size."""
    path = Path(folder) / NAME
    with open(path, "wb") as file:
        file.writelines(pieces(frames, 64, behind))
    return path.stat().st_size


def is_journal(folder, frames, last, behind=b""):
    """Whether the file still has these bytes and no others."""
    with open(Path(folder) / NAME, "rb") as file:
        return all(file.read(len(piece)) == piece for piece in pieces(frames, last, behind)) and not file.read(1)


def withheld(number):
    """The status and the lines of a run that has no room for a limit of this number, its first one."""
    lines = ["round 1", "job 1", f"withheld {SUB} {number} full", f"closed {SUB} {number - 1} {number} 1 0 0 1"]
    return 8, [line.split() for line in lines]


def drawn(number):
    """The status and the lines of a run whose two rounds draw this number and the next one."""
    lines = []
    for n in (number, number + 1):
        lines += [f"round {n - number + 1}", "job 1", f"vector {SUB} {n}", f"closed {SUB} {n - 1} {n} 1 0 1 0"]
    return 0, [line.split() for line in lines]


def told(limit):
    """The status and the lines of `reserved`."""
    return 0, [["reserved", SUB, str(limit)]]


NO_JOURNAL = (7, [["refused", "journal", str(MOST)]])


def judge(folder, name, wanted, *words):
    """Runs the program, and compares its status and its lines."""
    begun = time.monotonic()
    answer = run(program(), folder, *words)
    assert answer == wanted, f"{name}: {answer} in place of {wanted}"
    print(f"{name}: status {answer[0]}, {time.monotonic() - begun:.1f} s")


def longest(folder):
    assert write_journal(folder, FRAMES) == LONGEST
    judge(folder, "the longest journal, reserved", told(64), "reserved")
    judge(folder, "the longest journal", withheld(65))
    assert is_journal(folder, FRAMES, 64), "the longest journal was changed"


def filled(folder):
    behind = b"\1" * (MOST - LONGEST)
    assert write_journal(folder, FRAMES, behind) == MOST
    judge(folder, "the same with bytes behind it up to 2^30", withheld(65))
    assert is_journal(folder, FRAMES, 64, behind), "the filled journal was changed"


def one_less(folder):
    assert write_journal(folder, FRAMES - 1) == LONGEST - FRAME
    judge(folder, "one frame less", drawn(65))
    assert is_journal(folder, FRAMES, 128), "the last limit isn't in the journal"
    judge(folder, "the run after it", withheld(129))
    assert is_journal(folder, FRAMES, 128), "the journal was changed"


def too_long(folder):
    for name, frames, behind in (("one frame more", FRAMES + 1, b""), ("one byte more than 2^30", FRAMES, b"\0" * (MOST + 1 - LONGEST))):
        assert write_journal(folder, frames, behind) > MOST
        judge(folder, name, NO_JOURNAL)
        judge(folder, f"{name}, reserved", NO_JOURNAL, "reserved")
        assert is_journal(folder, frames, 64, behind), f"{name}: the file was changed"


def main():
    with tempfile.TemporaryDirectory() as folder:
        write_scenario(folder, [subscriber(0), *["round", "job", f"draw {SUB} 1"] * 2])
        for case in (longest, filled, one_less, too_long):
            case(folder)


if __name__ == "__main__":
    run_main(main, __doc__)
