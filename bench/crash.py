#!/usr/bin/env python3
"""Kills the program at random moments, and starts it again on the journal that is left: no number may come twice.

    bench/crash.py [PROGRAM [KILLS [SEED]]]     PROGRAM: crates/auc_cli/out/auc_cli, unless it is given; KILLS: 2000

Kills. Each run has 4 workers and many rounds. It is killed by SIGKILL at a random moment between its start and its
usual end, so also while it opens the journal. What it printed in whole lines counts. A short run follows on what is
left. Over all runs no number of a subscriber may be printed twice, and each run that isn't killed ends with status 0.
From time to time the journal is taken away together with all that was printed, so that first openings are killed too.
SIGKILL leaves what the system has in memory, so this tests the order of the program's calls, and not the disk.

Images. A journal is recorded, with a frame for three subscribers and frames for one. Each front of it, and each frame or gate of
it with torn bytes in it, is the input of a run. The status is 0 or 7 by the format in docs/journal.md, which this script reads by itself; a run of
status 0 draws above the limit that the image reserves, and one of status 7 tells the place.

Two processes. While a run is stopped, a second one in its folder ends with status 6 and prints nothing.

Syncs. strace lists the system calls of a run on the journal's file, on its folder and on the output. As the file is opened, it
and its folder are synced. Then the calls are those of docs/journal.md, in that order: the opening syncs once, and an append
twice, each behind its write. A round is written after the last sync of its appends. Without strace this rule isn't tried, and
the exit status is 3.

The exit status is 0 only if each rule holds.
"""
import random
import re
import shutil
import signal
import subprocess
import sys
import tempfile
import time
from pathlib import Path

from journal import (
    ENTRY, FRAME, GROUP, HEADER, NAME, NotJournal, frames_in, imsi, limits_of, run, subscriber, vectors_in, write_scenario,
)
from measure import TOP, program

sys.path.append(str(TOP / "tools"))
from ends import Missing, run_main

SUBSCRIBERS, ROUNDS, JOBS, COUNT = 8, 40, 8, 20
FRESH = 100
CALLS = "fsync,fdatasync,sync_file_range,ftruncate,write,writev,pwrite64,pwritev"
CALL = re.compile(r"\d+ +(\w+)\((\d+)<([^>]*)>(?:, .*, (\d+), (\d+))?.*\) += \d+")


def long_scenario():
    jobs = [line for sub in range(JOBS) for line in ("job", f"draw {imsi(sub % SUBSCRIBERS)} {COUNT}")]
    return ["workers 4", *map(subscriber, range(SUBSCRIBERS)), *["round", *jobs] * ROUNDS]


def short_scenario():
    return [*map(subscriber, range(SUBSCRIBERS)), "round", "job", *[f"draw {imsi(sub)} 1" for sub in range(SUBSCRIBERS)]]


def killed(folder, delay):
    """The lines that a run printed until it was killed, and whether it was; a line that isn't whole doesn't count."""
    with open(Path(folder) / "printed", "w+") as out:
        child = subprocess.Popen([program(), "run", "scenario"], cwd=folder, stdout=out)
        try:
            status = child.wait(delay)
        except subprocess.TimeoutExpired:
            child.kill()
            status = child.wait()
        out.seek(0)
        text = out.read()
    assert status in (0, -signal.SIGKILL), status
    return [line.split() for line in text[:text.rfind("\n") + 1].splitlines()], status != 0


def note(seen, lines):
    for vector in vectors_in(lines):
        assert vector not in seen, f"{vector} comes twice"
        seen.add(vector)


def usual_time(folder):
    """How long a whole run takes."""
    begun = time.monotonic()
    status, _ = run(program(), folder)
    assert status == 0, status
    return time.monotonic() - begun


def kills(folder, count, rng):
    write_scenario(folder, long_scenario())
    write_scenario(folder, short_scenario(), "short")
    whole = usual_time(folder)
    journal, seen, hits, printed = Path(folder) / NAME, set(), 0, 0
    for turn in range(count):
        if turn % FRESH == 0:
            journal.unlink(missing_ok=True)
            seen.clear()
        # One of ten is killed while it starts and opens the journal.
        lines, hit = killed(folder, rng.uniform(0, whole / 20 if turn % 10 == 0 else whole))
        note(seen, lines)
        status, after = run(program(), folder, "run", "short")
        assert status == 0, status
        note(seen, after)
        hits, printed = hits + hit, printed + len(lines)
    print(f"kills: {hits} of {count} runs were killed, {printed} lines were printed, no number came twice")


def recorded(folder):
    """The bytes of a journal after some frames."""
    write_scenario(folder, [*map(subscriber, range(3)), "round", "job", *[f"draw {imsi(sub)} 150" for sub in range(3)]])
    (Path(folder) / NAME).unlink(missing_ok=True)
    status, _ = run(program(), folder)
    assert status == 0, status
    return (Path(folder) / NAME).read_bytes()


def torn(data, rng):
    """The bytes with one write of an append torn: the body with the next gate, or a gate alone."""
    for at, gate_behind, _ in frames_in(data):
        whole = data[:at] + b"\0" + data[at + 1:gate_behind + 1]
        for place in range(at + 1, gate_behind + 1):
            yield whole[:place] + bytes([rng.randrange(256)]) + whole[place + 1:]
            yield whole[:place]
        for gate in (0, 1, 2, 255):
            yield whole[:at] + bytes([gate]) + whole[at + 1:]
        yield data[:at + 1] + rng.randbytes(gate_behind - at - 1) + b"\0"


def image_is_answered(folder, data):
    (Path(folder) / NAME).write_bytes(data)
    status, lines = run(program(), folder, "run", "short")
    try:
        limits = limits_of(data)
    except NotJournal as wrong:
        assert (status, lines) == (7, [["refused", "journal", str(wrong.place)]]), (status, lines, wrong.place)
        return 7
    assert status == 0, (status, data.hex())
    assert vectors_in(lines) == [(imsi(sub), limits.get(imsi(sub), 0) + 1) for sub in range(SUBSCRIBERS)], lines
    return 0


def images(folder, rng):
    data = recorded(folder)
    write_scenario(folder, short_scenario(), "short")
    cases = [data[:size] for size in range(len(data) + 1)] + list(torn(data, rng))
    answers = [image_is_answered(folder, case) for case in cases]
    print(f"images: {len(cases)} images, {answers.count(7)} of them no journal, each answered by the format")


def two_processes(folder):
    write_scenario(folder, long_scenario())
    (Path(folder) / NAME).unlink(missing_ok=True)
    first = subprocess.Popen([program(), "run", "scenario"], cwd=folder, stdout=subprocess.DEVNULL)
    while not (Path(folder) / NAME).exists() or not (Path(folder) / NAME).stat().st_size:
        time.sleep(0.0005)
    first.send_signal(signal.SIGSTOP)
    assert first.poll() is None, "the first run has ended already"
    answer = run(program(), folder)
    first.send_signal(signal.SIGCONT)
    assert answer == (6, []), answer
    assert first.wait() == 0
    print("two processes: the second one ends with status 6 and prints nothing")


def traced(folder):
    """The calls of a run, in their order: a sync or a write, of the file or of its folder, and `print` for a write of the output."""
    names = {str(folder / NAME): "file", str(folder): "folder"}
    command = ["strace", "-f", "-y", "-qq", "-e", f"trace={CALLS}", "-o", "calls", program(), "run", "scenario"]
    done = subprocess.run(command, cwd=folder, stdout=subprocess.PIPE, stderr=subprocess.PIPE, text=True)
    assert done.returncode == 0, (done.returncode, done.stderr)
    for line in (folder / "calls").read_text().splitlines():
        call = CALL.fullmatch(line)
        assert call, line
        kind, descriptor, path, size, place = call.groups()
        if kind == "pwrite64":
            yield f"write {names.get(path, path)} {size} {place}"
        else:
            yield "print" if (kind, descriptor) == ("write", "1") else f"{kind} {names.get(path, path)}"


def append_calls(gate, size):
    """The calls of an append of a frame behind a gate: the body and the next gate, and then the gate before them."""
    return [f"write file {size} {gate + 1}", "fsync file", f"write file 1 {gate}", "fsync file"]


def syncs_of(folder, opening, rounds, gate=16):
    """How often a run syncs the file, which has to make these calls as it opens the journal, and has to append frames of these
    lengths in its rounds, the first one behind this gate."""
    wanted = ["fsync file", "fsync folder", *opening]
    for frames in rounds:
        for size in frames:
            wanted += append_calls(gate, size)
            gate += size
        wanted.append("print")
    calls = list(traced(folder))
    assert calls == wanted, f"the calls {calls} in place of {wanted}"
    return calls.count("fsync file")


def syncs(folder):
    if not shutil.which("strace"):
        raise Missing("strace", "apt-get install strace")
    # By hand: 70 draws need the limits of their 1st and their 65th number, the next draw needs none, and 60 more need one.
    write_scenario(folder, [subscriber(0), *[line for count in (70, 1, 60) for line in ("round", "job", f"draw {imsi(0)} {count}")]])
    rounds = [[FRAME, FRAME], [], [FRAME]]
    made = syncs_of(folder, ["write file 17 0", "fsync file"], rounds)
    found = syncs_of(folder, ["fsync file"], rounds, 16 + 3 * FRAME)
    (folder / NAME).write_bytes(HEADER)
    unclear = syncs_of(folder, ["write file 1 16", "fsync file"], rounds)
    # 258 subscribers draw 1: a group of 256, and one of 2. Then one of them draws 64 more, which its limit of 64 doesn't cover.
    (folder / NAME).unlink()
    ones = [line for sub in range(GROUP + 2) for line in ("job", f"draw {imsi(sub)} 1")]
    write_scenario(folder, [*map(subscriber, range(GROUP + 2)), "round", *ones, "round", "job", f"draw {imsi(1)} 64"])
    many = syncs_of(folder, ["write file 17 0", "fsync file"], [[4 + ENTRY * GROUP, 4 + ENTRY * 2], [FRAME]])
    print(f"syncs: {made}, {found}, {unclear} and {many} syncs of the file, each where the journal's rule asks for it")


def main():
    count = int(sys.argv[2]) if len(sys.argv) > 2 else 2000
    rng = random.Random(int(sys.argv[3]) if len(sys.argv) > 3 else 1)
    with tempfile.TemporaryDirectory() as folder:
        two_processes(folder)
        images(folder, rng)
    with tempfile.TemporaryDirectory() as folder:
        kills(folder, count, rng)
    with tempfile.TemporaryDirectory() as folder:
        syncs(Path(folder).resolve())


if __name__ == "__main__":
    run_main(main, __doc__)
