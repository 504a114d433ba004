#!/usr/bin/env python3
"""Tries a long service, and kills services at random moments.

    bench/service.py [--program PROGRAM] [--blocks N] [--kills N] [--seed N] [--write]

PROGRAM is crates/auc_cli/out/auc_cli, unless it is given. Each service runs in a folder of its own.

life        N blocks of one draw at one subscriber, each sent after the reply to the one before: blocks a second, and the
            resident memory before the first one, after 1000, and after the last one; then a line of 100 MB.
sizes       services of 1, 1000 and 65,536 subscribers, which get blocks of one draw in turns: microseconds a block, the middle of
            many. Their subscribers are in a file.
kills       services of up to twelve blocks with up to four jobs, one after the other in one folder. Most of them are killed at a
            random moment of their last block. Each number of a reply is counted, also of one that is cut off.
rivals      a second service in the folder of one that lives, and a service that a client doesn't read.

--write puts the figures into docs/SERVICE.md, between its marks. The exit status is 0 only if no number came twice and each reply
was as it has to be. It works on Linux alone.
"""
import argparse
import contextlib
import os
import random
import statistics
import subprocess
import sys
import time
from pathlib import Path

from journal import imsi
from measure import BUILT, TOP, folder_with, runnable, subscriber_line
from repository import write_part

sys.path.append(str(TOP / "tools"))
from ends import run_main

SUBSCRIBERS, LONGEST, SCRIPT = 8, 100_000_000, "bench/service.py"
SIZES, TURNS, COLUMNS = (1, 1000, 65_536), 2001, "imsi,k,kind,op,amf,seq,usim"


def options():
    parser = argparse.ArgumentParser(description=__doc__, formatter_class=argparse.RawDescriptionHelpFormatter)
    parser.add_argument("--program", type=Path, default=BUILT, help="the program to try")
    parser.add_argument("--blocks", type=int, default=1_000_000, help="the blocks of the long service")
    parser.add_argument("--kills", type=int, default=500, help="how many services are killed")
    parser.add_argument("--seed", type=int, default=1, help="of what is drawn by chance")
    parser.add_argument("--write", action="store_true", help="put the figures into docs/SERVICE.md")
    return parser.parse_args()


class Service:
    """A service that is alive, behind its header."""

    def __init__(self, program, folder, workers=1, words=(), subscribers=SUBSCRIBERS):
        self.child = subprocess.Popen([program, "serve", *words], cwd=folder, stdin=subprocess.PIPE, stdout=subprocess.PIPE)
        header = [f"randkey {os.urandom(32).hex()}", f"workers {workers}", *(subscriber_line(imsi(sub)) for sub in range(subscribers))]
        self.send(header)
        self.first = self.reply()

    def send(self, lines):
        """Sends a block."""
        self.child.stdin.write("".join(f"{line}\n" for line in [*lines, "end"]).encode())
        self.child.stdin.flush()

    def reply(self):
        """The whole lines of a reply, up to its line `end` or to the end of the output."""
        lines = []
        for line in self.child.stdout:
            if not line.endswith(b"\n"):
                break
            lines.append(line.decode().rstrip("\n"))
            if lines[-1] == "end":
                break
        return lines

    def resident(self):
        """Its resident memory in KB."""
        fields = dict(line.split(":", 1) for line in Path(f"/proc/{self.child.pid}/status").read_text().splitlines())
        return int(fields["VmRSS"].split()[0])

    def close(self):
        """The exit status, after the end of its input."""
        try:
            self.child.stdin.close()
        except BrokenPipeError:
            pass
        with self.child.stdout:
            return self.child.wait()


def numbers_in(reply):
    """Each vector of a reply, by its subscriber and number."""
    return [tuple(line.split()[1:3]) for line in reply if line.startswith("vector ")]


def life(program, blocks):
    """The row of a long service."""
    block = ["round", "job", f"draw {imsi(0)} 1"]
    with folder_with() as folder:
        service = Service(program, folder)
        sizes, began = [service.resident()], time.monotonic()
        for number in range(1, blocks + 1):
            service.send(block)
            if numbers_in(service.reply()) != [(imsi(0), str(number))]:
                raise SystemExit(f"block {number} has another reply")
            if number in (1000, blocks):
                sizes.append(service.resident())
        rate = blocks / (time.monotonic() - began)
        service.send(["x" * LONGEST])
        refused, status = service.reply(), service.close()
    if refused != ["refused scenario 0 limit", "end"] or status != 0:
        raise SystemExit(f"a line of {LONGEST} bytes: {refused}, {status}")
    return f"{blocks} blocks of one draw, each after the reply to the one before", f"{rate:.0f} a second; resident {', '.join(map(str, sizes))} KB"


def sizes(program):
    """The row of what a block of one draw takes with few and with many subscribers."""
    taken = {size: [] for size in SIZES}
    with contextlib.ExitStack() as stack:
        services = {}
        for size in SIZES:
            folder = stack.enter_context(folder_with())
            rows = (",".join(subscriber_line(imsi(sub)).split()[1:]) for sub in range(size))
            Path(folder, "subscribers.csv").write_text("\n".join([COLUMNS, *rows, ""]))
            services[size] = Service(program, folder, words=["subscribers.csv"], subscribers=0)
        for _ in range(TURNS):
            for size, service in services.items():
                began = time.monotonic()
                service.send(["round", "job", f"draw {imsi(size // 2)} 1"])
                if len(numbers_in(service.reply())) != 1:
                    raise SystemExit(f"a block of a service of {size} subscribers has another reply")
                taken[size].append(time.monotonic() - began)
        if any(service.close() for service in services.values()):
            raise SystemExit("a service of some size ended with another status")
    middles = [f"{statistics.median(times) * 1e6:.0f} with {size:,}" for size, times in taken.items()]
    return f"a block of one draw, the middle of {TURNS:,}", f"microseconds: {', '.join(middles)} subscribers"


def block_of(chance):
    """A block with up to four jobs."""
    lines = ["round"]
    for _ in range(chance.randint(1, 4)):
        lines += ["job", *(f"draw {imsi(chance.randrange(SUBSCRIBERS))} {chance.randint(1, 90)}" for _ in range(chance.randint(1, 3)))]
    return lines


def killed(program, folder, chance, seen):
    """Runs a service that may be killed in its last block, and notes its numbers: how many came twice, and whether it was killed."""
    service, twice, kill = Service(program, folder, chance.choice([1, 2, 4, 8])), 0, chance.random() < 0.8
    for left in range(chance.randint(0, 11), -1, -1):
        service.send(block_of(chance))
        if kill and not left:
            time.sleep(chance.random() / 250)
            service.child.kill()
        numbers = numbers_in(service.reply())
        twice += len(numbers) - len(set(numbers) - seen)
        seen.update(numbers)
    service.close()
    return twice, kill


def kills(program, many, seed):
    """The row of services that are killed."""
    chance, seen, twice, count = random.Random(seed), set(), 0, 0
    with folder_with() as folder:
        while count < many:
            again, was_killed = killed(program, folder, chance, seen)
            twice, count = twice + again, count + was_killed
    if twice:
        raise SystemExit(f"{twice} numbers came twice")
    return f"{count} kills at random moments", f"{len(seen)} numbers in replies, none twice"


def rivals(program):
    """The rows of a second service, and of a client that doesn't read."""
    with folder_with() as folder:
        first = Service(program, folder)
        second = Service(program, folder)
        statuses = second.close(), first.close()
    if statuses != (6, 0) or second.first:
        raise SystemExit(f"two services: {second.first}, {statuses}")
    with folder_with() as folder:
        service = Service(program, folder)
        service.send(["round", "job", *(f"draw {imsi(0)} 1000" for _ in range(100))])
        time.sleep(1)
        waits, numbers = service.child.poll() is None, numbers_in(service.reply())
        status = service.close()
    if not waits or len(numbers) != 100_000 or status != 0:
        raise SystemExit(f"a client that doesn't read: {waits}, {len(numbers)}, {status}")
    return [("a second service in the same folder", "status 6, and nothing is said; the first one lives on"),
            ("a client that reads nothing for a second", "the service waits; all vectors come then")]


def main():
    given = options()
    program = runnable(given.program)
    rows = [life(program, given.blocks), ("then a line of 100 MB", "`refused scenario 0 limit`"), sizes(program), kills(program, given.kills, given.seed), *rivals(program)]
    text = "".join(["| Tried | What it gave |\n|---|---|\n", *(f"| {what} | {gave} |\n" for what, gave in rows)])
    print(text, end="")
    if given.write:
        write_part(TOP / "docs/SERVICE.md", SCRIPT, text)
    return 0


if __name__ == "__main__":
    sys.exit(run_main(main))
