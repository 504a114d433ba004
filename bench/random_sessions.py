#!/usr/bin/env python3
"""Runs random scenarios with sessions, and compares each output with that of an implementation of its own (network.py).

    bench/random_sessions.py [PROGRAM [COUNT [FIRST]]]      PROGRAM: crates/auc_cli/out/auc_cli, unless it is given

There are COUNT scenarios, 200 unless it is given, from the seed FIRST on, 0 unless it is given. A scenario has up to three
rounds, up to three subscribers, some of which share their keys, with any index length and age limit, and up to five sessions a
round, of both methods, with any options and identities, among them pseudonyms and re-authentication identities that weren't given. Its packets are lost, repeated
and crossed, in half of the scenarios the network changes some of them, and half print all bytes. Between the events stand sessions of
EAP-SIM, over networks of the same kind that change nothing. Before that the examples that
network.py can read are compared with their expected outputs.

The seed of each scenario whose output differs is printed with the first line that does; the exit status is 1 if there is
one. A thousand scenarios take a minute or two.
"""
import random
import sys

from measure import TOP, program

sys.path.append(str(TOP / "tools"))
from ends import needs, run_main

if __name__ == "__main__":
    needs("cryptography", __doc__)

from eap.names import Names
from eap.peer import Peer
from network import Job, World, is_readable
from trial import K, OPC, difference, ran_in_new_folder

# ---- scenarios

SECRETS = [f"{K} opc {OPC}", "0396eb317b6d1c36f19c1c84cd6ffd16 opc 53c15671c60a4b731c55b4a441c0bde2"]


def scenario(seed):
    choose = random.Random(seed)
    key, imsis = choose.randbytes(32), [f"00101000000000{place}" for place in range(choose.randint(1, 3))]
    lines = [f"randkey {key.hex()}", f"print {choose.choice(['brief', 'full'])}"]
    if choose.random() < 0.5:
        lines.append(f"realm {choose.choice(['x', 'example.org', 'a@b'])}")
    are_alike = choose.random() < 0.6
    for place, imsi in enumerate(imsis):
        secret, amf = SECRETS[0 if are_alike else place % 2], choose.choice(["8000", "8000", "0000"])
        lines.append(f"subscriber {imsi} {secret} {amf} {numbers(choose)}")
    # Half of the scenarios lean towards re-authentications of one device.
    leans, changes, opened, world = choose.random() < 0.5, choose.random() < 0.5, 0, World("".join(line + "\n" for line in lines))
    for _ in range(choose.randint(1, 3)):
        sessions = range(opened + 1, opened + 1 + choose.randint(2 if leans else 1, 5 if leans else 4))
        opened = sessions[-1]
        lines += ["round", "job"]
        openings = [session_line(choose, number, imsis[:1] if leans else imsis, Names(key), leans) for number in sessions]
        job = Job(world, [line.split() for line in openings])
        job.run()
        lines += openings + events(choose, sessions, job, imsis, leans, changes)
    return "".join(line + "\n" for line in lines)


def numbers(choose):
    """SEQ and USIM of a subscriber, and in half of the subscribers BITS and AGE. A few are so great that SQNs of subscribers with
    one key are beyond each other's numbers."""
    if choose.random() < 0.04:
        return choose.choice(["274877906900 0 5 -", "0 8796093022000 0 -", "0 4398046511000 6 -", "4398046510000 4398046510000 6 20"])
    seq, usim = choose.choice([0, 0, 5]), choose.choice([0, 0, 0, 3, 40])
    if choose.random() < 0.5:
        return f"{seq} {usim}"
    return f"{seq} {usim} {choose.randint(0, 6)} {choose.choice(['-', '-', 1, 2, 3, 7, 40])}"


def session_line(choose, number, imsis, names, leans):
    method = choose.choice(["aka"] * (9 if leans else 2) + ["prime"])
    both = "- -" if method == "aka" else choose.choice(["WLAN WLAN", "WLAN *", "A B"])
    options = "".join(choose.sample("prabd", choose.randint(0, 5))) or choose.choice(["-", "p", "r"])
    if leans and choose.random() < 0.9:
        options = choose.choice(["r", "r", "pr", "ar", "r", "pra"])
    name = names.text(choose.choice([23, 50]), choose.randrange(3), choose.randrange(5), choose.choice([1, 2])).decode()
    texts = ["=nobody", f"=0{choose.choice(imsis)}", f"=6{choose.choice(imsis)}@r", f"={name}", f"={name}@q"]
    identity = choose.choice(["held"] * (40 if leans else 5) + ["permanent", *texts])
    return f"session {number} {choose.choice(imsis)} {method} {both} {options} {identity}"


def events(choose, sessions, job, imsis, leans, changes):
    """Events of sessions, each of which happens in a job at once: packets go mostly to an end of the other role. If the network
    changes packets, changed copies are delivered as others are. Some sessions of EAP-SIM stand between them."""
    lines, left = [], list(sessions)

    def happen(line):
        word, *fields = line.split()
        getattr(job, word)(*fields)
        lines.append(line)

    if leans and len(left) >= 3:
        race(choose, left, job.packets, happen)
    if changes:
        meddle(choose, left, job.packets, happen)
    for _ in range(choose.randint(2, 30)):
        if choose.random() < 0.06:
            happen(sim_line(choose, choose.choice(imsis)))
        if changes and choose.random() < 0.25:
            happen(change(choose, job.packets))
        else:
            happen(event(choose, sessions, left, job.packets))
    return lines


def sim_line(choose, imsi):
    """A session of EAP-SIM: a plain one, or one in which packets are delivered besides those of a plain one, and some of these
    aren't."""
    parts = ["p1", "s2", "p3", "s4", "p5"]
    for _ in range(choose.randint(0, 8)):
        parts.insert(choose.randint(0, len(parts)), f"{choose.choice('ps')}{choose.randint(0, 9)}")
    schedule = ",".join(part for part in parts if choose.random() < 0.95) or "s1"
    return f"sim {imsi} {choose.choice([2, 3])} {choose.choice(['plain', schedule, schedule])}"


def race(choose, left, packets, happen):
    """After a plain session two more of one device, which answers in both of them to the request that the one server makes."""
    if choose.random() < 0.8:
        happen(f"plain {left[0]}")
    one, other = left[1:3]
    for number in one, other:
        left.remove(number)
        happen(f"start {number}")
        happen(f"deliver {number} peer {len(packets)}")
    answers = {one: len(packets) - 2, other: len(packets)}
    happen(f"deliver {one} server {answers[one]}")
    asked = len(packets)
    if choose.random() < 0.5:
        happen(f"deliver {other} server {answers[other]}")
    for number in choose.sample([one, other], 2):
        happen(f"deliver {number} peer {asked}")
        happen(f"deliver {choose.choice([one, one, other])} server {len(packets)}")


def meddle(choose, left, packets, happen):
    """A session in which each packet is delivered in its turn. Before some of them, or in place of them, comes a changed copy."""
    number, end, other = left.pop(choose.randrange(len(left))), "peer", "server"
    happen(f"start {number}")
    for _ in range(choose.randint(2, 12)):
        at = last = len(packets)
        if choose.random() < 0.4:
            happen(changed(choose, packets, at))
            last = len(packets)
        if last > at:
            happen(f"deliver {number} {end} {last}")
        if len(packets) == last and choose.random() < 0.9:
            happen(f"deliver {number} {end} {at}")
        if len(packets) > last:
            end, other = other, end


def change(choose, packets):
    """A packet is changed, mostly a late one."""
    late, any_packet = max(0, len(packets) - choose.randint(0, 3)), choose.randint(0, len(packets) + 1)
    return changed(choose, packets, choose.choice([late, late, late, any_packet]))


def changed(choose, packets, at):
    """A packet is changed: a bit of a byte, a whole byte, or all from a place on. Few of the places are beyond its end."""
    data = packets[at - 1][0] if 1 <= at <= len(packets) else b""
    anywhere = [choose.randrange(len(data) + 1) for _ in range(3)]
    place = choose.choice([*anywhere, choose.randrange(12), len(data), max(0, len(data) - 1)])
    if choose.random() < 0.25:
        return f"cut {at} {place}"
    byte = data[place] if place < len(data) else 0
    return f"tamper {at} {place} {choose.choice([byte ^ 1 << choose.randrange(8), choose.randrange(256)]):02x}"


def is_for_server(data, sender):
    """Whether a packet is for a server: a peer sent it, or it is a changed response."""
    return sender is Peer if sender else data[:1] == b"\2"


def event(choose, sessions, left, packets):
    number, kind = choose.choice(sessions), choose.random()
    if kind < 0.15 and number in left:
        left.remove(number)
        return f"start {number}"
    if kind < 0.22:
        return f"plain {number}"
    if kind < 0.25:
        return f"repeat {number}"
    if kind < 0.26:
        return f"giveup {number} {choose.choice(['peer', 'server'])}"
    late, any_packet = max(0, len(packets) - choose.randint(0, 3)), choose.randint(0, len(packets) + 1)
    at = choose.choice([late, late, late, any_packet])
    ends = ["peer", "server"]
    if 1 <= at <= len(packets) and choose.random() < 0.9:
        ends.remove("peer" if is_for_server(*packets[at - 1][:2]) else "server")
    return f"deliver {number} {choose.choice(ends)} {at}"


# ---- comparing

def ran(text):
    done = ran_in_new_folder([program(), "run", "scenario"], {"scenario": text}, text=True)
    return done.stdout if done.returncode == 0 else f"status {done.returncode}\n{done.stdout}"


def compared(name, text, output):
    """Whether an output is that of network.py; the first line that it has otherwise is printed."""
    found = difference(output, World(text).output())
    if found:
        ours, theirs = ((line or "")[:200] for line in found[1:])
        where = f"{ours!r}, and by network.py {theirs!r}" if ours or theirs else "the end"
        print(f"{name} differs: {where}")
    return not found


def main():
    count, first = (int(word) for word in (sys.argv[2:] + ["200", "0"][len(sys.argv[2:]):]))
    examples = [path for path in sorted((TOP / "examples").glob("*.scenario")) if is_readable(path.read_text())]
    same = [compared(path.name, path.read_text(), path.with_suffix(".expected").read_text()) for path in examples]
    print(f"{len(same)} examples, {same.count(False)} differ")
    texts = {seed: scenario(seed) for seed in range(first, first + count)}
    drawn = [compared(f"scenario {seed}", text, ran(text)) for seed, text in texts.items()]
    print(f"{len(drawn)} random scenarios, {drawn.count(False)} differ")
    sys.exit(0 if all(same + drawn) else 1)


if __name__ == "__main__":
    run_main(main, __doc__)
