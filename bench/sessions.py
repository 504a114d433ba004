#!/usr/bin/env python3
"""Runs 1,000 and 10,000 sessions of EAP-AKA with the built program, both ends of each, and shows that the time grows
linearly.

    bench/sessions.py [PROGRAM]      PROGRAM: crates/auc_cli/out/auc_cli, unless it is given

Each session is run by a `plain` line, five packets long. One worker serves them in one of three ways: all in one job at
one device; all in one job, each at a device of its own; each in a job of its own. The figures are those of one run: the
program's own processor time, its ratio to the row before (10 is linear), sessions a second of that time, and the greatest
resident size. The time includes the reading of the scenario and the calls that sync the journal: with a device each every
session reserves numbers of a subscriber of its own, so TMPDIR=/dev/shm, where a sync is free, shows what the sessions cost.

Two more rows have the option r at one device, by each method: full authentications, each under the permanent identity, and fast
re-authentications, of which only the first session is none. Their packets are as many. Below stands the ratio of their times.

If hostapd and eapol_test are there (apt-get install hostapd eapoltest), 200 sessions of theirs follow, and the ratio of our
sessions a second at one device to theirs. Their time is that of the two processes, from their start: it has RADIUS in it,
and at the peer its debugging output, which can't be switched off; it has no Milenage and no journal in it.
"""
import sys
import tempfile
from pathlib import Path

import hostapd
from measure import TOP, measured, ratio, subscriber_line

sys.path.append(str(TOP / "tools"))
from ends import run_main

COUNTS = (1_000, 10_000)
THEIRS = 200
METHODS = {"EAP-AKA": "aka - -", "EAP-AKA'": "prime WLAN WLAN"}


def session(number, sub, options="aka - - - held"):
    return [f"session {number} {sub:015} {options}", f"plain {number}"]


def one_device(count, options="aka - - - held"):
    return ["job"] + [line for number in range(1, count + 1) for line in session(number, 0, options)]


def device_each(count):
    return ["job"] + [line for number in range(1, count + 1) for line in session(number, number - 1)]


def job_each(count):
    return [line for number in range(1, count + 1) for line in ["job", *session(number, number - 1)]]


def scenario(lines, subscribers):
    rows = [subscriber_line(f"{sub:015}") for sub in range(subscribers)]
    return "".join(line + "\n" for line in [*rows, "round", *lines])


def row(name, count, seconds, before=None, more=""):
    print(f"{name:>15} {count:>7} {seconds:>8.3f} {ratio(seconds, before):>6} {count / seconds:>9.0f} {more:>7}", flush=True)


def seconds_of(lines, subscribers, count):
    """Runs a scenario of so many sessions: the processor seconds and the greatest resident bytes."""
    with tempfile.TemporaryDirectory() as folder:
        path = Path(folder) / "scenario"
        path.write_text(scenario(lines, subscribers))
        seconds, size, status, found = measured(["run", str(path)], b"session ")
    # A line as it is opened, and one more if both of its ends succeed.
    if status != 0 or found != 2 * count:
        sys.exit(f"{count} sessions: status {status}, {found} lines")
    return seconds, size


def again(count):
    """Prints the rows of full authentications and re-authentications with the option r, and the ratio of their times."""
    ratios = []
    for method, options in METHODS.items():
        full, _ = seconds_of(one_device(count, f"{options} r permanent"), 1, count)
        fast, _ = seconds_of(one_device(count, f"{options} r held"), 1, count)
        row(f"{method}, full", count, full)
        row(f"{method}, again", count, fast)
        ratios.append(f"{fast / full:.2f} in {method}")
    print(f"a re-authentication takes as much time as a full authentication times {' and '.join(ratios)}")


def ours():
    """Prints our rows, and answers the seconds of each way and count."""
    found = {}
    for name, lines_of in ("at one device", one_device), ("a device each", device_each), ("a job each", job_each):
        before = None
        for count in COUNTS:
            seconds, size = seconds_of(lines_of(count), 1 if lines_of == one_device else count, count)
            row(name, count, seconds, before, f"{size / 1e6:.1f}")
            before = found[name, count] = seconds
    return found


def theirs(found):
    """Prints the rows of hostapd's server and wpa_supplicant's peer, and the ratios."""
    if not hostapd.are_there():
        print("hostapd or eapol_test is missing: nothing was compared")
        return
    server, peer = hostapd.sessions(THEIRS)
    row("hostapd", THEIRS, server)
    row("eapol_test", THEIRS, peer)
    rate = COUNTS[-1] / found["at one device", COUNTS[-1]]
    both, alone = rate * (server + peer) / THEIRS, rate * server / THEIRS
    print(f"our sessions a second: {both:.2f} times those of their two ends, {alone:.2f} times those of hostapd alone")


def main():
    print(f"{'sessions':>15} {'count':>7} {'seconds':>8} {'ratio':>6} {'a second':>9} {'MB':>7}")
    found = ours()
    again(COUNTS[-1])
    theirs(found)


if __name__ == "__main__":
    run_main(main, __doc__)
