#!/usr/bin/env python3
"""Compares the keys of fast re-authentications with those of hostapd's server and wpa_supplicant's peer.

    bench/foreign_keys.py

By each method the two run a full authentication and two fast re-authentications with each other. The keys
that hostapd writes into its log have to be those that tools/eap makes from the same master key, identity,
counter and NONCE_S (RFC 4187 §7, RFC 9048 §3.3); tools/eap in its turn is compared with the program by
bench/random_sessions.py. It needs Debian's packages hostapd and eapoltest, and Python's `cryptography`. The
exit status is 0 only if all keys are equal.
"""
import re
import sys

import hostapd
from measure import TOP

sys.path.append(str(TOP / "tools"))
from ends import Missing, needs, run_main

if __name__ == "__main__":
    needs("cryptography", __doc__)

from eap.keys import renewed
from network import TYPES

METHODS = {"aka": "AKA", "prime": "AKA'"}
RENEWALS = 2
# What a line of the log tells; a text, a counter and bytes in hex are told apart by their groups.
TOLD = {
    "identity": re.compile(r"Reauth username '(.*)'"),
    "counter": re.compile(r"\*AT_COUNTER \((\d+)\)"),
    "encr": re.compile(r"K_encr - hexdump\(len=16\): (.*)"),
    "aut": re.compile(r"^(?!.*MAC).*K_aut - hexdump\(len=\d+\): (.*)"),
    "master": re.compile(r"(?:MK|K_re) - hexdump\(len=\d+\): (.*)"),
    "nonce": re.compile(r"NONCE_S - hexdump\(len=16\): (.*)"),
    "msk": re.compile(r"(?:\(MSK\)| MSK) - hexdump\(len=64\): (.*)"),
    "emsk": re.compile(r"EMSK - hexdump\(len=64\): (.*)"),
}


def read(what, text):
    return {"identity": str.encode, "counter": int}.get(what, bytes.fromhex)(text)


def renewals(log):
    """What the log tells at each re-authentication, when its counter is written into the message."""
    told = {}
    for line in log.splitlines():
        for what, form in TOLD.items():
            if found := form.search(line):
                told[what] = read(what, found[1])
                if what == "counter":
                    yield dict(told)


def are_equal(method, told):
    keys = renewed(TYPES[method], told["master"], told["identity"], told["counter"], told["nonce"])
    return keys == [told["msk"], told["emsk"]]


def main():
    if len(sys.argv) > 1:
        raise SystemExit(__doc__)
    if not hostapd.are_there():
        raise Missing("hostapd or eapol_test", "apt-get install hostapd eapoltest")
    failed = 0
    for method, name in METHODS.items():
        found = list(renewals(hostapd.log_of(1 + RENEWALS, name)))
        if len(found) != RENEWALS:
            raise SystemExit(f"{method}: hostapd tells of {len(found)} re-authentications")
        for told in found:
            equal = are_equal(method, told)
            failed += not equal
            print(f"{method:>5} counter {told['counter']}: the keys are {'equal' if equal else 'DIFFERENT'}")
    raise SystemExit(failed > 0)


if __name__ == "__main__":
    run_main(main, __doc__)
