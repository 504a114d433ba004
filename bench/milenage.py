#!/usr/bin/env python3
"""Measures how many authentication vectors a second one core makes, with this code and with libosmogsm's
`osmo_auth_gen_vec` (Debian's libosmocore-dev), as ratios in one run: each vector alone, and 256 at a call.

    bench/milenage.py [PROGRAM]     PROGRAM: crates/auc_vector_rate/out/auc_vector_rate, unless it is given

`rt run` in crates/auc_vector_rate builds PROGRAM, and `rt run --cpu=x86-64-v3` for processors with AVX2. Each side makes two
different numbers of vectors, and the difference of the processor times is taken, so that the time to start doesn't count. The goals
are 5 alone, 8 in bulk and, for x86-64-v3, 14 in bulk, against an AES by tables in C with one key schedule and five blocks a vector. If
libosmocore-dev or a C compiler is missing, the script says so and ends.
"""
import resource
import shutil
import subprocess
import sys
import tempfile
from pathlib import Path

TOP = Path(__file__).resolve().parent.parent
sys.path.append(str(TOP / "tools"))
from ends import Missing, run_main

FEW, MANY, REPEATS = 200_000, 2_200_000, 3
LOOP = r"""
#include <stdio.h>
#include <stdlib.h>
#include <string.h>
#include <osmocom/crypt/auth.h>

int main(int argc, char **argv) {
    long count = argc > 1 ? atol(argv[1]) : 0;
    unsigned long folded = 0;
    unsigned char rand[16];
    struct osmo_sub_auth_data data = { .type = OSMO_AUTH_TYPE_UMTS, .algo = OSMO_AUTH_ALG_MILENAGE };
    struct osmo_auth_vector made;
    memset(data.u.umts.opc, 9, 16);
    memset(data.u.umts.k, 7, 16);
    data.u.umts.opc_is_op = 0;
    data.u.umts.amf[0] = 0x80;
    memset(rand, 5, 16);
    for (long n = 1; n <= count; n++) {
        memset(&made, 0, sizeof made);
        data.u.umts.sqn = n;
        memcpy(rand, &n, sizeof n);
        if (osmo_auth_gen_vec(&made, &data, rand) < 0)
            return 1;
        folded ^= made.autn[15] ^ made.res[0];
    }
    printf("%lu\n", folded);
    return 0;
}
"""


def seconds(program, count, words):
    before = resource.getrusage(resource.RUSAGE_CHILDREN).ru_utime
    subprocess.run([program, str(count), *words], stdout=subprocess.DEVNULL, check=True)
    return resource.getrusage(resource.RUSAGE_CHILDREN).ru_utime - before


def rate(program, *words):
    return (MANY - FEW) / (seconds(program, MANY, words) - seconds(program, FEW, words))


def built_loop(folder):
    source, program = Path(folder) / "loop.c", Path(folder) / "loop"
    source.write_text(LOOP)
    libraries = ["-losmogsm", "-losmocore", "-ltalloc"]
    done = subprocess.run(["cc", "-O2", "-o", str(program), str(source), *libraries], capture_output=True)
    if done.returncode != 0:
        sys.exit("libosmocore-dev isn't here: nothing to compare with")
    return str(program)


def main():
    ours = sys.argv[1] if len(sys.argv) > 1 else str(TOP / "crates/auc_vector_rate/out/auc_vector_rate")
    if not Path(ours).exists():
        raise Missing(ours, "`rt run` in crates/auc_vector_rate proves and builds it")
    if shutil.which("cc") is None:
        sys.exit("no C compiler: nothing to compare with")
    with tempfile.TemporaryDirectory() as folder:
        theirs = built_loop(folder)
        print(f"{'alone':>10} {'bulk':>10} {'libosmogsm':>11} {'ratio':>6} {'in bulk':>8}   vectors a second of processor time")
        for _ in range(REPEATS):
            alone, bulk, other = rate(ours), rate(ours, "bulk"), rate(theirs)
            print(f"{alone:>10.0f} {bulk:>10.0f} {other:>11.0f} {alone / other:>6.2f} {bulk / other:>8.2f}")


if __name__ == "__main__":
    run_main(main, __doc__)
