#!/usr/bin/env python3
"""Draws and prints 10,000, 100,000 and 1,000,000 vectors with the built program, brief and full. It shows that the time
grows linearly, and that the records and the text of a round take at most 64 bytes a vector in the brief print and 310
in the full one.

    bench/vectors.py [PROGRAM]      PROGRAM: crates/auc_cli/out/auc_cli, unless it is given

Each count is drawn in jobs of 1000 vectors over 100 subscribers. The figures are those of one run: the program's
own processor time, its greatest resident size, and both as ratios: of the time to the row before, and of the size to
the count. The time includes the calls that sync the journal, so with TMPDIR=/dev/shm, where a sync is free, it shows what
the vectors cost. There a million vectors took 0.17 seconds and 63 bytes a vector for the brief print, in which no vector
is made, and 1.03 seconds and 300 bytes for the full one; on a disk 0.7 and 1.9 seconds, on a busy machine. The program of
version 0.3.0, which had no journal, gave 0.98 to 1.06 seconds and 152 bytes, and 1.03 to 1.42 seconds and 307 bytes.
"""
import sys
import tempfile
from pathlib import Path

from measure import TOP, measured, ratio, subscriber_line

sys.path.append(str(TOP / "tools"))
from ends import run_main

SUBSCRIBERS = 100
MOST_BYTES = {"brief": 64, "full": 310}


def scenario(count, print_):
    lines = [f"print {print_}"] + [subscriber_line(f"{i:015}") for i in range(SUBSCRIBERS)] + ["round"]
    for job in range(count // 1000):
        lines += ["job", f"draw {job % SUBSCRIBERS:015} 1000"]
    return "".join(line + "\n" for line in lines)


def main():
    with tempfile.TemporaryDirectory() as folder:
        print(f"{'print':>5} {'vectors':>9} {'seconds':>8} {'ratio':>6} {'MB':>7} {'bytes a vector':>15}")
        for print_ in ("brief", "full"):
            before = None
            for count in (10_000, 100_000, 1_000_000):
                path = Path(folder) / f"{count}.{print_}"
                path.write_text(scenario(count, print_))
                seconds, size, status, vectors = measured(["run", str(path)], b"vector ")
                if status != 0 or vectors != count:
                    sys.exit(f"at {count}: status {status}, {vectors} vectors")
                print(f"{print_:>5} {count:>9} {seconds:>8.3f} {ratio(seconds, before):>6} {size / 1e6:>7.1f} {size / count:>15.0f}")
                before = seconds
            # (as it is shown: a few hundred KB are the program's own)
            if round(size / count) > MOST_BYTES[print_]:
                sys.exit(f"more than {MOST_BYTES[print_]} bytes a vector")


if __name__ == "__main__":
    run_main(main, __doc__)
