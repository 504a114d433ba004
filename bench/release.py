#!/usr/bin/env python3
"""Writes the folder release/ after a green gate: the proved program, packed, with what is known of it.

    bench/release.py LOG               LOG has what the gate, .ci/run, printed; its last line must be `N passed, 0 failed`
    bench/release.py --check           compares the folder with the program that was built here
    bench/release.py --archive FILE    makes an archive of the release for machines without the kit, such as auc.tar.gz

The program is crates/auc_cli/out/auc_cli. With --check the sources at hand decide: if they are those of the release, the
program must be that of the release, byte by byte; if they are others, there is nothing to compare, and it says so.

The archive has what `./auc install` installs, which runs from where it is unpacked, and a script that installs it. It is a
function of the checkout and of Python's zlib: its files are sorted, and belong to root and to the first second of 2000.
The sources at hand must be those of the release. docs/INSTALL.md says how it is checked. The exit status is 0 only if the
folder or the archive was written, or if nothing that --check says is wrong.
"""
import argparse
import gzip
import io
import os
import re
import subprocess
import sys
import tarfile
from pathlib import Path

TOP = Path(__file__).resolve().parent.parent
sys.dont_write_bytecode = True
sys.path.insert(0, str(TOP / "tools"))

from ends import run_main  # noqa: E402
from launcher import install, release, sources  # noqa: E402
from launcher.places import Stopped, version  # noqa: E402

PROGRAM = TOP / "crates/auc_cli/out/auc_cli"
FIRST_SECOND = 946684800
SUMS = "SHA256SUMS"
INSTALL = """\
#!/bin/sh
# Installs this archive under PREFIX, or takes away what was installed there: ./install [--remove] PREFIX
# DESTDIR is put before PREFIX. INSTALL.md has the rest.
(cd "$(dirname "$0")" && sha256sum --quiet --strict -c SHA256SUMS) || exit 70
exec "$(dirname "$0")/bin/auc" install "$@"
"""


def options():
    parser = argparse.ArgumentParser(description=__doc__, formatter_class=argparse.RawDescriptionHelpFormatter)
    what = parser.add_mutually_exclusive_group(required=True)
    what.add_argument("log", nargs="?", type=Path, metavar="LOG", help="what the gate printed")
    what.add_argument("--check", action="store_true", help="compare the folder with the program that was built here")
    what.add_argument("--archive", type=Path, metavar="FILE", help="make an archive of the release")
    return parser.parse_args()


def verdict_in(log):
    """The lines of the gate that tell its verdict. The last one must be green."""
    lines = log.read_text(encoding="utf-8", errors="replace").splitlines()
    if not lines or not re.fullmatch(r"[1-9]\d* passed, 0 failed", lines[-1]):
        raise Stopped(f"{log} doesn't end with `N passed, 0 failed`: release only what the gate passed")
    return [*(it for it in lines[:-1] if it.startswith("rt: ok")), lines[-1]]


def built():
    if not PROGRAM.exists():
        raise Stopped(f"{PROGRAM} isn't there: run the gate first")
    if not sources.are_older_than(PROGRAM):
        raise Stopped(f"the sources changed after {PROGRAM} was built: run the gate again")
    return PROGRAM.read_bytes()


def kit():
    return subprocess.run(["rt", "version"], stdout=subprocess.PIPE, text=True, check=True).stdout.strip()


def write(log):
    release.write(built(), version(), kit(), verdict_in(log))
    return f"written for version {version()}"


def check():
    packed = release.read()
    if not packed:
        return "there is none"
    unpacked = release.program_of(packed)
    if not packed.is_of_sources_at_hand():
        return f"the sources aren't those of version {packed.version}, so nothing is compared"
    if built() != unpacked:
        raise Stopped(f"{PROGRAM} differs from the program of version {packed.version}, though the sources are the same")
    return f"the program that was built here is that of version {packed.version}, byte by byte"


# ---- the archive


def verdict_of(packed):
    """What is known of the program, as a text."""
    facts = {"version": packed.version, "kit": packed.kit, "sources": packed.sources, "program": packed.program}
    return "".join([*(f"{name}: {it}\n" for name, it in facts.items()), "\n", *(f"{it}\n" for it in packed.verdict)])


def tree_of(packed):
    """What the archive has: what is installed, and beside it what belongs to the archive alone."""
    tree = {
        **install.tree_of_checkout(release.program_of(packed), packed),
        "install": install.File(INSTALL.encode(), install.RUN),
        "INSTALL.md": install.file_of(TOP / "docs/INSTALL.md"),
        "VERDICT": install.File(verdict_of(packed).encode()),
    }
    sums = {path: it.content for path, it in tree.items() if isinstance(it, install.File)}
    return {**tree, SUMS: install.File(release.sums(sums))}


def member(path, entry):
    """The head of a file or link in the archive, and its content."""
    head = tarfile.TarInfo(path)
    head.mtime, head.uname, head.gname = FIRST_SECOND, "root", "root"
    if isinstance(entry, str):
        head.type, head.linkname, head.mode = tarfile.SYMTYPE, entry, 0o777
        return head, None
    head.size, head.mode = len(entry.content), entry.mode
    return head, io.BytesIO(entry.content)


def packed_tree(tree, folder):
    """A tree in a folder of this name, as the bytes of a .tar.gz."""
    plain, small = io.BytesIO(), io.BytesIO()
    with tarfile.open(fileobj=plain, mode="w", format=tarfile.USTAR_FORMAT) as archive:
        for path, entry in sorted(tree.items()):
            archive.addfile(*member(f"{folder}/{path}", entry))
    with gzip.GzipFile(filename="", mode="wb", fileobj=small, mtime=0) as file:
        file.write(plain.getvalue())
    return small.getvalue()


def archive(path):
    packed = release.read()
    if not packed or not packed.is_of_sources_at_hand():
        raise Stopped("there is no release/ of the sources at hand, so there is nothing to pack")
    content = packed_tree(tree_of(packed), f"auc-{packed.version}")
    beside = path.with_name(f".{path.name}.new")
    beside.write_bytes(content)
    os.replace(beside, path)
    return f"{path} has version {packed.version}\n{release.sha256(content)}  {path.name}"


def main():
    given = options()
    try:
        print(f"release: {check() if given.check else archive(given.archive) if given.archive else write(given.log)}")
    except (Stopped, OSError, subprocess.CalledProcessError) as error:
        sys.exit(f"release: {error}")


if __name__ == "__main__":
    run_main(main)
