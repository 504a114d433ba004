"""The sources of the program: which files they are, and their checksum.

They are crates.txt, and each file under crates/ whose name ends in .rt or .antt and that stands in no folder `out`. Their
checksum is the SHA-256 of what sha256sum prints for them, in the order of their paths from the top, byte by byte. So
neither modes nor times count, and a shell makes the same one at the top of the project:

    find crates.txt crates -name out -prune -o -type f \\( -name '*.rt' -o -name '*.antt' -o -name crates.txt \\) -print |
        LC_ALL=C sort | xargs sha256sum | sha256sum
"""
import hashlib
import os

from .places import TOP

LIST = "crates.txt"
ENDINGS = (".rt", ".antt", LIST)


def files():
    """The paths of the sources from the top, sorted."""
    found = [LIST]
    for folder, folders, names in os.walk(TOP / "crates"):
        folders[:] = [it for it in folders if it != "out"]
        inside = os.path.relpath(folder, TOP)
        found += [f"{inside}/{it}" for it in names if it.endswith(ENDINGS)]
    return sorted(found, key=os.fsencode)


def checksum():
    lines = hashlib.sha256()
    for path in files():
        lines.update(f"{hashlib.sha256((TOP / path).read_bytes()).hexdigest()}  ".encode() + os.fsencode(path) + b"\n")
    return lines.hexdigest()


def are_older_than(program):
    """Whether no source was changed after the program was made."""
    made = program.stat().st_mtime_ns
    return all((TOP / path).stat().st_mtime_ns <= made for path in files())
