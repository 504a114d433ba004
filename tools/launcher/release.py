"""The folder release/: the proved program of the last release, packed, and what is known of it.

`release/auc.gz` is the program. `release/release.json` has the version, the checksums of the sources and of the program,
the kit's identity, and the last lines of the gate that proved it. `release/SHA256SUMS` has the checksums of these two files.
bench/release.py writes the folder. The program is unpacked into memory and never into a file, so that nothing can change
it between the comparison of its checksum and its run.
"""
import contextlib
import fcntl
import gzip
import hashlib
import json
import os
from dataclasses import asdict, dataclass
from pathlib import Path

from . import processor, sources
from .places import OUT, TOP, Stopped, say

FOLDER = TOP / "release"
PACKED, FACTS, SUMS = "auc.gz", "release.json", "SHA256SUMS"
SEALS = fcntl.F_SEAL_WRITE | fcntl.F_SEAL_GROW | fcntl.F_SEAL_SHRINK | fcntl.F_SEAL_SEAL


@dataclass(frozen=True)
class Release:
    """What release.json has."""

    version: str
    sources: str
    program: str
    kit: str
    verdict: list

    def is_of_sources_at_hand(self):
        return self.sources == sources.checksum()


def sha256(content):
    return hashlib.sha256(content).hexdigest()


def sums(files):
    """The content of SHA256SUMS for these contents by name."""
    return "".join(f"{sha256(content)}  {name}\n" for name, content in sorted(files.items())).encode()


def write(program, version, kit, verdict, folder=FOLDER):
    """Writes the folder for a program that was just built from the sources at hand."""
    facts = Release(version, sources.checksum(), sha256(program), kit, verdict)
    files = {PACKED: gzip.compress(program, mtime=0), FACTS: (json.dumps(asdict(facts), indent=2) + "\n").encode()}
    folder.mkdir(exist_ok=True)
    for name, content in {**files, SUMS: sums(files)}.items():
        (folder / name).write_bytes(content)


def contents():
    """The contents of the files of release/ by name, compared with SHA256SUMS."""
    try:
        files = {name: (FOLDER / name).read_bytes() for name in (PACKED, FACTS)}
        wanted = (FOLDER / SUMS).read_bytes()
    except OSError as error:
        raise Stopped(f"{error.filename}: {error.strerror}; `git checkout release` brings it back") from error
    if sums(files) != wanted:
        raise Stopped(
            f"{FOLDER} was changed: its files don't have the checksums of its {SUMS}, so its program isn't run."
            " `git checkout release` brings it back, and `./auc prove` proves and builds the program here"
        )
    return files


def read():
    """The release of this checkout; nothing if it has none."""
    return Release(**json.loads(contents()[FACTS])) if FOLDER.exists() else None


def program_of(release):
    """The release's program, unpacked and compared with its checksum."""
    program = gzip.decompress(contents()[PACKED])
    if sha256(program) != release.program:
        raise Stopped(f"{FOLDER / PACKED} doesn't hold the program that {FACTS} names, so it isn't run")
    return program


@contextlib.contextmanager
def unpacked(release):
    """A path under which the system runs the release's program, as long as the block goes on."""
    file = os.memfd_create("auc", os.MFD_CLOEXEC | os.MFD_ALLOW_SEALING)
    try:
        with os.fdopen(file, "wb", closefd=False) as memory:
            memory.write(program_of(release))
        fcntl.fcntl(file, fcntl.F_ADD_SEALS, SEALS)
        yield f"/proc/{os.getpid()}/fd/{file}"
    finally:
        os.close(file)


def notes():
    """The files that may note what was said in this checkout: in it, or in the user's cache if it can't be written."""
    yield OUT / "release.said"
    with contextlib.suppress(RuntimeError):
        cache = Path(os.environ.get("XDG_CACHE_HOME") or Path.home() / ".cache")
        yield cache / "auc" / f"{sha256(os.fsencode(TOP))[:16]}.said"


def introduce(release):
    """Says which program is run, once in a checkout."""
    for note in notes():
        with contextlib.suppress(OSError):
            if note.read_text(encoding="ascii") == release.program:
                return
    say(
        f"this is the proved program of version {release.version}, built from these sources with {release.kit};"
        f" `./auc prove` proves and builds it here{f', for {processor.V3}' if processor.runs(processor.V3) else ''}"
    )
    for note in notes():
        with contextlib.suppress(OSError):
            note.parent.mkdir(parents=True, exist_ok=True)
            note.write_text(release.program, encoding="ascii")
            return
