"""Where things are, and how the script speaks and ends."""
import errno
import json
import os
import re
import sys
from pathlib import Path

TOP = Path(__file__).resolve().parents[2]
CRATE = TOP / "crates/auc_cli"
OUT = CRATE / "out"
# An installed copy has this file beside the script. Its pages and examples are in share/doc/auc of the same prefix.
INSTALLED = TOP / "installed.json"
IS_INSTALLED = INSTALLED.exists()
PAGES = TOP.parents[1] / "share/doc/auc" if IS_INSTALLED else TOP
GUIDE = PAGES / "docs/USER-GUIDE.md"
JOURNAL = "auc.journal"
NOT_RUN = 70
# What the manifest of an installed copy has.
FIELDS = {
    **dict.fromkeys(("version", "sources", "program", "kit"), str),
    **dict.fromkeys(("verdict", "folders"), list),
    **dict.fromkeys(("files", "links"), dict),
}


class Stopped(Exception):
    """Why the script ends without having run the program."""


def tell(line):
    """Writes a line to standard error. If nobody can read it, the run goes on."""
    if sys.stderr is None:
        return
    try:
        print(line, file=sys.stderr, flush=True)
    except OSError:
        pass


def say(text):
    tell(f"auc: {text}")


def put(content):
    """Writes these bytes to standard output, at once."""
    try:
        if sys.stdout is None:
            raise OSError(errno.EBADF, os.strerror(errno.EBADF))
        while content:
            content = content[os.write(sys.stdout.fileno(), content):]
    except OSError as error:
        raise Stopped(f"the output could not be written: {error.strerror}") from error


def is_manifest(known):
    """Whether what was read has each field of a manifest, with texts alone in it."""
    if not isinstance(known, dict) or not all(isinstance(known.get(name), kind) for name, kind in FIELDS.items()):
        return False
    earlier = known.get("earlier", {})
    if not known["verdict"] or not isinstance(earlier, dict):
        return False
    entries = *known["files"].values(), *known["links"].values(), *earlier.values()
    return all(isinstance(it, str) for it in (*entries, *known["verdict"], *known["folders"]))


def manifest(path):
    """What the manifest of an installed copy says."""
    try:
        known = json.loads(path.read_text(encoding="utf-8"))
    except ValueError as error:
        raise Stopped(f"{path} can't be read: {error}") from error
    if not is_manifest(known):
        raise Stopped(f"{path} can't be read: it isn't what `auc install` writes")
    return known


def version():
    """That of an installed copy, or else the newest heading of CHANGELOG.md."""
    if IS_INSTALLED:
        return manifest(INSTALLED)["version"]
    found = re.search(r"^## (.+)$", (TOP / "CHANGELOG.md").read_text(encoding="utf-8"), re.M)
    return found[1] if found else "without a version"
