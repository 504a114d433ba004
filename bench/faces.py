"""What a crate shows to those above it: their verdicts rest on that, and on nothing else of it.

It is its definitions (specs/), its public facts (proofs/Facts.antt), and its sources without comments, without the bodies
of functions, and without private functions. It reads sources that `rt fmt` laid out.
"""
import hashlib
import re

from clauses import blanked, function_at, functions_in, plain
from repository import files_of

FUNCTION = re.compile(r"(?m)^[ \t]*(?:pub(?:\([^)]*\))?\s+)?(?:(?:const|unsafe|extern)\s+)*\bfn\s+\w")
UNSEEN = re.compile(r"(?ms)^[ \t]*(?:ghost\s+)?(?:use|mod)\s[^;]*;|#!?\[tactic\([^\]]*\)\]")


def without_functions(text):
    """A blanked source without its functions."""
    parts, at = [], 0
    while found := FUNCTION.search(text, at):
        parts.append(text[at:found.start()])
        at = function_at(text, text.index("fn", found.start()))[2]
    return "".join(parts) + text[at:]


def face_of_source(text):
    text = blanked(text)
    rest = plain(UNSEEN.sub("", without_functions(text)))
    return rest, sorted((owner, name, *function) for owner, name, function in functions_in(text))


def is_seen(inside):
    """Whether those above see something of a file, by its path in its crate."""
    parts = inside.split("/")
    return parts[0] in ("src", "specs") and parts[-1] != "tests.rt" or inside == "proofs/Facts.antt"


def face(top, crate):
    """What those above see of a crate."""
    for file in files_of(top, crate):
        inside = str(file.relative_to(top / "crates" / crate))
        if is_seen(inside):
            text = file.read_text()
            yield inside, face_of_source(text) if inside.endswith(".rt") else text


def sum_of(crate, uses, content, below):
    """A checksum of a crate's name, of what it uses, of this content, and of those below it."""
    return hashlib.sha256(repr((crate, uses[crate], content, below)).encode()).hexdigest()


def seen_sum(top, crate, uses, known):
    """A checksum of what a crate shows, and those below it."""
    if crate not in known:
        below = [seen_sum(top, it, uses, known) for it in uses[crate]]
        known[crate] = sum_of(crate, uses, list(face(top, crate)), below)
    return known[crate]


def checksum(top, crate, uses, known=None):
    """A checksum of all that a verdict on a crate rests on: its own sources, definitions and proofs, what each crate below
    shows, and what each of them uses."""
    known = {} if known is None else known
    own = [(str(it.relative_to(top)), it.read_bytes()) for it in files_of(top, crate)]
    return sum_of(crate, uses, own, [seen_sum(top, it, uses, known) for it in uses[crate]])
