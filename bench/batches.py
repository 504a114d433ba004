"""Tries many must-fail edits of a crate in one check.

A function is proved from its own body and the contracts of those that it calls. So if edits change the bodies of different
functions, one check tells of each whether its own function is still proved: with `--allow-holes` the prover goes on where a
function that is called isn't proved, and says of each function which of its own goals is open or refused. An edit of
anything else, or one that such a check doesn't show as refused, is left to be tried alone.
"""
import os
import re
import subprocess
from pathlib import Path

from clauses import BLANKED, CLAUSE, end_of, head_end
from faces import FUNCTION

MOST = 12
# What antt says of a proof file that names what an edit took away: that tells little of the contract.
NAMES = re.compile(r"has no field|is not in scope|has no `|was not admitted")


def masked(text):
    """A source in which comments and literals hold no bracket, and each letter stands where it stood."""
    return BLANKED.sub(lambda it: re.sub(r"[^\n]", "_", it[0]), text)


def body_of(text, at):
    """Where the body of the function begins and ends whose `fn` stands at a place of a masked source; nothing without one."""
    begin = at
    while True:
        stop = head_end(text, begin)
        if text[stop:stop + 1] != "{":
            return None
        end = end_of(text, stop)
        if CLAUSE.search(text[begin:stop]) is None:
            return stop, end
        begin = end


def bodies_in(text):
    """The functions of a source, each with its name and where its body begins and ends."""
    text = masked(text)
    for found in FUNCTION.finditer(text):
        at = text.index("fn", found.start())
        body, name = body_of(text, at), re.match(r"fn\s+(\w+)", text[at:])[1]
        if body:
            yield name, *body


def changed_function(crate, pairs):
    """The module and the name of the function whose body alone is changed; nothing if it is no such edit."""
    found = set()
    for path, old, _ in pairs:
        if not (path.startswith("src/") and path.endswith(".rt")):
            return None
        text = (crate / path).read_text()
        bodies, begin = list(bodies_in(text)), text.find(old)
        inside = [name for name, start, end in bodies if start < begin and begin + len(old) < end]
        if len(inside) != 1 or [name for name, *_ in bodies].count(inside[0]) != 1:
            return None
        found.add((path[len("src/"):-len(".rt")].replace("/", "::"), inside[0]))
    return found.pop() if len(found) == 1 else None


def in_batches(places):
    """Edits by their functions, in as few batches as have no function twice, and at most MOST edits each."""
    batches = []
    for edit, place in places.items():
        fits = (it for it in batches if len(it) < MOST and place not in it.values())
        batch = next(fits, None)
        if batch is None:
            batches.append(batch := {})
        batch[edit] = place
    return [it for it in batches if len(it) > 1]


def is_refused(said, crate, place):
    """Whether a check says that a goal of this function's own is open or refused, and not for want of a name. A method stands
    in the module of its type, which may be another one than that of its file: then its name has to be the only one."""
    module, name = place
    verdicts = r"(?m)^fn {}::{}::(?:\S+::)?{}: (.*)$"
    lines, path = re.findall(verdicts.format(crate, module, name), said), re.escape(module.replace("::", "/"))
    if not lines:
        lines, path = re.findall(verdicts.format(crate, r"\w+", name), said), r"\S+"
    files = rf"(?m)^\S*proofs/{path}/(?:[^/\s]+/)?{name}/\S+: error: .*$"
    if any(NAMES.search(it) for it in re.findall(files, said)):
        return False
    own = rf"`search` did not prove|it stands on `Rattle\.{crate}\.proofs\.{path.replace('/', '.')}\.(?:\w+\.)?{name}\."
    unproved = [it for it in lines if it.startswith(("no proof", "not proved"))]
    return len(lines) == len(unproved) == 1 and re.search(own, unproved[0]) is not None


class Lane:
    """A clone of its own to check in: rt lets one check at a time into a clone."""

    def __init__(self, clone, folder):
        self.folder = Path(folder)
        subprocess.run(["cp", "-r", "--reflink=auto", clone, folder], check=True)

    def try_batch(self, crate, batch, pairs_of):
        """Checks a crate with all edits of a batch: those that are refused, and the seconds of processor time."""
        top, texts = self.folder / "crates" / crate, {}
        for edit in batch:
            for path, old, new in pairs_of(edit):
                was = texts.setdefault(path, [(top / path).read_text()] * 2)[1]
                texts[path] = [texts[path][0], was.replace(old, new)]
        for path, (_, text) in texts.items():
            (top / path).write_text(text)
        try:
            how = {"stdin": subprocess.DEVNULL, "stdout": subprocess.PIPE, "stderr": subprocess.STDOUT, "errors": "replace"}
            child = subprocess.Popen(["rt", "check", "--jobs", "1", "--allow-holes"], cwd=top, **how)
            said = child.stdout.read()
            _, status, usage = os.wait4(child.pid, 0)
            child.returncode = os.waitstatus_to_exitcode(status)
        finally:
            for path, (text, _) in texts.items():
                (top / path).write_text(text)
        return {it for it, place in batch.items() if is_refused(said, crate, place)}, usage.ru_utime + usage.ru_stime
