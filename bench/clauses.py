#!/usr/bin/env python3
"""Compares the clauses of every public function of crates/*/src at two revisions, and lists what differs.

    bench/clauses.py [--all] OLD [NEW]

OLD and NEW are revisions of git, as a tag or a commit; without NEW it is the files as they stand. A public function is a
`pub fn` of a module or of an `impl`, or a function of a `pub trait` or of an `impl` of a trait. It is known by its crate,
the type or trait that it stands at, and its name; the file doesn't count. Its clauses are its `requires`, `ensures` and
`ghost` ones with their labels. Their order doesn't count, and neither do comments or how a clause is laid out.

    changed CRATE TYPE::NAME     followed by each clause that is gone (-) and each that came (+)
    signature CRATE TYPE::NAME   the clauses are the same, and the signature isn't; followed by both
    removed, added               the function is gone, or came
    moved                        gone from one crate, type or name, and come with the same clauses under another; a
                                 function without any clause only if it has the same name

It reads sources that `rt fmt` laid out, and knows nothing of macros. `use` items count for nothing, so a name in a clause
may mean something else than before: --all lists each definition and constant of crates/*/specs and src whose text differs
too.

The exit status is 0 if nothing but moved functions is listed, 1 if something else is, and 2 if there is no such revision.
"""
import argparse
import io
import re
import subprocess
import sys
import tarfile
from typing import NamedTuple

from repository import TOP
from ends import run_main

BLANKED = re.compile(r'"(?:\\.|[^"\\])*"' + r"|b?'(?:\\.|[{}\"])'" + r"|//[^\n]*|/\*.*?\*/", re.S)
TOKEN = re.compile(r"\b(?:impl|trait|mod|fn)\b|[{};]")
CLAUSE = re.compile(r"\b(?:requires|ensures|ghost)\b")
DEFINED = re.compile(r"^(?:(?:pub|abbrev|unfoldable|opaque)\s+)*(?:data\s+|record\s+)?([^\s:(){},]+)")


class Key(NamedTuple):
    """What a function is known by."""

    crate: str
    owner: str
    name: str

    def said(self):
        return f"{self.crate} {self.owner}::{self.name}" if self.owner else f"{self.crate} {self.name}"


class Function(NamedTuple):
    """What is compared of a function."""

    signature: str
    clauses: tuple


def options():
    parser = argparse.ArgumentParser(description=__doc__, formatter_class=argparse.RawDescriptionHelpFormatter)
    parser.add_argument("old", metavar="OLD", help="the revision before")
    parser.add_argument("new", metavar="NEW", nargs="?", help="the revision after")
    parser.add_argument("--all", action="store_true", help="also the definitions and constants")
    return parser.parse_args()


# ---- the files of a revision


def files_at(revision):
    """The sources and definitions of all crates at a revision, or as they stand: the text of each, by its path."""
    if revision is None:
        found = [it for part in ("src", "specs") for it in TOP.glob(f"crates/*/{part}/**/*") if it.is_file()]
        return {str(it.relative_to(TOP)): it.read_text() for it in found}
    ran = subprocess.run(["git", "archive", revision, "crates"], cwd=TOP, capture_output=True, check=False)
    if ran.returncode:
        print(ran.stderr.decode(errors="replace").strip(), file=sys.stderr)
        sys.exit(2)
    with tarfile.open(fileobj=io.BytesIO(ran.stdout)) as archive:
        members = [it for it in archive.getmembers() if it.isfile() and re.match(r"crates/\w+/(src|specs)/", it.name)]
        return {it.name: archive.extractfile(it).read().decode() for it in members}


# ---- the parser


def blanked(text):
    """A source without its comments, and with braces and quotes in its literals taken out."""
    return BLANKED.sub(lambda it: "" if it[0].startswith("/") else re.sub(r"[{};]", "_", it[0]), text)


def end_of(text, at):
    """The place after the bracket that closes the one at a place."""
    depth = 0
    for found in re.compile(r"[{}]").finditer(text, at):
        depth += 1 if found[0] == "{" else -1
        if depth == 0:
            return found.end()
    return len(text)


def head_end(text, at):
    """The place of the next `{` or `;` that stands in no other bracket, as the `;` of an array's type does; or the end."""
    depth = 0
    for found in re.compile(r"[()\[\]{};]").finditer(text, at):
        if depth == 0 and found[0] in "{;":
            return found.start()
        depth += (found[0] in "([{") - (found[0] in ")]}")
    return len(text)


def plain(text):
    """A text with one blank for each gap, and none where two layouts differ."""
    text = re.sub(r"\s+", " ", text).strip()
    return re.sub(r",? ?([)}\]])", r"\1", re.sub(r"([({\[]) ", r"\1", text))


def function_at(text, at):
    """The function whose `fn` stands at a place: its name, what is compared of it, and the place after it."""
    name, clauses, begin = re.compile(r"fn\s+(\w+)").match(text, at)[1], [], at
    signature = None
    while True:
        stop = head_end(text, begin)
        head = text[begin:stop]
        clause = CLAUSE.search(head)
        signature = (head[:clause.start()] if clause else head) if signature is None else signature
        if clause is None or text[stop:stop + 1] != "{":
            after = end_of(text, stop) if text[stop:stop + 1] == "{" else stop + 1
            return name, Function(plain(signature), tuple(sorted(clauses))), after
        begin = end_of(text, stop)
        clauses.append(plain(head[clause.start():] + text[stop:begin]))


def owner_of(head):
    """The type or trait of the head of an `impl` or a `trait`, without the parameters that it declares and its bounds."""
    head, depth = re.sub(r"^(impl|trait)\s*", "", plain(head)), 0
    for found in re.finditer(r"->|[<>]", head if head.startswith("<") else ""):
        depth += {"<": 1, ">": -1}.get(found[0], 0)
        if depth == 0:
            head = head[found.end():]
            break
    return re.split(r" where |:(?!:)", head)[0].strip()


def functions_in(text, begin=0, end=None, owner="", is_open=False):
    """The public functions of a blanked source: the owner, the name and what is compared of each."""
    at, end = begin, len(text) if end is None else end
    while True:
        found = TOKEN.search(text, at, end)
        if found is None:
            return
        line = text[text.rfind("\n", 0, found.start()) + 1:found.start()]
        if found[0] == "fn" and re.match(r"\s+\w", text[found.end():found.end() + 2]):
            name, function, at = function_at(text, found.start())
            if is_open or re.search(r"\bpub\s+(const\s+|unsafe\s+)*$", line):
                yield owner, name, function
        elif found[0] in ("impl", "trait", "mod"):
            stop = head_end(text, found.end())
            at = end_of(text, stop) if text[stop:stop + 1] == "{" else stop + 1
            head = text[found.start():stop]
            opens = " for " in plain(head) if found[0] == "impl" else re.search(r"\bpub\s+$", line) is not None
            if text[stop:stop + 1] == "{" and (found[0] != "trait" or opens):
                inside = owner if found[0] == "mod" else owner_of(head)
                yield from functions_in(text, stop + 1, at - 1, inside, opens and found[0] != "mod")
        else:
            at = end_of(text, found.start()) if found[0] == "{" else found.end()


def functions_of(files):
    """The public functions of all crates, by their keys."""
    found = {}
    for path, text in sorted(files.items()):
        crate, part = path.split("/")[1:3]
        if part == "src" and path.endswith(".rt") and not path.endswith("/tests.rt"):
            for owner, name, function in functions_in(blanked(text)):
                found.setdefault(Key(crate, owner, name), function)
    return found


def definitions_of(files):
    """The definitions of specs/ and the constants of src/, by crate and name."""
    found = {}
    for path, text in sorted(files.items()):
        crate = path.split("/")[1]
        if path.endswith(".antt"):
            text = re.sub(r"(?m)^\s*--.*\n", "", text)
            for part in re.split(r"\n(?=\S)", text):
                name = DEFINED.match(part)
                if name and name[1] not in ("use", "mod"):
                    place = crate, name[1]
                    found[place] = found.get(place, "") + plain(part) + "\n"
        elif path.endswith(".rt"):
            for name, value in re.findall(r"(?m)^\s*(?:pub\S* )?const (\w+): ([^;]*);", blanked(text)):
                found[crate, name] = plain(value)
    return found


# ---- the comparison


def moves_between(gone, came):
    """The functions that are gone and have come under another key with the same clauses: pairs of keys."""
    pairs, left = [], dict(came)
    for key, function in gone.items():
        same = [it for it in left if left[it].clauses == function.clauses and (function.clauses or it.name == key.name)]
        if same:
            best = min(same, key=lambda it: (it.name != key.name, it.owner != key.owner, it.crate != key.crate))
            pairs.append((key, best))
            del left[best]
    return pairs


def told_clauses(old, new):
    """The lines of the clauses that are gone, and of those that came."""
    gone, came = list(old.clauses), list(new.clauses)
    for it in old.clauses:
        if it in came:
            came.remove(it)
            gone.remove(it)
    return [f"    - {it}" for it in gone] + [f"    + {it}" for it in came]


def differences(old, new):
    """The lines that say what differs between the functions of two revisions: what counts, and what only moved."""
    lines = []
    gone = {it: old[it] for it in old if it not in new}
    came = {it: new[it] for it in new if it not in old}
    moved = moves_between(gone, came)
    for key in sorted(old.keys() & new.keys()):
        if old[key].clauses != new[key].clauses:
            lines += [f"changed {key.said()}", *told_clauses(old[key], new[key])]
        elif old[key].signature != new[key].signature:
            lines += [f"signature {key.said()}", f"    - {old[key].signature}", f"    + {new[key].signature}"]
    lines += [f"removed {it.said()}" for it in sorted(gone.keys() - {one for one, _ in moved})]
    lines += [f"added {it.said()}" for it in sorted(came.keys() - {other for _, other in moved})]
    return lines, [f"moved {one.said()} -> {other.said()}" for one, other in moved]


def other_texts(old, new):
    """The lines that say which definitions and constants differ."""
    return [
        f"{'definition' if place in old and place in new else 'gone' if place in old else 'new'} {' '.join(place)}"
        for place in sorted(old.keys() | new.keys())
        if old.get(place) != new.get(place)
    ]


def main():
    given = options()
    before, after = files_at(given.old), files_at(given.new)
    old, new = functions_of(before), functions_of(after)
    lines, moved = differences(old, new)
    if given.all:
        lines += other_texts(definitions_of(before), definitions_of(after))
    for line in [*lines, *moved]:
        print(line)
    clauses = sum(len(it.clauses) for it in new.values())
    heads = sum(not it.startswith(" ") for it in lines)
    print(f"{len(new)} public functions with {clauses} clauses, {len(old)} before: {heads} differ, {len(moved)} moved")
    sys.exit(1 if lines else 0)


if __name__ == "__main__":
    run_main(main)
