#!/usr/bin/env python3
"""Checks that what README.md, CONTRIBUTING.md and docs/*.md cite is there.

    docs/citations.py           checks everything; prints one line if all is well
    docs/citations.py --help    prints this text

- A path such as docs/keys.md, examples/first.scenario or crates/auc_run/specs names a file or a folder, and
  auc_run/specs/Output one of definitions. A path with NAME or * in it stands for many, and isn't checked.
- In `auc_core` (`RepliesToDraw`) each name in the brackets stands in that crate's sources or definitions; in
  `auc_run/specs/Output` (`IsOutput`) it is a definition of that file.
- In a table whose first column is Definition or Call, the second column says where: each name in the first column is
  defined there.
- Below a heading of crates, as in docs/PROVED.md, each name in brackets stands in one of these crates.

The exit status is 0 if all is well, and 1 if something isn't there; each such citation gets a line on standard error.
"""
import functools
import re
import sys
from pathlib import Path

TOP = Path(__file__).resolve().parent.parent
sys.path.append(str(TOP / "tools"))
from ends import run_main

PAGES = ["README.md", "CONTRIBUTING.md", *sorted(str(it.relative_to(TOP)) for it in (TOP / "docs").glob("*.md"))]
QUOTED = r"`([^`]+)`"
NAME = re.compile(r"[\w*'-]+(?:::[\w-]+)?")
KIND = r"(?:pub(?:\(crate\))?|ghost|abbrev|unfoldable|data|record|fn|struct|enum|trait|const)"
DEFINED = rf"(?m)^\s*(?:{KIND}\s+)+{{}}(?![\w'-])"


@functools.lru_cache(maxsize=None)
def text_of(crate):
    """The sources and the definitions of a crate, as one text."""
    files = [it for part in ("src", "specs") for it in sorted((TOP / "crates" / crate / part).rglob("*"))]
    return "\n".join(it.read_text() for it in files if it.suffix in (".rt", ".antt"))


def file_of(place):
    """The file of `auc_run/specs/Output` or `auc_run/src/top_call`; nothing if there is none."""
    ending = ".antt" if "/specs/" in place or "/proofs/" in place else ".rt"
    path = TOP / "crates" / f"{place}{ending}"
    return path if path.is_file() else None


def names_in(text):
    """The names that stand in back quotes, each without the type or trait before it."""
    return [it.rpartition("::")[2] for it in re.findall(QUOTED, text) if NAME.fullmatch(it)]


def stands_in(name, text):
    return re.search(rf"(?<![\w'-]){re.escape(name)}(?![\w'-])", text) is not None


def is_defined(name, path):
    return re.search(DEFINED.format(re.escape(name)), path.read_text()) is not None


def broken_paths(text):
    """The paths that name nothing."""
    for path in re.findall(r"(?<![\w/.])((?:docs|examples|bench|crates|edits|\.ci)/[\w./*-]*\w)", text):
        if not re.search(r"NAME|TOPIC|\*", path) and not (TOP / path).exists():
            yield f"there is no {path}"
    for place in re.findall(r"`(auc_\w+/(?:specs|src|proofs)/\w+)`", text):
        if file_of(place) is None:
            yield f"there is no file of {place}"


def broken_names(text):
    """The names in brackets after a crate or a file of it that don't stand there."""
    for place, names in re.findall(r"`(auc_\w+(?:/\w+/\w+)?)` \(([^()]*)\)", text):
        crate, path = place.partition("/")[0], file_of(place)
        for name in names_in(names):
            if "/" in place and path is not None and not is_defined(name, path):
                yield f"{place} doesn't define {name}"
            elif "/" not in place and not stands_in(name, text_of(crate)):
                yield f"{name} isn't in {crate}"


def tables_of(text):
    """The rows of each table, as lists of cells, the header first."""
    rows = []
    for line in [*text.splitlines(), ""]:
        if line.startswith("|"):
            rows.append([it.strip() for it in re.split(r"(?<!\\)\|", line.strip()[1:-1])])
        elif rows:
            yield rows
            rows = []


def broken_rows(text):
    """The names of tables that aren't where the table says."""
    for header, *rows in tables_of(text):
        for row in rows:
            if header[0] in ("Definition", "Call") and row[0].startswith("`"):
                yield from broken_definitions(row)


def broken_definitions(row):
    places = re.findall(QUOTED, row[1])
    paths = [it for it in map(file_of, places) if it]
    for name in names_in(row[0]):
        if not any(is_defined(name, it) for it in paths):
            yield f"{' and '.join(places)} doesn't define {name}"


def broken_crates(text):
    """The names in brackets below a heading of crates that stand in none of them."""
    for heading, below in re.findall(r"(?ms)^### (`auc_[^\n]*)\n(.*?)(?=^#|\Z)", text):
        crates = re.findall(QUOTED, heading)
        for brackets in re.findall(r"\(([^()]*)\)", below):
            for name in names_in(brackets):
                if not any(stands_in(name, text_of(it)) for it in crates):
                    yield f"{name} isn't in {' or '.join(crates)}"


def main():
    if sys.argv[1:]:
        print(__doc__.strip())
        sys.exit(2)
    broken = []
    for page in PAGES:
        text = (TOP / page).read_text()
        joined = re.sub(r"(?<!\n)\n(?![\n|#-])", " ", text)
        found = dict.fromkeys([*broken_paths(text), *broken_names(joined), *broken_rows(text), *broken_crates(text)])
        broken += [f"{page}: {it}" for it in found]
    for line in broken:
        print(f"citations: {line}", file=sys.stderr)
    if broken:
        sys.exit(1)
    print(f"citations: what {len(PAGES)} pages cite is there")


if __name__ == "__main__":
    run_main(main, __doc__)
