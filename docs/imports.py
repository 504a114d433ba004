#!/usr/bin/env python3
"""Checks that what sources, definitions and proofs import of the own crates is there, in a second and without a prover.

    docs/imports.py             checks everything; prints one line if all is well
    docs/imports.py --help      prints this text

- A crate that an import names is the file's own, or stands in its line of crates.txt.
- In `use Rattle.auc_run.specs.Output.{IsOutput}` the module is a file of that crate, and each name in the brackets stands in
  that file outside its imports.
- In `use Rattle.auc_record.specs.declared.record.LineRecord.{LineRecord}` the type stands in src/record.rt; after
  `LineRecord.TheVariants` each name in the brackets stands there too.

What the prover writes itself (Goals, Given, TheConstants, ..) has no file, and isn't checked.

The exit status is 0 if all is well, and 1 if something isn't there; each such import gets a line on standard error.
"""
import functools
import re
import sys
from pathlib import Path

TOP = Path(__file__).resolve().parent.parent
sys.path.append(str(TOP / "bench"))
from repository import PARTS, uses_of
from ends import run_main

CRATES = TOP / "crates"
IMPORT = re.compile(r"\s*(?:ghost |pub )*use Rattle\.(auc_\w+)\.(specs|proofs)\.([^{\s;]+?)(?:\.\{(.*)\})?(?: as \w+)?;?$")
PATH = re.compile(r"\s*(?:pub )?use (auc_\w+)::")
WRITTEN = ("Goals", "Given", "Tie", "Reads", "TheConstants", "TheInside")
NOT_IN_NAMES = r"[^\s(){},;]+"


@functools.lru_cache(maxsize=None)
def names_in(path):
    """The names that stand in a file, outside its imports and comments."""
    lines = path.read_text().splitlines()
    return {name for it in lines if not it.startswith(("use ", "--")) for name in re.findall(NOT_IN_NAMES, it)}


@functools.lru_cache(maxsize=None)
def words_in(path):
    """The words that stand in a source."""
    return set(re.findall(r"\w+", path.read_text()))


def plain(names):
    """The names of an import's brackets, each without what it is called here."""
    return [it.split(" as ")[0].strip() for it in names.split(",") if it.strip()]


def lacks_of_type(crate, module, names):
    """What isn't there of a type that stands in a source, or of its variants."""
    module = module.removesuffix(".TheVariants")
    place, _, kind = module.removeprefix("declared.").rpartition(".")
    path = CRATES / crate / "src" / f"{place.replace('.', '/')}.rt"
    if not path.is_file():
        return [f"src/{place}"]
    return [it for it in (kind, *plain(names)) if it not in words_in(path) and not it.startswith("the_")]


def lacks(crate, part, module, names):
    """What isn't there of an import: its module or some of its names."""
    if module.endswith(WRITTEN):
        return []
    if module.startswith("declared."):
        return lacks_of_type(crate, module, names)
    path = CRATES / crate / part / f"{module.replace('.', '/')}.antt"
    if not path.is_file():
        return [f"{part}/{module}"]
    return [it for it in plain(names) if it not in names_in(path)]


def broken_in(line, crate, uses):
    """What is wrong with a line of a crate's file, if it is an import."""
    found, path = IMPORT.match(line), PATH.match(line)
    of = found[1] if found else path[1] if path else crate
    if of != crate and of not in uses[crate]:
        return [f"{of} doesn't stand in the line of {crate} in crates.txt"]
    return [f"{of} has no {it}" for it in lacks(of, found[2], found[3], found[4] or "")] if found else []


def broken_imports(crate, uses):
    files = (it for part in PARTS for it in sorted((CRATES / crate / part).rglob("*")) if it.suffix in (".rt", ".antt"))
    for path in files:
        for number, line in enumerate(path.read_text().splitlines(), 1):
            for what in broken_in(line, crate, uses):
                yield f"{path.relative_to(TOP)}:{number}: {what}"


def main():
    if sys.argv[1:]:
        print(__doc__.strip())
        sys.exit(2)
    uses = uses_of(TOP)
    broken = [it for crate in uses for it in broken_imports(crate, uses)]
    for line in broken:
        print(f"imports: {line}", file=sys.stderr)
    if broken:
        sys.exit(1)
    print(f"imports: what the files of {len(uses)} crates import is there")


if __name__ == "__main__":
    run_main(main, __doc__)
