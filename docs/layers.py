#!/usr/bin/env python3
"""Draws the picture of the layers from crates.txt, and refuses a repository that breaks its rules.

    docs/layers.py            checks everything; prints one line if all is well
    docs/layers.py --write    writes the picture into docs/ARCHITECTURE.md, then checks
    docs/layers.py --help     prints this text

In crates.txt a comment right above crates begins a layer, the highest layer first. The rules:

- Each folder of crates/ is listed once, and each listed crate has its folder; a folder of edits/ is that of a crate.
- A crate uses only crates of lower layers, and no chain of crates is longer than eight.
- A .rt or .antt file of a crate names each library that crates.txt lists for it, and names no other own crate.
- A crate imports of another crate's proofs only the module Facts, and no other module of proofs/Lib.antt is public.
- The picture in docs/ARCHITECTURE.md is the one that this script draws.

The exit status is 0 if all is well, and 1 if a rule is broken; each broken rule gets a line on standard error.
"""
import re
import sys
from pathlib import Path

TOP = Path(__file__).resolve().parent.parent
sys.path.append(str(TOP / "tools"))
from ends import run_main

LIST = TOP / "crates.txt"
PAGE = TOP / "docs/ARCHITECTURE.md"
BEGIN, END = "<!-- drawn by docs/layers.py -->\n```text\n", "```\n"
PROGRAM = "auc_cli"
LONGEST_CHAIN = 8


class Layer:
    """One layer: its comment, and each of its crates with the libraries that it uses."""

    def __init__(self, comment):
        self.comment = comment
        self.uses = {}


def crate_of(line, number):
    """The name and the libraries that a line of crates.txt gives."""
    head, colon, libraries = line.partition(":")
    if not colon or not head.split():
        sys.exit(f"crates.txt, line {number}: expected 'NAME: LIBRARY ..'")
    return head.split()[0], libraries.split()


def read_layers(text):
    """The layers of crates.txt, the highest first."""
    layers, comment = [], []
    for number, line in enumerate(text.splitlines(), 1):
        if line.startswith("#"):
            comment.append(line.lstrip("# "))
        elif not line.strip():
            comment = []
        else:
            if comment or not layers:
                layers.append(Layer(" ".join(comment)))
                comment = []
            name, libraries = crate_of(line, number)
            if any(name in layer.uses for layer in layers):
                sys.exit(f"crates.txt, line {number}: {name} is listed twice")
            layers[-1].uses[name] = libraries
    return layers


def used_by(name, uses):
    """A crate and all own crates below it."""
    found, left = set(), [name]
    while left:
        crate = left.pop()
        if crate not in found:
            found.add(crate)
            left += [it for it in uses.get(crate, ()) if it in uses]
    return found


def drawn(layers, uses):
    """The picture: per layer the crates that the program stands on, the other crates, and the comment."""
    ours = used_by(PROGRAM, uses)
    rows = [("of the program", "not used by it yet", "")]
    for layer in layers:
        sides = [[it for it in layer.uses if (it in ours) == is_ours] for is_ours in (True, False)]
        rows.append((" ".join(sides[0]), " ".join(sides[1]), layer.comment))
    left, right = (max(len(row[side]) for row in rows) for side in (0, 1))
    return "".join(f"{a:{left}} | {b:{right}} | {c}".rstrip(" |") + "\n" for a, b, c in rows)


def code_of(crate):
    """Each .rt and .antt file of a crate, without its comments."""
    for path in sorted((TOP / "crates" / crate).rglob("*")):
        inside = path.relative_to(TOP / "crates" / crate).parts
        if path.suffix in (".rt", ".antt") and inside[0] in ("src", "specs", "proofs"):
            comment = r"//.*" if path.suffix == ".rt" else r"(?m)(^|\s)--.*"
            yield path, re.sub(comment, "", path.read_text())


def names_in(text):
    """The libraries that a file names: in a path of Rust, or in an import of definitions and lemmas."""
    return {it for form in (r"\bRattle\.(\w+)\.", r"\b(\w+)\s*::", r"\buse\s+(\w+)\b") for it in re.findall(form, text)}


def broken_edges(layers, uses):
    """The uses of a crate of the same or a higher layer."""
    height = {name: place for place, layer in enumerate(layers) for name in layer.uses}
    for name, libraries in uses.items():
        for library in libraries:
            if library in height and height[library] <= height[name]:
                yield f"{name} uses {library}, which isn't in a lower layer of crates.txt"


def chain_of(name, uses):
    """How many crates the longest chain from a crate downward has."""
    return 1 + max((chain_of(it, uses) for it in uses[name] if it in uses), default=0)


def broken_chains(uses):
    for name in uses:
        if chain_of(name, uses) > LONGEST_CHAIN:
            yield f"a chain from {name} downward has more than {LONGEST_CHAIN} crates"


def broken_names(name, uses):
    """The listed libraries that no file of the crate names, and the own crates that a file names unlisted."""
    named = {it for _, text in code_of(name) for it in names_in(text)}
    for library in uses[name]:
        if library not in named:
            yield f"{name} lists {library} in crates.txt, and none of its files names it"
    for other in sorted(named & set(uses) - set(uses[name]) - {name}):
        yield f"{name} names {other}, which crates.txt doesn't list for it"


def broken_proofs(name, uses):
    """The imports of another crate's proofs past its module of facts, and public modules other than Facts."""
    for path, text in code_of(name):
        for other, module in re.findall(r"\bRattle\.(\w+)\.proofs\.(\w+)", text):
            if other in uses and other != name and module != "Facts":
                yield f"{path.relative_to(TOP)}: imports {other}.proofs.{module}; only {other}.proofs.Facts is public"
    modules = TOP / "crates" / name / "proofs/Lib.antt"
    public = re.findall(r"(?m)^pub\s+mod\s+(\w+)", modules.read_text()) if modules.exists() else []
    for module in public:
        if module != "Facts":
            yield f"{modules.relative_to(TOP)}: {module} is public; only Facts may be"


def broken_folders(uses):
    """The folders of crates/ that aren't listed, and the listed crates that have no folder."""
    folders = {path.name for path in (TOP / "crates").iterdir() if path.is_dir()}
    yield from (f"crates/{it} isn't listed in crates.txt" for it in sorted(folders - set(uses)))
    yield from (f"crates.txt lists {it}, and there is no folder crates/{it}" for it in sorted(set(uses) - folders))
    edits = {path.name for path in (TOP / "edits").glob("*")}
    yield from (f"edits/{it} is no folder of a crate's edits" for it in sorted(edits - set(uses)))


def parts_of_page():
    """The text of the page before the picture, the picture, and the text after it."""
    before, begin, rest = PAGE.read_text().partition(BEGIN)
    picture, end, after = rest.partition(END)
    if not begin or not end:
        sys.exit(f"{PAGE.relative_to(TOP)}: there is no block that begins with {BEGIN.splitlines()[0]}")
    return before, picture, after


def write(picture):
    before, _, after = parts_of_page()
    PAGE.write_text(before + BEGIN + picture + END + after)


def broken_picture(picture):
    if parts_of_page()[1] != picture:
        yield f"{PAGE.relative_to(TOP)}: the picture isn't that of crates.txt; run docs/layers.py --write"


def main():
    words = sys.argv[1:]
    if words not in ([], ["--write"]):
        print(__doc__.strip())
        sys.exit(2)
    layers = read_layers(LIST.read_text())
    uses = {name: libraries for layer in layers for name, libraries in layer.uses.items()}
    picture = drawn(layers, uses)
    if words:
        write(picture)
    broken = [*broken_folders(uses), *broken_edges(layers, uses), *broken_picture(picture)]
    if not broken:
        broken += broken_chains(uses)
    for name in uses:
        broken += [*broken_names(name, uses), *broken_proofs(name, uses)]
    for line in broken:
        print(f"layers: {line}", file=sys.stderr)
    if broken:
        sys.exit(1)
    longest = max(chain_of(name, uses) for name in uses)
    print(f"layers: {len(uses)} crates in {len(layers)} layers, each edge downward and used; the longest chain has {longest}")


if __name__ == "__main__":
    run_main(main, __doc__)
