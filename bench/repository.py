"""What the scripts of bench/ ask of the repository: its crates and what they stand on, its version, its pages."""
import re
import shutil
import sys
from pathlib import Path

TOP = Path(__file__).resolve().parent.parent
# Where `ends` stands, which each script ends by.
sys.path.append(str(TOP / "tools"))
PARTS = ("src", "specs", "proofs")


def uses_of(top):
    """Each crate of crates.txt and the own crates that it uses."""
    lines = [it.partition("#")[0].partition(":") for it in (top / "crates.txt").read_text().splitlines()]
    listed = {head.split()[0]: libraries.split() for head, colon, libraries in lines if colon and head.split()}
    return {name: [it for it in libraries if it in listed] for name, libraries in listed.items()}


def with_those_below(names, uses):
    """These crates and all crates that they stand on, each after those that it uses."""
    found = {}

    def visit(name):
        if name not in found:
            for library in uses[name]:
                visit(library)
            found[name] = None

    for name in names:
        visit(name)
    return list(found)


def files_of(top, crate):
    """The files that a verdict on a crate rests on, apart from those of the crates below it."""
    folder = top / "crates" / crate
    return sorted(it for part in PARTS for it in (folder / part).rglob("*") if it.is_file())


def keep_only(clone, names):
    """Takes each crate out of a clone but these, so that rt proves no other."""
    lines = (clone / "crates.txt").read_text().splitlines(keepends=True)
    kept = [it for it in lines if it.startswith("#") or not it.split() or re.split(r"[\s:]", it)[0] in names]
    (clone / "crates.txt").write_text("".join(kept))
    for folder in (clone / "crates").iterdir():
        if folder.name not in names:
            shutil.rmtree(folder)


def version_of(top):
    """The version of the newest heading of CHANGELOG.md."""
    found = re.search(r"(?m)^## (\S.*)$", (top / "CHANGELOG.md").read_text())
    if found is None:
        sys.exit("CHANGELOG.md has no heading of a version")
    return found[1].strip()


def marks_of(script):
    """The two lines between which a script writes its part of a page."""
    return f"<!-- begin: {script} -->\n", f"<!-- end: {script} -->\n"


def part_of(page, script):
    """What stands between a script's two marks in a page: the text before, the part and the text after."""
    begin, end = marks_of(script)
    before, has_begin, rest = page.read_text().partition(begin)
    part, has_end, after = rest.partition(end)
    if not has_begin or not has_end:
        sys.exit(f"{page.name} doesn't have the marks {begin.strip()} and {end.strip()}")
    return before, part, after


def write_part(page, script, text):
    """Writes a script's part of a page, between its two marks."""
    before, _, after = part_of(page, script)
    begin, end = marks_of(script)
    page.write_text(before + begin + text + end + after)
