#!/usr/bin/env python3
"""Measures the shape of the code: crates, files, functions and clauses.

    bench/shape.py [REVISION]
    bench/shape.py --write REVISION

REVISION is one of git, as a tag or a commit; without it the files as they stand are measured. Crates of tests and programs
that only tests use count as the others do. A clause is a `requires` or an `ensures` of any function; a copy is one whose text
stands three times or more. --write puts a table into docs/ARCHITECTURE.md, between its marks: the measures at REVISION and
those of the files as they stand.

It reads sources that `rt fmt` laid out, and knows nothing of macros.
"""
import argparse
import re
import sys
from collections import Counter

from clauses import blanked, files_at, function_at, plain
from repository import TOP, write_part
from ends import run_main

PART = "bench/shape.py"
FUNCTION = re.compile(r"(?m)^[ \t]*(?:pub(?:\([^)]*\))?\s+)?(?:(?:const|unsafe|extern)\s+)*\bfn\s+\w")
MOST_LINES, MOST_OF_FILE, MANY, COPIES = 1500, 500, 7, 3


def options():
    parser = argparse.ArgumentParser(description=__doc__, formatter_class=argparse.RawDescriptionHelpFormatter)
    parser.add_argument("revision", metavar="REVISION", nargs="?", help="a revision of git")
    parser.add_argument("--write", action="store_true", help="put the table into its page")
    given = parser.parse_args()
    if given.write and given.revision is None:
        parser.error("--write takes a revision")
    return given


def parameters(signature):
    """How many parameters the signature of a function has, itself among them."""
    signature = re.sub(r"->|=>", "  ", signature)
    begin, depth = signature.index("("), 0
    if "<" in signature[:begin]:
        begin = signature.index("(", after_types(signature))
    parts = [""]
    for letter in signature[begin:]:
        depth += (letter in "([{<") - (letter in ")]}>")
        if depth == 0:
            break
        if letter == "," and depth == 1:
            parts.append("")
        else:
            parts[-1] += letter
    return sum(1 for it in parts if it.strip("( "))


def after_types(signature):
    """The place after the type parameters of a function."""
    depth = 0
    for found in re.finditer(r"[<>]", signature):
        depth += {"<": 1, ">": -1}[found[0]]
        if depth == 0:
            return found.end()
    return len(signature)


def functions_of(text):
    """All functions of a source, public and private."""
    text, at = blanked(text), 0
    while found := FUNCTION.search(text, at):
        _, function, at = function_at(text, text.index("fn", found.start()))
        yield function


class Shape:
    """The measures of all crates at a revision."""

    def __init__(self, files):
        sources = {path: text for path, text in files.items() if path.split("/")[2] == "src" and path.endswith(".rt")}
        self.lines = Counter()
        for path, text in sources.items():
            self.lines[path.split("/")[1]] += text.count("\n")
        self.files = [path for path, text in sources.items() if text.count("\n") > MOST_OF_FILE]
        functions = [(path.split("/")[1], it) for path, text in sorted(sources.items()) for it in functions_of(text)]
        self.many = [(crate, it) for crate, it in functions if parameters(it.signature) >= MANY]
        self.functions = len(functions)
        clauses = Counter(plain(it) for _, function in functions for it in function.clauses if not it.startswith("ghost"))
        self.clauses = sum(clauses.values())
        self.copies = sum(count for count in clauses.values() if count >= COPIES)
        self.unreachable = sum(blanked(text).count("unreachable!()") for text in sources.values())

    def large(self):
        """The crates with too many lines, the largest first."""
        return [(it, lines) for it, lines in self.lines.most_common() if lines > MOST_LINES]

    def ends(self):
        return self.lines["auc_server"] + self.lines["auc_peer"]

    def rows(self):
        large = ", ".join(f"`{it}` {lines}" for it, lines in self.large())
        return {
            "crates, and their lines of src": f"{len(self.lines)}, {sum(self.lines.values())}",
            "functions": self.functions,
            f"functions with {MANY} parameters or more": len(self.many),
            "clauses": self.clauses,
            "clauses for each function": f"{self.clauses / self.functions:.2f}",
            f"clauses whose text stands {COPIES} times or more": f"{self.copies} ({self.copies / self.clauses:.0%})",
            "`unreachable!()`": self.unreachable,
            "lines of src of `auc_server` and `auc_peer`": self.ends(),
            f"crates with more than {MOST_LINES} lines of src": large or "none",
            f"files with more than {MOST_OF_FILE} lines of src": len(self.files),
        }


def table(revision, before, after):
    """The measures at a revision and of the files as they stand."""
    lines = [f"| Measure | At {revision} | Now |", "|---|---|---|"]
    old, new = before.rows(), after.rows()
    return "\n".join([*lines, *(f"| {name} | {old[name]} | {new[name]} |" for name in new)]) + "\n"


def main():
    given = options()
    shape = Shape(files_at(given.revision))
    if given.write:
        write_part(TOP / "docs/ARCHITECTURE.md", PART, table(given.revision, shape, Shape(files_at(None))))
        return
    for name, value in shape.rows().items():
        print(f"{name.replace('`', ''):<52} {str(value).replace('`', '')}")
    for crate, function in shape.many:
        print(f"    {parameters(function.signature):>2}  {crate:<18} {function.signature.partition('(')[0]}")


if __name__ == "__main__":
    run_main(main)
