"""The must-fail edits of the repository, and docs/EDITS.md, the table of what each try of them came to."""
import hashlib
import re
import textwrap
from dataclasses import dataclass, field
from pathlib import Path

from faces import checksum
from repository import uses_of, version_of

PAGE = "docs/EDITS.md"
FEWEST = 1106
UNTRIED = "not tried"
# What a try comes to: what rt says, and the word of the table. The first that fits counts.
VERDICTS = {
    "NOT REFUSED": "NOT REFUSED",
    "BAD EDIT": "BAD EDIT",
    "NOT TRIED": "no verdict",
    "(only by a limit of the prover": "refused, by a limit",
    "(only because a proof file names": "refused, by a name",
    "refused, as it must be": "refused",
}
HEAD = """# Must-fail edits

Each edit turns one promise into its wrong deed, and the prover has to refuse it. `bench/edits.py --write` tries the edits
and writes this page; nothing else does. Some stand in the gate (`crates/NAME/must-fail`), the others outside
(`edits/NAME`).

- `refused`: the crate isn't proved with the edit. `refused, by a limit`: the prover ended at a limit of its own without a
  verdict. `refused, by a name`: only a proof file that names what the edit took away is refused.
- Edits of the bodies of different functions are tried in one check: such an edit is refused if a goal of its own function
  stays open. The others, and those that such a check doesn't refuse, are tried one by one.
- Refused at: the version at which the edit was last refused. Seconds: the processor time of the last try that was seen; of a
  check of many edits, its share.
- A verdict holds for the files that it was seen on. So a checksum stands with each crate, of its own files and of what the
  crates below it show: their definitions, facts, types and the clauses of their public functions. One of the edit's own text
  stands in its row. `bench/edits.py --released` compares both with the files as they are: on the same files a verdict of an
  earlier version holds.

"""
COLUMNS = "| Edit | Stands | Verdict | Refused at | Seconds | Text |\n|---|---|---|---|---:|---|\n"
ROW = re.compile(r"\| `([^`|]+)` \| ([^|]+) \| ([^|]+) \| ([^|]+) \| ([^|]+) \| `(\w+)` \|")
TRIED = re.compile(r"Tried on the files `(\w+)` at version (\S+), on (\S+ \S+), in (\S+) minutes of processor time\.")
LAST_RUN = re.compile(r"(?m)^(The last run [^#]*?)\n\n")


@dataclass
class Edit:
    """An edit: its crate, its file, whether it stands in the gate, and a checksum of its text, which outlives the file."""

    crate: str
    path: Path
    of_gate: bool
    text: str = field(init=False)

    def __post_init__(self):
        self.text = hashlib.sha256(self.path.read_bytes()).hexdigest()[:8]

    @property
    def name(self):
        return self.path.stem

    @property
    def stands(self):
        return "gate" if self.of_gate else "outside"


@dataclass
class Row:
    """What the table has of an edit."""

    stands: str
    verdict: str = UNTRIED
    refused_at: str = "-"
    seconds: str = "-"
    text: str = ""

    def is_refused(self):
        return self.verdict.startswith("refused")


@dataclass
class Section:
    """What the table has of a crate: on which files its edits were tried, when, and what each came to."""

    files: str = ""
    version: str = ""
    moment: str = ""
    minutes: str = ""
    rows: dict = field(default_factory=dict)


def folder_of(top, crate, of_gate):
    """Where a crate's edits stand: those of the gate, or the others."""
    return top / "crates" / crate / "must-fail" if of_gate else top / "edits" / crate


def edits_of(top, crate):
    """All edits of a crate, in the order of their names."""
    found = [Edit(crate, it, kind) for kind in (True, False) for it in folder_of(top, crate, kind).glob("*.edit")]
    return sorted(found, key=lambda it: it.path.name)


def all_edits(top):
    """The crates that have edits, each with its edits."""
    found = {it: edits_of(top, it) for it in sorted(uses_of(top))}
    return {crate: edits for crate, edits in found.items() if edits}


def verdict_in(line):
    """The verdict that a line of rt must-fail gives."""
    return next((word for said, word in VERDICTS.items() if said in line), "no verdict")


def read_page(top):
    """The sections of the page by crate, and its line on the last run."""
    text = (top / PAGE).read_text() if (top / PAGE).is_file() else ""
    sections = {}
    for part in re.split(r"(?m)^## ", text)[1:]:
        tried = TRIED.search(part)
        rows = {it[0]: Row(*(cell.strip() for cell in it[1:])) for it in ROW.findall(part)}
        sections[part.split()[0]] = Section(*(tried.groups() if tried else ()), rows=rows)
    last = LAST_RUN.search(text)
    return sections, last[1] if last else "No run was noted."


def as_it_stands(top, sections):
    """The sections with a row for each edit that is there now, and for no other. An edit whose text has changed since it
    was tried is not tried."""
    found = {}
    for crate, edits in all_edits(top).items():
        was = sections.get(crate, Section())
        rows = {}
        for edit in edits:
            row, text = was.rows.get(edit.name, Row("")), edit.text
            verdict = row.verdict if row.text == text else UNTRIED
            rows[edit.name] = Row(edit.stands, verdict, row.refused_at, row.seconds, text)
        found[crate] = Section(was.files, was.version, was.moment, was.minutes, rows)
    return found


def section_text(crate, section):
    """A crate's part of the page."""
    tried = "Not tried."
    if section.files:
        tried = f"Tried on the files `{section.files}` at version {section.version}, on {section.moment}, "
        tried += f"in {section.minutes} minutes of processor time."
    rows = [
        f"| `{name}` | {it.stands} | {it.verdict} | {it.refused_at} | {it.seconds} | `{it.text}` |\n"
        for name, it in section.rows.items()
    ]
    return f"## {crate}\n\n{tried}\n\n{COLUMNS}{''.join(rows)}"


def write_page(top, sections, last_run):
    """Writes the page for the edits that are there now."""
    sections, uses = as_it_stands(top, sections), uses_of(top)
    rows = [row for it in sections.values() for row in it.rows.values()]
    same = [it for crate, it in sections.items() if it.files == files_sum(top, crate, uses)]
    refused = sum(row.is_refused() for it in same for row in it.rows.values())
    of_gate = sum(row.stands == "gate" for row in rows)
    count = f"{len(rows)} edits of {len(sections)} crates, {of_gate} of them in the gate: "
    count += f"{refused} refused on the files of version {version_of(top)}."
    parts = [section_text(crate, it) for crate, it in sections.items()]
    (top / PAGE).write_text(f"{HEAD}{count}\n\n{textwrap.fill(last_run, 120)}\n\n" + "\n".join(parts))


def files_sum(top, crate, uses):
    """The checksum of what the verdicts on a crate's edits rest on, as the page has it."""
    return checksum(top, crate, uses)[:16]


def lacking(top):
    """By crate, why the table doesn't show its edits as refused on the files as they are: by the edits' names. A crate of
    which all is shown isn't there."""
    sections, uses = as_it_stands(top, read_page(top)[0]), uses_of(top)
    found = {}
    for crate, section in sections.items():
        other = section.files != files_sum(top, crate, uses)
        whys = {name: why_lacking(row, other) for name, row in section.rows.items()}
        found[crate] = {name: why for name, why in whys.items() if why}
    return {crate: whys for crate, whys in found.items() if whys}


def why_lacking(row, other):
    """Why a row doesn't show its edit as refused on the files as they are; nothing if it does."""
    if not row.is_refused():
        return row.verdict
    return "tried on other files" if other else ""
