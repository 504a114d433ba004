#!/usr/bin/env python3
"""Checks that docs/auc.1, the manual page of the installed command, is made from the script's help and the guide's tables.

    docs/manpage.py            checks; prints one line if all is well
    docs/manpage.py --write    makes it anew

The forms and options are those of tools/launcher/help.py, and the tables those of docs/USER-GUIDE.md. The exit status is 0 if
all is well, and 1 if the page isn't as it should be.
"""
import argparse
import re
import sys
import textwrap
from pathlib import Path

TOP = Path(__file__).resolve().parent.parent
PAGE, GUIDE = TOP / "docs/auc.1", TOP / "docs/USER-GUIDE.md"
sys.dont_write_bytecode = True
sys.path.append(str(TOP / "tools"))
from ends import run_main
from launcher.help import CENTRE, FOLDER, FORMS, OPTIONS, served

WHAT = "authentication centre for SIM cards, with simulated USIMs"
# The tables of a section: what stands above each, and its first row in the guide.
SCENARIO = [
    ("A scenario is a text of lines. Its header lines come first, in any order:", "| Line | Meaning | Without it |"),
    ("Then come rounds. A round has jobs, a job has lines:", "| Line | Meaning |"),
    ("The fields of a session line:", "| Field of a `session` line | What it is |"),
    ("The letters of OPTIONS:", "| Option | What it does |"),
    ("The events of the SCHEDULE of a `sites` line:", "| Event | What happens |"),
    ("The SCHEDULE of a `sim` line:", "| SCHEDULE | What happens |"),
]
SUBSCRIBERS = [
    ("The first record of the file is imsi,k,kind,op,amf,seq,usim. Each further one is a subscriber with these fields, as"
     " the line `subscriber` has them:", "| Field | What it is | Example |"),
]
REFUSALS = [
    ("Faults of a subscriber:", "| WHY | When | Example of a record |"),
    ("Faults of a line of a scenario:", "| WHY | When | Example |"),
]
OUTPUT = [("", "| Line | When |")]
STATUSES = [("", "| Status | Printed | When |")]

FILES = [
    ("auc.journal", "the journal of a centre, in the folder that `--journal-dir` names, or else in the one that the call is"
     " made in. It has mode 0600"),
    ("share/doc/auc", "the guide, docs/USER-GUIDE.md, the operator's tasks, docs/OPERATOR.md, and the examples. The folder is under"
     " the prefix that `auc` was installed in; `auc --help` prints it"),
]
TOOLS = [
    ("auc-import", "brings over the subscribers of hostapd or osmo-hlr"),
    ("auc-seqs", "states SEQ anew for all subscribers, from what `auc reserved` printed"),
    ("auc-gateway", "serves vectors to hostapd"),
    ("auc-master", "leases the numbers of a store to several gateways"),
    ("auc-usim", "plays a USIM for eapol_test or wpa_supplicant"),
    ("auc-chart", "draws the sessions of an output"),
    ("auc-pcap", "writes their packets as a capture"),
    ("auc-report", "shows a run as a page"),
    ("auc-transcript", "turns an output into objects of JSON"),
]


def escaped(text):
    return text.replace("\\", "\\e").replace("-", "\\-")


def is_request(line):
    return line[:1] in (".", "'")


def line_of(markdown):
    """A line of the page: what stands in back quotes is bold."""
    parts = re.split(r"`([^`]*)`", markdown.replace("\\|", "|"))
    text = "".join(f"\\fB{escaped(it)}\\fR" if at % 2 else escaped(it) for at, it in enumerate(parts))
    return f"\\&{text}" if is_request(text) else text


def text_of(markdown):
    """A text of the page, in lines of at most 78 bytes where its words allow it."""
    lines = textwrap.wrap(line_of(markdown), 78, break_long_words=False, break_on_hyphens=False)
    return "\n".join(f"\\&{it}" if is_request(it) else it for it in lines)


def rows_below(guide, header):
    """The rows of the first table of the guide with this header, as lists of cells."""
    if f"\n{header}\n" not in guide:
        sys.exit(f"manpage: docs/USER-GUIDE.md has no table `{header}`")
    lines = guide[guide.index(f"\n{header}\n") + 1:].split("\n\n")[0].splitlines()[2:]
    return [[it.strip() for it in re.split(r"(?<!\\)\|", line.strip()[1:-1])] for line in lines]


def paragraph(term, text):
    return [".TP", line_of(term if "`" in term else f"`{term}`"), text_of(text)]


def meaning(cells, header):
    """What a row says behind its first cell."""
    names = [it.strip() for it in header.strip("|").split("|")]
    if names == ["Status", "Printed", "When"]:
        return f"{cells[2]}. Printed: {cells[1]}"
    if names[-1] == "Without it":
        return f"{cells[1]}. Without it: {cells[2]}" if cells[2] else cells[1]
    return f"{cells[1]}. Example: {cells[2]}" if names[-1].startswith("Example") else cells[1]


def tables(guide, found):
    for place, (above, header) in enumerate(found):
        yield from ([".PP"] if place else [])
        yield from ([text_of(above)] if above else [])
        for cells in rows_below(guide, header):
            yield from paragraph(cells[0], meaning(cells, header))


def synopsis():
    for place, (words, _) in enumerate(served(FORMS, installed=True)):
        yield from ([".br"] if place else [])
        yield f".B auc {escaped(words)}"


def page():
    guide = GUIDE.read_text(encoding="utf-8")
    options = served(OPTIONS, installed=True)
    own = "The script adds: 4 for `reserved` or `compact` in a folder without a journal, and 70 if the program could not be run."
    sections = {
        "NAME": [f"auc \\- {WHAT}"],
        "SYNOPSIS": synopsis(),
        "DESCRIPTION": [text_of(" ".join(CENTRE.replace("of that folder, or else of the folder", "of a folder: the one of"
                                                        " `--journal-dir`, or else the one").split()))],
        "COMMANDS": [it for row in served(FORMS, installed=True) for it in paragraph(*row)],
        "OPTIONS": [text_of("They stand before the first word of a command."), *(it for row in options for it in paragraph(*row))],
        "SUBSCRIBERS": tables(guide, SUBSCRIBERS),
        "SCENARIO": tables(guide, SCENARIO),
        "OUTPUT": tables(guide, OUTPUT),
        "REFUSALS": tables(guide, REFUSALS),
        "EXIT STATUS": [*tables(guide, STATUSES), ".PP", text_of(own)],
        "ENVIRONMENT": paragraph(FOLDER, "the folder of the journal, unless `--journal-dir` names it"),
        "FILES": [it for row in FILES for it in paragraph(*row)],
        "TOOLS": [text_of("Each has a `--help`."), *(it for row in TOOLS for it in paragraph(*row))],
    }
    lines = ['.\\" docs/manpage.py --write makes this page.', '.TH AUC 1 "" "auc" "User Commands"']
    for name, text in sections.items():
        lines += [f".SH {name}", *text]
    return "\n".join(lines) + "\n"


def main():
    parser = argparse.ArgumentParser(description=__doc__, formatter_class=argparse.RawDescriptionHelpFormatter)
    parser.add_argument("--write", action="store_true", help="make the page anew")
    asked, made = parser.parse_args(), page()
    if asked.write:
        PAGE.write_text(made, encoding="utf-8")
    if not PAGE.exists() or PAGE.read_text(encoding="utf-8") != made:
        sys.exit("manpage: docs/auc.1 isn't what the help and the guide have; docs/manpage.py --write")
    print("manpage: docs/auc.1 is made from the help and the guide")


if __name__ == "__main__":
    run_main(main)
