#!/usr/bin/env python3
"""Starts the program with each subset of the descriptors 0, 1 and 2 closed, and with syncs that fail, in a folder with a journal and
in one without, and judges what it leaves there.

    tools/test_ends.py [PROGRAM]      PROGRAM: crates/auc_cli/out/auc_cli, unless it is given

- A file auc.journal is a journal after each run: it begins with the header of one, or has no bytes.
- With standard output closed the status is 5, the journal has the bytes of before, and none is made if there was none.
- With others closed the run is as with all open: output, status and journal. But a service without standard input has no header.
- If each sync fails, a form that opens the journal has status 6, prints nothing, and adds no byte to it. One that didn't sync would go
  on.

The exit status is 0 only if each rule holds.
"""
import itertools
import os
import subprocess
import sys
from pathlib import Path

from ends import run_main
from failing_calls import FDATASYNC, FSYNC, failing
from trial import HEADER as FIELDS, KEYS, K, OPC, folder_with

TOP = Path(__file__).resolve().parent.parent
JOURNAL, HEADER = "auc.journal", b"AUC-SQN-JOURNAL1"
WRITE_FAULT, JOURNAL_FAULT, NO_HEADER = 5, 6, (b"refused scenario 1 unfinished\n", 3)
SECONDS = 60
FILES = {
    "day.scenario": "round\njob\ndraw 001010000000001 3\njob\ndraw 001010000000001 100\n",
    "subscribers.csv": f"{FIELDS}\n001010000000001,{','.join(KEYS)}\n",
    "day.blocks": "end\nround\njob\ndraw 001010000000001 3\nend\n",
}
FORMS = [
    ["run", "day.scenario", "subscribers.csv"], ["reserved"], ["compact"], ["load", "7", "2", "2", "2"],
    ["vector", K, OPC, "23553cbe9637a89d218ae64dae47bf35", "ff9bb4d0b607", "b9b9"], ["serve", "subscribers.csv"],
]
OF_JOURNAL = ("run", "reserved", "compact", "serve")
SUBSETS = [set(it) for count in range(4) for it in itertools.combinations((0, 1, 2), count)]


def journal_in(folder):
    """The bytes of the folder's journal; nothing if it has none."""
    path = Path(folder, JOURNAL)
    return path.read_bytes() if path.exists() else None


def closing(descriptors):
    """What a child does before it becomes the program, so that it has none of these."""
    def close():
        for descriptor in descriptors:
            os.close(descriptor)
    return close


def ran(program, words, journal, prepare=None):
    """A run over a journal of these bytes, if there are any, whose input is blocks: its output, its status, and the journal after it."""
    with folder_with(FILES if journal is None else FILES | {JOURNAL: journal}) as folder:
        with open(Path(folder, "day.blocks"), "rb") as blocks:
            done = subprocess.run(
                [program, *words], cwd=folder, stdin=blocks, stdout=subprocess.PIPE, stderr=subprocess.PIPE, preexec_fn=prepare,
                timeout=SECONDS,
            )
        assert not done.stderr, (words, done.stderr)
        return done.stdout, done.returncode, journal_in(folder)


def wanted_of(words, journal, closed, whole):
    """What a run has to come to, if it comes to this with all open."""
    if 1 in closed:
        return b"", WRITE_FAULT, journal
    return (*NO_HEADER, journal) if 0 in closed and words[0] == "serve" else whole


def cases(program, words, journal):
    """How a form of the program is started, each with what the child does first and what the run has to come to."""
    whole = ran(program, words, journal)
    assert whole[1] == 0, (words, whole)
    for closed in SUBSETS:
        yield f"{sorted(closed)} closed", closing(closed), wanted_of(words, journal, closed, whole)
    if words[0] in OF_JOURNAL:
        yield "no sync", failing(FSYNC, FDATASYNC), (b"", JOURNAL_FAULT, journal or b"")


def judge(program, words, journal):
    """How many rules a form of the program breaks; says each breach."""
    breaches = 0
    for case, prepare, wanted in cases(program, words, journal):
        found = ran(program, words, journal, prepare)
        is_journal = not found[2] or found[2].startswith(HEADER)
        if found != wanted or not is_journal:
            breaches += 1
            folder = "without a journal" if journal is None else "with a journal"
            print(f"ends: {words[0]}, {folder}, {case}: {found} in place of {wanted}", file=sys.stderr)
    return breaches


def main():
    program = str(Path(sys.argv[1] if len(sys.argv) > 1 else TOP / "crates/auc_cli/out/auc_cli").resolve())
    journal = ran(program, FORMS[0], None)[2]
    assert journal and journal.startswith(HEADER), journal
    breaches = sum(judge(program, words, it) for words in FORMS for it in (None, journal))
    if breaches:
        sys.exit(f"ends: {breaches} runs broke a rule")
    print("ends: each rule holds")


if __name__ == "__main__":
    run_main(main, __doc__)
