"""The help of the script `auc`: its forms and options, each with what it does. docs/manpage.py takes them from here, too."""
import math

from . import costs
from .places import GUIDE, IS_INSTALLED, NOT_RUN, PAGES

FOLDER = "AUC_JOURNAL_DIR"
NO_WORDS, NO_JOURNAL = 1, 4
FORMS = [
    ("run SCENARIO", "run the scenario in the file SCENARIO"),
    ("run SCENARIO SUBSCRIBERS", "the same, with the subscribers of the CSV file SUBSCRIBERS"),
    ("serve", "stay alive: read blocks of lines from standard input, and reply to each on standard output"),
    ("serve SUBSCRIBERS", "the same, with the subscribers of the CSV file SUBSCRIBERS"),
    ("reserved", "print up to which number each subscriber's numbers are reserved"),
    ("compact", "replace the journal by a shorter one with the same limits"),
    ("vector K OPC RAND SQN AMF", "print the functions of Milenage at these hexadecimal values"),
    ("vector K OPC RAND SQN AMF autn", "the same, and then AUTN"),
    ("auts K OPC RAND SQN", "print the AUTS with which a USIM whose SQN_MS is SQN answers RAND"),
    ("load KEY SUBSCRIBERS JOBS WORKERS", "let workers draw in many jobs, and print a digest of the vectors"),
    ("prove [--jobs N] [--anew] [--portable]", "prove and build the program here, with N jobs side by side"),
    ("install PREFIX", "install the program, its pages and its tools under the folder PREFIX"),
    ("install --remove PREFIX", "take away what was installed there"),
    ("--version", "print the version, and whether the program is proved"),
    ("--help", "print this text"),
]
OPTIONS = [
    ("--journal-dir DIR", f"the folder of the journal; so does the environment variable {FOLDER}"),
    ("--progress", "tell on standard error, once a second, how many rounds and lines are written"),
    ("--old", "don't build: if the sources changed, run the program that was proved last"),
    ("--unproved", "run without any proof and without a journal, after about a minute"),
    ("--portable", "run, or build, the program for the kit's default processor, x86-64-v2"),
]
# What an installed copy doesn't do.
BUILDING = ("prove", "--old", "--unproved", "--portable")
WIDTH = 30

CENTRE = """
A run or a service keeps what it reserved in the file auc.journal of that folder, or else of the folder that you call it in.
That folder is the centre: the same files in another folder give the same numbers once more.
"""
BUILDS = """
The proved program of the last release runs at once. If the sources aren't those of the release, the first call proves and
builds the program. Where it was measured that took {work} minutes of processor time and, on {processors} processors, {measured}
minutes; on as many as here it would have taken {here}. A slower machine may take several times as long, and a build says what
the rest takes at its pace. If this processor has x86-64-v3 (AVX2), the program is built for that, too, and one crate proved
once more; --portable leaves it out.
"""
STATUS = """
The status is the program's; but it is {no_words} for words that aren't here, {no_journal} for `reserved` or `compact` in
a folder without a journal, and {not_run} if the program could not be run. {guide} has all of them.
To begin: {me} run {pages}/examples/first.scenario
"""


def served(rows, installed):
    """The forms or options that a copy has."""
    return [it for it in rows if not installed or it[0].split()[0] not in BUILDING]


def laid_out(heads, rows):
    """Each row with its meaning beside it, or below it if it is long."""
    for head, (words, meaning) in zip(heads, rows):
        line = f"{head}{words}"
        end = len(head) + WIDTH - 2
        yield f"{line:<{end}}{meaning}" if len(line) + 2 <= end else f"{line}\n{'':{end}}{meaning}"


def minutes():
    """What a build costs."""
    found = costs.build()
    here = math.ceil(found.minutes(costs.jobs_here()))
    return {"work": found.work, "here": here, "measured": found.wall, "processors": found.processors}


def help_text(installed=IS_INSTALLED):
    me = "auc" if installed else "./auc"
    forms, options = served(FORMS, installed), served(OPTIONS, installed)
    heads = [f"usage: {me} ", *[f"       {me} "] * (len(forms) - 1)]
    lines = [*laid_out(heads, forms), "", "Options, before the first of these words:", *laid_out(["       "] * len(options), options)]
    builds = "" if installed else BUILDS.format(**minutes())
    status = STATUS.format(no_words=NO_WORDS, no_journal=NO_JOURNAL, not_run=NOT_RUN, guide=GUIDE, me=me, pages=PAGES)
    return "\n".join(lines) + "\n" + CENTRE + builds + status
