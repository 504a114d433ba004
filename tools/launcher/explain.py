"""Says what an exit status means, in one line on standard error as a compiler writes it: the file, the place, the text
and the cause. docs/USER-GUIDE.md has the same causes with examples.

The program prints a refusal to the caller alone, so it is asked once more, where that can't change anything: the files
are judged in a new empty folder, before any journal is opened there, and `reserved` reads the journal and draws nothing.
"""
import csv
import errno
import fcntl
import os
import re
import stat
import sys
import tempfile
from dataclasses import dataclass
from pathlib import Path

from . import running
from .places import GUIDE, JOURNAL, tell

MAX_BYTES, MAX_JOURNAL = 67108864, 1073741824
MAX_SHOWN = 160
# The longest word that is shown: in a line that may hold keys, and in any other one.
LONGEST_IN_SECRET, LONGEST_PLAIN = 4, 15
# The first words of the lines that hold no key.
PLAIN = "workers print realm round restart job draw give sync auts session start deliver repeat giveup plain tamper cut".split()

CAUSES_OF_SUBSCRIBERS = {
    "header": "the first record isn't imsi,k,kind,op,amf,seq,usim, nor the same with ,bits,age",
    "fieldcount": "the record doesn't have as many fields as the header",
    "imsi": "IMSI isn't 6 to 15 decimal digits",
    "key": "K isn't 32 hexadecimal digits",
    "kind": "KIND is neither op nor opc",
    "op": "OP isn't 32 hexadecimal digits",
    "amf": "AMF isn't 4 hexadecimal digits",
    "bits": "BITS isn't one digit from 0 to 6",
    "age": "AGE is neither - nor a number from 1 to 281474976710655",
    "seq": "SEQ isn't 1 to 15 decimal digits, or it is above the subscriber's greatest number",
    "usim": "USIM isn't 1 to 15 decimal digits, or it is above the subscriber's greatest number",
    "twice": "an earlier subscriber has the same IMSI",
    "toomany": "there are more than 65536 subscribers",
}
CAUSES_OF_LINES = {
    **{why: text for why, text in CAUSES_OF_SUBSCRIBERS.items() if why not in ("header", "fieldcount")},
    "unknownword": "no line begins with this word",
    "outoforder": "the line is in the wrong place",
    "fields": "the number of fields is wrong, or one has another form",
    "number": "a number is out of its range",
    "hex": "a field isn't its number of hexadecimal digits",
    "unknownsubscriber": "no subscriber has this IMSI",
    "unknownsession": "no earlier line of this job opens this session",
    "twice": "an earlier line, session, start or subscriber is the same",
    "usimbusy": "an earlier job of this round gives to this USIM, has a `fiveg` line of it or a session of it",
    "limit": "a limit is exceeded",
    "notlive": "the line may not stand in a block of a service",
    "unfinished": "the input ended before the line `end`",
}
# The causes that a comment behind other words, or behind a blank, has.
CAUSES_OF_FORM = ("fields", "unknownword", "hex", *"imsi key kind op amf bits age seq usim".split())
OF_COMMENTS = "; a comment is a line of its own, with # as its first byte"


@dataclass(frozen=True)
class Call:
    """A call that ended in this folder: the program, its words, the words of the caller, which name the files, and what the
    program printed if that is known."""

    program: str
    words: list
    names: list
    said: str = None

    def is_service(self):
        return self.words[0] == "serve"

    def is_compaction(self):
        return self.words == ["compact"]

    def files(self):
        """The files of a run or a service in the order in which the program reads them, each with the caller's name for it."""
        return [*zip(self.words[1:], self.names[1:])][::-1] if self.words[0] in ("run", "serve") else []

    def last_line(self, words, folder):
        """The words of the last line that the program printed, or prints for these words in a folder."""
        said = running.printed(self.program, words, folder) if self.said is None else self.said
        return said.splitlines()[-1].split() if said else []


def journal():
    """The whole path of the journal, or where a link in its place leads."""
    return Path(os.path.realpath(JOURNAL))


# ---- a line of a file


def masked(word, longest):
    """A word of a line. A key, a part of one, and what may be a misspelt one give their length alone."""
    is_harmless = re.fullmatch(r"[0-9]{1,15}", word) or len(word) <= longest
    return word if is_harmless else f"[{len(word)} characters]"


def shown(words, between):
    """A line's text without keys, as a terminal can print it."""
    text = between.join(words)
    text = "".join(it if it.isprintable() else f"\\x{ord(it):02x}" for it in text)
    return text if len(text) <= MAX_SHOWN else f"{text[:MAX_SHOWN]} .."


def line_of_scenario(path, number):
    """The text of a line, from 1."""
    with open(path, "rb") as file:
        for place, line in enumerate(file, 1):
            if place == number:
                first, *fields = line.decode(errors="backslashreplace").split()
                longest = LONGEST_PLAIN if first in PLAIN else LONGEST_IN_SECRET
                return shown([masked(first, LONGEST_PLAIN), *(masked(it, longest) for it in fields)], " ")
    raise ValueError("no such line")


def record_of_subscribers(path, number):
    """The line of a record, from 0, and its text. Empty lines aren't counted."""
    with open(path, encoding="utf-8-sig", errors="backslashreplace", newline="") as file:
        reader = csv.reader(file)
        records = ((reader.line_num, record) for record in reader if record)
        for place, (line, record) in enumerate(records):
            if place == number:
                return line, shown([masked(it, LONGEST_IN_SECRET) for it in record], ",")
    raise ValueError("no such record")


def cause_of_line(path, name, number, why):
    text = line_of_scenario(path, number)
    of_comments = OF_COMMENTS if why in CAUSES_OF_FORM and "#" in text else ""
    return f"{name}:{number}: {text}: {CAUSES_OF_LINES.get(why, why)} ({why}){of_comments}"


def cause_of_record(path, name, number, why):
    line, text = record_of_subscribers(path, number)
    return f"{name}:{line}: {text}: {CAUSES_OF_SUBSCRIBERS.get(why, why)} ({why})"


def refusal(call, status):
    """Which record or line is refused, and why. It is found by a second run over the same files in a folder of its own. A header
    was heard once, and only the caller has its refusal."""
    if call.is_service() and status == 3:
        return f"auc: the header is refused, by the line on standard output (status {status})"
    with tempfile.TemporaryDirectory() as folder:
        words = [call.words[0], *(os.path.join(os.getcwd(), it) for it in call.words[1:])]
        said = call.last_line(words, folder)
    kind = {2: "subscribers", 3: "scenario"}[status]
    if len(said) != 4 or said[:2] != ["refused", kind]:
        return f"auc: the file of the {kind} is refused (status {status})"
    path, name = call.files()[-1 if kind == "scenario" else 0]
    of = cause_of_line if kind == "scenario" else cause_of_record
    try:
        return of(path, name, int(said[2]), said[3])
    except (OSError, ValueError, csv.Error):
        return f"{name}: {' '.join(said)}"


def refused_journal(call, status):
    said = call.last_line(["reserved"], ".")
    place = f"byte {said[2]} shows that " if len(said) == 3 and said[:2] == ["refused", "journal"] else ""
    return f"{journal()}: {place}it is no journal. Don't delete it: {GUIDE} has the cases (status {status})"


# ---- what the system says of a file


def fault_of_input(path):
    """Why a file can't be read at offsets, by the system; nothing if it can."""
    try:
        with open(path, "rb", opener=lambda it, flags: os.open(it, flags | os.O_NONBLOCK)) as file:
            if not stat.S_ISREG(os.fstat(file.fileno()).st_mode) and not file.seekable():
                return os.strerror(errno.ESPIPE)
            file.read(1)
    except OSError as error:
        return error.strerror
    return None


def unreadable(call, status):
    faults = [(name, fault_of_input(path)) for path, name in call.files()]
    other = "standard input" if call.is_service() else "a file"
    fault = next((f"{name}: {it}" for name, it in faults if it), f"auc: {other} could not be read")
    return f"{fault} (status {status})"


def too_long(call, status):
    if call.is_compaction():
        return f"{journal()}: a new one would have more than {MAX_JOURNAL} bytes (status {status})"
    for path, name in call.files():
        size = os.stat(path).st_size
        if size > MAX_BYTES:
            return f"{name}: it has {size} bytes, more than {MAX_BYTES} (status {status})"
    if call.is_service():
        return f"auc: the service has heard all blocks that it can number, or one without an end (status {status})"
    return f"auc: a file has more than {MAX_BYTES} bytes (status {status})"


def fault_of(error):
    """What the system says of a journal, in words."""
    return "another process has it open: one run at a time" if isinstance(error, BlockingIOError) else error.strerror


def refuse_no_file(file):
    """Refuses an opened journal that is a device or a pipe."""
    if not stat.S_ISREG(os.fstat(file.fileno()).st_mode):
        raise OSError(errno.EINVAL, "it is no file")


def fault_of_journal(path):
    """Why a journal can't be opened, locked or written, by the system; nothing if it can. The journal stays as it is."""
    try:
        if os.path.lexists(path):
            with open(path, "r+b", buffering=0, opener=lambda it, flags: os.open(it, flags | os.O_NONBLOCK)) as file:
                refuse_no_file(file)
                fcntl.flock(file, fcntl.LOCK_EX | fcntl.LOCK_NB)
        with tempfile.TemporaryFile(dir=path.parent, buffering=0) as file:
            file.write(bytes(4096))
            os.fsync(file.fileno())
    except OSError as error:
        return fault_of(error)
    return None


def journal_failed(_, status):
    fault = fault_of_journal(journal())
    return f"{journal()}: {fault or 'it could not be opened, locked, read or written'} (status {status})"


# ---- all statuses


def unwritten(call, status):
    if call.is_compaction() and sys.stdout:
        fault = fault_of_journal(journal())
        return f"{journal()}: a new one could not be written beside it{f': {fault}' if fault else ''} (status {status})"
    closed = ": standard output is closed" if sys.stdout is None else ""
    return f"auc: the output could not be written{closed} (status {status})"


SENTENCES = {
    1: lambda _, status: f"auc: these words are no command line; `auc --help` prints the forms (status {status})",
    2: refusal,
    3: refusal,
    4: unreadable,
    5: unwritten,
    6: journal_failed,
    7: refused_journal,
    8: lambda _, status: f"{journal()}: the journal is full (status {status})",
    9: too_long,
    10: lambda _, status: f"auc: the memory ran out (status {status})",
}


def explain(call, status):
    """Says a line about a status other than 0, if it is one of the program's."""
    if status in SENTENCES:
        try:
            tell(SENTENCES[status](call, status))
        except OSError as error:
            tell(f"auc: status {status}, and more can't be said: {error}")
