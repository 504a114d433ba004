"""The words of the script, and what it does with them."""
import contextlib
import os
import subprocess
from dataclasses import dataclass, field
from pathlib import Path

from . import build, compacting, install, release, running
from .explain import Call, explain
from .help import FOLDER, NO_JOURNAL, NO_WORDS, help_text
from .places import CRATE, IS_INSTALLED, JOURNAL, NOT_RUN, TOP, Stopped, put, say, tell, version

FORMS = ("run", "serve", "reserved", "compact", "vector", "auts", "load")
# The forms whose further words name files. They alone begin a journal.
WITH_FILES = ("run", "serve")
# The words that want a journal that is there.
OF_JOURNAL = (["reserved"], ["compact"])
INTERRUPTED = 130

class WrongWords(Exception):
    """The words are none of the script's."""


@dataclass
class Options:
    """What stands before the first word of a form, and the form."""

    folder: str = None
    old: bool = False
    unproved: bool = False
    progress: bool = False
    portable: bool = False
    words: list = field(default_factory=list)


def options(words):
    given, words = Options(folder=os.environ.get(FOLDER)), list(words)
    while words and words[0].startswith("--"):
        option, equals, value = words.pop(0).partition("=")
        if option == "--journal-dir" and (equals or words):
            given.folder = value if equals else words.pop(0)
        elif option in ("--old", "--unproved", "--progress", "--portable") and not equals:
            setattr(given, option[2:], True)
        else:
            raise WrongWords
    if words[:1] not in [[it] for it in FORMS] or given.unproved and words == ["compact"]:
        raise WrongWords
    given.words = words
    return given


# ---- which program is run


def chosen(given):
    """The program to run, as a context. It is built if there is no other; an installed copy has one."""
    if IS_INSTALLED:
        return contextlib.nullcontext(TOP / "program")
    own = build.current(given.portable)
    if own:
        return contextlib.nullcontext(own)
    packed = release.read()
    if packed and packed.is_of_sources_at_hand():
        release.introduce(packed)
        return release.unpacked(packed)
    if given.old:
        return last_proved(packed, given.portable)
    return contextlib.nullcontext(build.build(build.Options(portable=given.portable)))


def last_proved(packed, portable):
    """The program that was proved here last, or else that of the release, though the sources are others now."""
    own = build.last(portable)
    if own:
        say(f"this is {own}, which was proved before the sources changed")
        return contextlib.nullcontext(own)
    if packed:
        say(f"this is the proved program of version {packed.version}; the sources at hand are others")
        return release.unpacked(packed)
    raise Stopped("no program was proved here yet, and there is no release/")


def standing():
    """Whether the program is proved, in a sentence."""
    if IS_INSTALLED:
        return install.standing()
    own = build.current()
    if own:
        return f"proved and built here from these sources, for {build.cpu_of(own)}"
    packed = release.read()
    if packed and packed.is_of_sources_at_hand():
        return f"the proved program of version {packed.version}, built from these sources with {packed.kit}"
    return "not proved: no program was built from these sources yet; `./auc prove` proves and builds it"


# ---- the runs


def enter(folder):
    """Changes into the folder of the journal. It is never made, since a centre without its journal begins again."""
    try:
        os.chdir(folder)
    except OSError as error:
        raise Stopped(f"the folder of the journal, '{folder}': {error.strerror}") from error


def refuse_removed_folder():
    """Refuses a call in a folder that was removed: no journal can be there, and no file has a whole path."""
    try:
        os.getcwd()
    except FileNotFoundError as error:
        raise Stopped("the folder that you call it in was removed") from error


def seen_from_anywhere(words):
    """The words with the files of a run or a service as whole paths."""
    here = os.getcwd()
    return [words[0], *(os.path.join(here, it) if it else it for it in words[1:])] if words[0] in WITH_FILES else words


def is_blank(journal):
    """Whether there is no journal, or one without a byte."""
    try:
        return journal.stat().st_size == 0
    except OSError:
        return True


class Begun:
    """Says once that a journal was begun, if there was none before. A service says it while it lives."""

    def __init__(self, words, journal):
        self.journal, self.is_awaited = journal, words[0] in WITH_FILES and is_blank(journal)

    def told(self):
        """Whether there is nothing to say any more."""
        if self.is_awaited and not is_blank(self.journal):
            say(f"a new journal was begun: {self.journal.absolute()}")
            self.is_awaited = False
        return not self.is_awaited


def run_proved(given):
    words, journal = given.words, Path(JOURNAL)
    refuse_removed_folder()
    if given.folder is not None:
        words = seen_from_anywhere(words)
        enter(given.folder)
    if words in OF_JOURNAL and not os.path.lexists(journal):
        say(f"no journal in {os.getcwd()}")
        return NO_JOURNAL
    with chosen(given) as program:
        if words == ["compact"]:
            return compacting.compact(program)
        begun = Begun(words, journal)
        status = (running.run_telling if given.progress else running.run)(program, words, begun.told)
        begun.told()
        explain(Call(program, words, given.words), status)
    return status


def copied(words):
    """The words for rt try, which runs the program in a folder of its own: the files of a run or a service are copied there."""
    copies, words = [], list(words)
    for place, word in enumerate(words[1:] if words[0] in WITH_FILES else [], 1):
        if os.path.isfile(word):
            words[place] = f"input{place}"
            copies += ["--data", f"{words[place]}={os.path.realpath(word)}"]
    return copies, words


def run_unproved(given):
    if IS_INSTALLED:
        install.stop_building()
    build.need_rt()
    say("nothing is proved in this run")
    copies, words = copied(given.words)
    done = subprocess.run(["rt", "try", *copies, "--", *words], cwd=CRATE, stdout=subprocess.PIPE, stderr=subprocess.PIPE)
    put(done.stdout)
    if not any(it.startswith(b"run=ended") for it in done.stderr.splitlines()):
        raise Stopped(f"the program did not run to its end:\n{done.stderr.decode(errors='replace')}")
    explain(Call(None, given.words, given.words, done.stdout.decode(errors="replace")), done.returncode)
    return done.returncode


def prove(words):
    """The words after `prove`: --jobs N, --anew and --portable, if they are there."""
    given, words = build.Options(), list(words)
    while words:
        word = words.pop(0)
        if word in ("--anew", "--portable"):
            setattr(given, word[2:], True)
        elif word == "--jobs" and words and words[0].isdecimal() and int(words[0]) > 0:
            given.jobs = int(words.pop(0))
        else:
            raise WrongWords
    if IS_INSTALLED:
        install.stop_building()
    say(f"the proved program is {build.build(given)}")
    return 0


def installed(words):
    """The words after `install`: PREFIX, or --remove PREFIX."""
    if len(words) != (2 if words[:1] == ["--remove"] else 1) or words[-1] == "" or words[-1].startswith("-"):
        raise WrongWords
    return install.install_words(words)


def done(words):
    """Does what the words say: the exit status."""
    if words[:1] in (["--help"], ["-h"], ["help"]):
        put(help_text().encode(errors="surrogateescape"))
        return 0
    if words == ["--version"]:
        put(f"auc {version()}\n{standing()}\n".encode())
        return 0
    if words[:1] == ["prove"]:
        return prove(words[1:])
    if words[:1] == ["install"]:
        return installed(words[1:])
    given = options(words)
    return run_unproved(given) if given.unproved else run_proved(given)


def main(words):
    try:
        return done(words)
    except WrongWords:
        tell(help_text().rstrip("\n"))
        return NO_WORDS
    except Stopped as why:
        say(why)
    except OSError as error:
        say(f"{error.filename}: {error.strerror}" if error.filename else error)
    except KeyboardInterrupt:
        return INTERRUPTED
    return NOT_RUN
