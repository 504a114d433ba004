"""How each script of tools/, bench/, docs/ and examples/ begins and ends.

`run_main(main)` runs a script and ends it with the status that `main` answers. Nothing of it ends in a traceback that isn't a
fault of the script itself:

- status 5 if its output can't be written: standard output is closed, its reader has gone, or the disk is full;
- status 3 if something is missing that it needs, such as a module of Python or the built program;
- status 130 if it is interrupted.

Each of them comes with a sentence on standard error. A help whose reader has gone is no fault: the status is 0. If one of
descriptors 0 to 2 is closed, no file of the script takes its place. What can't be written to standard error is dropped.
"""
import errno
import io
import os
import signal
import sys
from importlib.util import find_spec

MISSING, UNWRITTEN, INTERRUPTED = 3, 5, 130


class OutputFailed(Exception):
    """An output can't be written: its name, and the system's reason."""

    def __init__(self, name, error):
        super().__init__(f"{name}: {error.strerror}")
        self.has_no_reader = error.errno == errno.EPIPE


class Missing(Exception):
    """What a script needs and isn't there, and the command that brings it."""

    def __init__(self, what, command):
        super().__init__(f"{what} is missing: {command}")


class Output(io.FileIO):
    """Standard output or standard error. After a failure the rest is dropped, so that the failure is told once."""

    def __init__(self, descriptor):
        super().__init__(descriptor, "w", closefd=False)
        self.failure = None

    def write(self, data):
        if self.failure:
            return len(data)
        try:
            return super().write(data)
        except OSError as error:
            self.failure = OutputFailed("standard output", error)
        if self.fileno() == 1:
            raise self.failure
        return len(data)


def hold_descriptors():
    """Opens /dev/null at each of descriptors 0 to 2 that is closed. To read the first and to write the second fails then."""
    for descriptor, mode in enumerate((os.O_WRONLY, os.O_RDONLY, os.O_WRONLY)):
        try:
            os.fstat(descriptor)
        except OSError:
            # The lowest free descriptor is this one, since those below it are open.
            os.set_inheritable(os.open(os.devnull, mode), True)


def text_over(descriptor, stream, errors):
    """A stream of text like the one of Python, which is none if the descriptor was closed."""
    encoding, errors = (stream.encoding, stream.errors) if stream else ("utf-8", errors)
    buffer = io.BufferedWriter(Output(descriptor))
    return io.TextIOWrapper(buffer, encoding, errors, line_buffering=descriptor == 2 or os.isatty(descriptor))


def take_streams():
    """Puts streams in place of Python's own that tell a failed output from every other failure."""
    hold_descriptors()
    sys.stdin = sys.stdin or open(0, closefd=False)
    sys.stdout = text_over(1, sys.stdout, "strict")
    sys.stderr = text_over(2, sys.stderr, "backslashreplace")


def write_to(path, data):
    """Writes bytes to a file, or to standard output if the path is `-`."""
    if path == "-":
        sys.stdout.buffer.write(data)
        return
    try:
        with open(path, "wb") as file:
            file.write(data)
    except OSError as error:
        raise OutputFailed(path, error) from None


def is_help_asked():
    """Whether a word before `--` asks for the help."""
    words = sys.argv[1:]
    own = words[:words.index("--")] if "--" in words else words
    return "-h" in own or "--help" in own


def status_of(main):
    """The status of a script that has ended, after all of its output was written."""
    try:
        status = main()
    except SystemExit as end:
        status = end.code
    sys.stdout.flush()
    if sys.stdout.buffer.raw.failure:
        raise sys.stdout.buffer.raw.failure
    if isinstance(status, str):
        print(status, file=sys.stderr)
        return 1
    return int(status or 0)


def judged(main):
    """The status of a script, and what is to be said of its end."""
    try:
        return status_of(main), ""
    except OutputFailed as reason:
        return (0, "") if reason.has_no_reader and is_help_asked() else (UNWRITTEN, str(reason))
    except Missing as reason:
        return MISSING, str(reason)
    except KeyboardInterrupt:
        return INTERRUPTED, "interrupted"


def run_main(main, text=None):
    """Runs a script. If its help is asked for and is a text, the text is printed, and `main` isn't called."""
    take_streams()
    status, reason = judged((lambda: print(text.strip())) if text and is_help_asked() else main)
    signal.signal(signal.SIGINT, signal.SIG_IGN)
    if reason:
        print(f"{os.path.basename(sys.argv[0])}: {reason}", file=sys.stderr)
    sys.exit(status)


def missing(module):
    """What to raise if a module of Python is missing: Debian's package has its name."""
    return Missing(f"Python's module {module}", f"apt-get install python3-{module}")


def needs(module, text):
    """Stands in a script before the imports that need a module of others. It ends the script with its help if that is asked for,
    and if the module is missing."""
    def fail():
        raise missing(module)
    if is_help_asked() or find_spec(module) is None:
        run_main(fail, text)


def needs_python(*least):
    """Stands before what an older Python can't read, and ends the script if this one is older."""
    def fail():
        raise Missing(f"Python {'.'.join(map(str, least))} or later", f"this is {sys.version.split()[0]}")
    if sys.version_info < least:
        run_main(fail)
