"""Runs a program in the caller's place: its descriptors, the signals that the script gets, and its exit status."""
import os
import re
import signal
import subprocess
import time

from .places import Stopped, say

PASSED_ON = (signal.SIGINT, signal.SIGTERM, signal.SIGHUP)
NAME = "auc"
OUTPUT = 1
WRITE_FAULT = 5
CHUNK = 65536
# How many seconds there are between two looks at a program that goes on.
LOOK = 1


def started(program, words, **how):
    """The program, started in this folder with the caller's descriptors as they are, also those that are closed. From then
    on it gets each signal that ends scripts; one that comes meanwhile waits."""
    before = signal.pthread_sigmask(signal.SIG_BLOCK, PASSED_ON)
    try:
        process = subprocess.Popen(
            [NAME, *words], executable=program, preexec_fn=lambda: signal.pthread_sigmask(signal.SIG_SETMASK, before), **how
        )
        for number in PASSED_ON:
            if signal.getsignal(number) is not signal.SIG_IGN:
                signal.signal(number, lambda it, _: process.send_signal(it))
    except OSError as error:
        name = f"{error.filename}: " if error.filename else ""
        raise Stopped(f"the program can't be started: {name}{error.strerror}") from error
    finally:
        signal.pthread_sigmask(signal.SIG_SETMASK, before)
    return process


def nothing_to_tell():
    return True


def run(program, words, told=nothing_to_tell, **how):
    """Runs the program: its exit status, as a shell has it. It calls `told` now and then, until that says that nothing is left
    to be told."""
    return as_a_shell_has_it(ended(started(program, words, **how), told))


def ended(process, told):
    while not told():
        try:
            return process.wait(LOOK)
        except subprocess.TimeoutExpired:
            pass
    return process.wait()


def as_a_shell_has_it(status):
    if status < 0:
        say(f"the program was ended by signal {-status}")
        return 128 - status
    return status


class Progress:
    """How much of a transcript is written. It is told at most once a second, and at the end."""

    def __init__(self):
        self.lines, self.rounds, self.rest, self.told_at = 0, 0, b"", time.monotonic()

    def add(self, chunk):
        whole, _, self.rest = (self.rest + chunk).rpartition(b"\n")
        if whole:
            lines = whole.split(b"\n")
            self.lines += len(lines)
            self.rounds += sum(re.match(rb"round \d", it) is not None for it in lines)
        if time.monotonic() - self.told_at >= 1:
            self.tell()

    def tell(self):
        self.told_at = time.monotonic()
        say(f"rounds written: {self.rounds}, lines: {self.lines}")


def write_whole(chunk):
    """Whether the bytes could be written to standard output."""
    try:
        while chunk:
            chunk = chunk[os.write(OUTPUT, chunk):]
    except OSError:
        return False
    return True


def is_open(descriptor):
    try:
        os.fstat(descriptor)
    except OSError:
        return False
    return True


def run_telling(program, words, told=nothing_to_tell):
    """The same as run, and tells what is written. The output goes through the script; if it can't be written, the program
    finds its own output closed. Lines that the program wrote before it could see that are lost too, so the status then is
    the write fault's."""
    if not is_open(OUTPUT):
        return run(program, words, told)
    process, progress, is_written = started(program, words, stdout=subprocess.PIPE), Progress(), True
    while is_written and (chunk := os.read(process.stdout.fileno(), CHUNK)):
        is_written = write_whole(chunk)
        told()
        if is_written:
            progress.add(chunk)
    process.stdout.close()
    status = as_a_shell_has_it(process.wait())
    progress.tell()
    return WRITE_FAULT if status == 0 and not is_written else status


def printed(program, words, folder):
    """What the program prints in a folder, as text. A scenario may be the caller's standard input, which a service would wait
    for."""
    how = {"stdout": subprocess.PIPE, "stderr": subprocess.DEVNULL, "stdin": None if words[0] == "run" else subprocess.DEVNULL}
    return subprocess.run([NAME, *words], executable=program, cwd=folder, **how).stdout.decode(errors="replace")
