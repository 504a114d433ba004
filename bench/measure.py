"""What the scripts here share: the program, and a run of it that is measured."""
import os
import subprocess
import sys
from pathlib import Path

TOP = Path(__file__).resolve().parent.parent
sys.path.append(str(TOP / "tools"))
from trial import BUILT, HEADER, KEYS, folder_with, runnable


def subscriber_line(imsi):
    """The line of a subscriber in a scenario."""
    return " ".join(["subscriber", imsi, *KEYS])


def program():
    """The program that the command line names, or the one that was built here."""
    return runnable(sys.argv[1] if len(sys.argv) > 1 else BUILT)


def followed(words, read):
    """Runs the program with these words in a new folder, and reads its lines while it runs: its own
    processor seconds, its greatest resident bytes, its status, and what was read."""
    with folder_with() as folder:
        child = subprocess.Popen([program(), *words], cwd=folder, stdout=subprocess.PIPE)
        found = read(child.stdout)
        _, status, usage = os.wait4(child.pid, 0)
    return usage.ru_utime + usage.ru_stime, usage.ru_maxrss * 1024, os.waitstatus_to_exitcode(status), found


def measured(words, prefix):
    """The same, of how many lines begin with a prefix."""
    return followed(words, lambda lines: sum(line.startswith(prefix) for line in lines))


def ratio(seconds, before):
    """The time as a ratio of the row before, if there is one."""
    return f"{seconds / before:.1f}" if before else "-"
