"""Replaces the journal of this folder by a shorter one with the same limits: `auc compact`.

The program's form `compact` writes the bytes of such a journal to its standard output. They take the journal's place in this order:

1. The journal is locked by the lock that the program takes, up to the end of all.
2. The program reads a copy, in a folder of its own beside the journal, and its output is a file there. The file gets the journal's
   owner, group and mode, and is locked and synced.
3. The file is renamed over the journal, and the folder is synced.
4. The header of the old file, whose name is gone, is written over.

So a crash leaves the old journal or the new one whole: the old one stays as it is until the name of the new one is on the disk.
Step 4 is for a process that opened the old file before step 3 and gets its lock afterwards. What it reserved there would be lost
with the file, and its numbers would come again. It finds that the file is no journal and ends with status 7. The old file is never
cut: one without a byte would be taken for the journal of a new centre.

If this process alone were killed between steps 3 and 4, such a process would go on. So a second process does both steps, and this
one does them after it. What is done already is done no second time, and the lock lasts as long as one of the two lives.
"""
import contextlib
import errno
import fcntl
import os
import shutil
import stat
import sys

from . import running
from .explain import Call, explain, fault_of, journal, refuse_no_file
from .places import JOURNAL, Stopped, put, say, tell

# The folder for the copy and the new file. One that is left there is that of a call that was killed.
ROOM, NEW = ".auc-compact", "new"
SPOILT = b"AUC-SQN-REPLACED"
FAILED, CHUNK = 6, 1048576


def is_at(file, path):
    """Whether an open file is the one at this path."""
    with contextlib.suppress(FileNotFoundError):
        return os.path.samestat(os.fstat(file.fileno()), os.lstat(path))
    return False


@contextlib.contextmanager
def locked(path):
    """The journal, opened and locked as the program does it."""
    with open(path, "r+b", buffering=0) as file:
        refuse_no_file(file)
        fcntl.flock(file, fcntl.LOCK_EX | fcntl.LOCK_NB)
        if not is_at(file, path):
            # Another call replaced it after it was opened here.
            raise BlockingIOError
        yield file


def refuse_no_folder(room):
    """Refuses what stands at the place of the room and isn't the folder of an earlier call."""
    with contextlib.suppress(FileNotFoundError):
        if not stat.S_ISDIR(os.lstat(room).st_mode):
            raise NotADirectoryError(errno.ENOTDIR, "it is no folder", room)


def remove(room):
    with contextlib.suppress(FileNotFoundError):
        shutil.rmtree(room)


@contextlib.contextmanager
def room_beside(path):
    """A folder of its own beside the journal, until the end of the block."""
    room = path.with_name(ROOM)
    refuse_no_folder(room)
    remove(room)
    room.mkdir(mode=0o700)
    try:
        yield room
    finally:
        remove(room)


def sync_folder(folder):
    held = os.open(folder, os.O_RDONLY | os.O_DIRECTORY)
    try:
        os.fsync(held)
    finally:
        os.close(held)


def written(program, old, room, new):
    """Has the program write the new journal: its exit status."""
    with open(room / JOURNAL, "wb") as copy:
        shutil.copyfileobj(old, copy, CHUNK)
    return running.run(program, ["compact"], cwd=room, stdout=new)


def make_durable(new, old):
    """Gives the new file what the old one has, and syncs it. It is locked, so that nobody begins with it before all is done."""
    was = os.fstat(old.fileno())
    os.fchown(new.fileno(), was.st_uid, was.st_gid)
    os.fchmod(new.fileno(), stat.S_IMODE(was.st_mode))
    fcntl.flock(new, fcntl.LOCK_EX | fcntl.LOCK_NB)
    os.fsync(new.fileno())


def replace(old, room, path):
    """Steps 3 and 4, or what is left of them."""
    if is_at(old, path):
        os.replace(room / NEW, path)
    sync_folder(path.parent)
    os.pwrite(old.fileno(), SPOILT, 0)
    os.fsync(old.fileno())


def replace_by_two(old, room, path):
    """The same by a second process, which a signal to this one's group doesn't reach, and then by this one."""
    second = os.fork()
    if second == 0:
        try:
            os.setsid()
            replace(old, room, path)
        finally:
            os._exit(0)
    os.waitpid(second, 0)
    replace(old, room, path)


def replaced(program, path):
    """Replaces the journal at this path if the new one is shorter: the program's exit status, and what is told if that is 0."""
    with locked(path) as old, room_beside(path) as room, open(room / NEW, "xb") as new:
        status = written(program, old, room, new)
        before, after = (os.fstat(it.fileno()).st_size for it in (old, new))
        if status != 0:
            return status, None
        if after >= before:
            return 0, f"{JOURNAL}: {before} bytes, and a new one would have {after}: it stays\n"
        make_durable(new, old)
        replace_by_two(old, room, path)
        return 0, f"{JOURNAL}: {before} bytes before, {after} after\n"


def compact(program):
    """Compacts the journal of this folder, which has one: the exit status."""
    path = journal()
    try:
        status, told = replaced(program, path) if sys.stdout else (running.WRITE_FAULT, None)
    except OSError as error:
        tell(f"{error.filename or path}: {fault_of(error)} (status {FAILED})")
        return FAILED
    explain(Call(program, ["compact"], ["compact"]), status)
    if status == 0:
        try:
            put(told.encode())
        except Stopped as why:
            say(why)
            return running.WRITE_FAULT
    return status
