"""Has the kernel refuse some system calls of a program that a test starts, by a filter of seccomp for x86-64."""
import ctypes
import errno
import struct

FSYNC, FDATASYNC = 74, 75
# prctl(2): no new privileges, and a filter.
NO_NEW_PRIVILEGES, SET_SECCOMP, FILTER = 38, 22, 2
# The steps of a filter: load the number of the call, go on elsewhere if it is a certain one, answer.
LOAD, IF_EQUAL, ANSWER = 0x20, 0x15, 0x06
ALLOW, FAIL = 0x7FFF0000, 0x00050000


class Filter(ctypes.Structure):
    """The kernel's `sock_fprog`."""

    _fields_ = [("count", ctypes.c_ushort), ("steps", ctypes.c_char_p)]


def failing(*calls):
    """What a child does before it becomes the program, so that each of these calls fails with EIO and does nothing."""
    found = [(IF_EQUAL, len(calls) - at, 0, call) for at, call in enumerate(calls)]
    steps = [(LOAD, 0, 0, 0), *found, (ANSWER, 0, 0, ALLOW), (ANSWER, 0, 0, FAIL | errno.EIO)]
    given = Filter(len(steps), b"".join(struct.pack("=HBBI", *it) for it in steps))
    libc = ctypes.CDLL(None, use_errno=True)

    def refuse():
        if libc.prctl(NO_NEW_PRIVILEGES, 1, 0, 0, 0) or libc.prctl(SET_SECCOMP, FILTER, ctypes.byref(given), 0, 0):
            raise OSError(ctypes.get_errno(), "no filter of system calls can be set")
    return refuse
