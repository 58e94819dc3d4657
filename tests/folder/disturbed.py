"""Commands that are killed, held up, or find a full disk, before one of the calls by which they change files."""


import errno
import os
import signal
import sys
from contextlib import contextmanager
from types import SimpleNamespace

from .shop import carried_out

CHANGING = {"os.rename", "os.link", "os.symlink", "os.remove", "os.mkdir", "os.rmdir", "os.chmod", "os.utime", "fcntl.flock"}
WRITES = os.O_WRONLY | os.O_RDWR | os.O_CREAT
FAULT, UNDISTURBED = 99, 98


def changes_files(event, args):
    """Whether a call changes files, or holds some."""
    return event in CHANGING or (event == "open" and isinstance(args[2], int) and args[2] & WRITES and "/dev/" not in str(args[0]))


def disturb(number, what):
    """Has a signal come, or an error of the system, before the call of this number. Answers how many calls are left until then."""
    left = [number]

    def hook(event, args):
        if changes_files(event, args):
            left[0] -= 1
            if left[0] == 0 and isinstance(what, OSError):
                raise what
            if left[0] == 0:
                os.kill(os.getpid(), what)

    sys.addaudithook(hook)
    return left


def begun(words, number, what):
    """A process that carries a command out, to which a signal comes before a call."""
    pid = os.fork()
    if pid:
        return pid
    try:
        left = disturb(number, what)
        status = carried_out(words)[0]
        os._exit(UNDISTURBED if left[0] > 0 else status)
    finally:
        os._exit(FAULT)


def killed(words, number):
    """Whether a command was killed before its call of this number; it has that many no more where it was not."""
    status = os.waitstatus_to_exitcode(os.waitpid(begun(words, number, signal.SIGKILL), 0)[1])
    if status not in (UNDISTURBED, -signal.SIGKILL):
        raise AssertionError(f"the command ends with {status}")
    return status != UNDISTURBED


def hindered(words, number):
    """The status of a command whose call of this number finds no room, or None where it has fewer calls."""
    full = OSError(errno.ENOSPC, os.strerror(errno.ENOSPC))
    status = os.waitstatus_to_exitcode(os.waitpid(begun(words, number, full), 0)[1])
    return None if status == UNDISTURBED else status


@contextmanager
def held_up(words, number):
    """A command that stands before its call of this number, or None where it has ended before; then it goes on to its end."""
    pid = begun(words, number, signal.SIGSTOP)
    _, status = os.waitpid(pid, os.WUNTRACED)
    stands = os.WIFSTOPPED(status)
    found = SimpleNamespace(stands=stands, status=None)
    try:
        yield found
    finally:
        if stands:
            os.kill(pid, signal.SIGCONT)
            _, status = os.waitpid(pid, 0)
        found.status = os.waitstatus_to_exitcode(status)
        found.status = 0 if found.status == UNDISTURBED else found.status
