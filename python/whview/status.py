"""The statuses of the commands: those of the program, and two of the tool's own. What the words of a command name and is not there, a
folder, a file, a version, a view or a column, is a fault of these words, as one of their form is; what a folder holds is a fault of it.
"""

from enum import IntEnum


class Status(IntEnum):
    """How a command ends. Somebody else is at work in the folder: `AT_WORK`; the program gave no answer that is one of its own: `NO_ANSWER`."""

    DONE = 0
    REFUSED = 1
    BAD_WORDS = 2
    BAD_INPUT = 3
    SPENT = 4
    NOT_WRITTEN = 5
    AT_WORK = 6
    NO_ANSWER = 70


DONE, REFUSED, BAD_WORDS, BAD_INPUT = Status.DONE, Status.REFUSED, Status.BAD_WORDS, Status.BAD_INPUT
SPENT, NOT_WRITTEN, AT_WORK, NO_ANSWER = Status.SPENT, Status.NOT_WRITTEN, Status.AT_WORK, Status.NO_ANSWER
# What a command that a signal ends has, with the signal's number added.
SIGNALLED = 128
