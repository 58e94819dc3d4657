"""The files that a process is given: standard input, output and error, also where they were closed or cannot be written."""

import os
import sys
from collections.abc import Iterable
from io import TextIOWrapper
from typing import TextIO


def opened() -> None:
    """Has all three be there. Of what was closed nothing can be read, and what is printed on it is refused as on a full disk. A name of
    a file that is no text is printed as it is, and what an output has no letters for in numbers.
    """
    for number, (name, mode) in enumerate((("stdin", "r"), ("stdout", "w"), ("stderr", "w"))):
        try:
            os.fstat(number)
        except OSError:
            os.open(os.devnull, os.O_RDONLY)
        if getattr(sys, name) is None:
            setattr(sys, name, open(number, mode, closefd=False))
    if isinstance(sys.stdout, TextIOWrapper):
        sys.stdout.reconfigure(errors="surrogateescape" if sys.stdout.encoding == "utf-8" else "backslashreplace")


def say(lines: Iterable[object]) -> None:
    """Prints what was done. Where that cannot be printed it is done all the same, which the status tells."""
    try:
        for line in lines:
            print(line)
        sys.stdout.flush()
    except OSError:
        drop(sys.stdout)


def drop(stream: TextIO) -> None:
    """Has what a stream still holds, and could not write, be no further trouble as the process ends."""
    os.dup2(os.open(os.devnull, os.O_WRONLY), stream.fileno())
