"""A process that searches tables for `serve`: it reads jobs from standard input, and writes pages to standard output, until it is left."""

import os
import resource
import signal
import sys
from pathlib import Path
from typing import BinaryIO, TypeAlias

from ..finding import Failure
from .blocks import Damaged
from .choosing import choice_of
from .jobs import Job, Told
from .pages import Unfit, page_of
from .reading import Tables, VersionKey, key_of, version_tables
from .versions import place

# How much memory it may take, by how much it steps back behind those who read pages, and of how many versions it keeps what it knows.
MEMORY, BEHIND, KEPT = 2**30, 2, 4


# What is known of the tables of some versions, by their numbers and by what their folders are known.
Kept: TypeAlias = dict[tuple[int, VersionKey], Tables]


def tables_of(kept: Kept, folder: Path, number: int, key: VersionKey) -> Tables:
    """The tables of the version that the server holds."""
    found = key_of(os.stat(place(folder, number)))
    if found != key:
        raise Unfit(f"version {number} is another one than it was")
    if (number, found) not in kept:
        while len(kept) >= KEPT:
            kept.pop(next(iter(kept)))
        kept[number, found] = version_tables(folder, number)
    return kept[number, found]


def found(job: Job, kept: Kept) -> tuple[Told, bytes]:
    """What is told of the page of a job, and its body."""
    table = tables_of(kept, Path(job.folder), job.version, job.key).table(job.view)
    choice = choice_of(table, job.where, job.order, job.columns, job.after)
    page = page_of(choice, job.form, job.limit, job.version, job.seconds)
    mark = table.place_before(page.following) if page.following is not None else None
    return Told(page.following, mark), page.body


def answer(job: Job, kept: Kept) -> tuple[Told, bytes]:
    """The same, or why there is none."""
    try:
        return found(job, kept)
    except Damaged as damaged:
        return Told(damaged=str(damaged.lines[0])), b""
    except (Unfit, Failure) as unfit:
        return Told(unfit=str(unfit.args[-1])), b""
    except MemoryError:
        kept.clear()
        return Told(unfit="this search takes more memory than one may; ask for fewer rows"), b""


def write(output: BinaryIO, told: Told, body: bytes) -> None:
    """Writes an answer: the length of what is told, that of the body, and both."""
    head = told.written()
    output.write(b"%16d%16d" % (len(head), len(body)) + head + body)
    output.flush()


def main() -> None:
    """Answers jobs until there are no more."""
    signal.signal(signal.SIGINT, signal.SIG_DFL)
    signal.signal(signal.SIGPIPE, signal.SIG_DFL)
    os.nice(BEHIND)
    resource.setrlimit(resource.RLIMIT_AS, (MEMORY, MEMORY))
    kept: Kept = {}
    for line in sys.stdin.buffer:
        write(sys.stdout.buffer, *answer(Job.read(line), kept))
