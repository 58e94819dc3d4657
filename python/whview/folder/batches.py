"""Batches: puts that have a name, each of which is taken once. The note of one that waits is changes/NAME.batch, and goes with its changes:
to the folder of a night under way, to a version, or back. A version has the names of all batches that led to it, each with the sum of what its
note says of its files: so that it is known of what bytes a batch was when its version is there no more.
"""

from __future__ import annotations

import re
from hashlib import sha256
from pathlib import Path
from typing import NamedTuple

from .inputs import BATCH, Source, entries
from .versions import PART, VERSIONS, ending, newest, place, whole

ENDING, TAKEN, NAMES = ".batch", "batches", "batches.txt"
NAME = re.compile(r"[A-Za-z0-9_+=@:-][A-Za-z0-9_+=@:.-]{0,127}")


class Batch(NamedTuple):
    """Where a batch is that was put before, and the sum of its files, or an empty text where that is not known."""

    where: str
    sum: str


def waiting(folder: Path) -> list[Source]:
    """The notes that go with the changes that wait."""
    return [Source(path, f"changes/{path.name}") for path in entries(folder / "changes") if BATCH.fullmatch(path.name)]


def sum_of(lines: str) -> str:
    """The sum of the lines of a note that say what files there are."""
    return sha256(lines.encode()).hexdigest()


def noted_sum(note: Path) -> str:
    """The same of a note."""
    return sum_of(note.read_text().partition("\n")[2])


def names_in(version: Path) -> dict[str, str]:
    """The names of the batches that led to a version, with their sums; those of before there were such have none."""
    file = version / NAMES
    words = (line.partition(" ") for line in (file.read_text().splitlines() if file.is_file() else []))
    return {name: known for name, _, known in words}


def names_after(version: Path, part: Path) -> str:
    """The text that a version has of its batches, which come to those of the one before it."""
    taken = {path.name.removesuffix(ENDING): noted_sum(path) for path in entries(part / TAKEN)}
    return "".join(f"{name} {known}".rstrip() + "\n" for name, known in (names_in(version) | taken).items())


def found(folder: Path, name: str) -> Batch | None:
    """A batch by its name; None of one that nobody put. Who asks holds the gate, so that changes only go from a night to its version meanwhile,
    and are looked for in this order.
    """
    note = f"{name}{ENDING}"
    if (folder / "changes" / note).is_file():
        return Batch("waits for the next night", noted_sum(folder / "changes" / note))
    for part in ending(folder, PART):
        if (part / TAKEN / note).is_file():
            return Batch("is taken by the night that is under way, or was stopped", noted_sum(part / TAKEN / note))
    return found_in_versions(folder, name)


def found_in_versions(folder: Path, name: str) -> Batch | None:
    """The same of the version that counts and those that it was made from."""
    current = newest(folder)
    known = {} if current is None else names_in(place(folder, current))
    if current is None or name not in known:
        return None
    for number in (number for number in reversed(whole(folder)) if number <= current):
        note = place(folder, number) / TAKEN / f"{name}{ENDING}"
        if note.is_file():
            return Batch(f"is in {VERSIONS}/{number}", known[name] or noted_sum(note))
    return Batch("is in a version that is there no more", known[name])
