"""Records of changes that a night puts aside and goes on without: those that are wrong, and those of rows that leave and are not there.

The version keeps the file as it came in taken/, what is carried out of it in changes/, and what is put aside in quarantine/, with the
reasons; so all of it is decided by the rename that decides the night. Before `current` turns to it, what is put aside is laid into the
folder's own quarantine/, where it stays when the version goes.
"""

from __future__ import annotations

import os
from collections.abc import Iterable, Mapping, Sequence
from dataclasses import dataclass
from pathlib import Path
from typing import TYPE_CHECKING, NamedTuple

from ..disk import copy, is_same, remove, sync, write
from ..finding import MARK, Failure, Finding, Place
from ..status import NOT_WRITTEN
from .records import Changes, Reading, wanting
from .versions import place

if TYPE_CHECKING:
    from ..catalogue.from_toml import CatalogueView
    from ..catalogue.views import Row
    from .claim import Claim
    from .inputs import Source
    from .records import Records

QUARANTINE, REASONS = "quarantine", "reasons.txt"


class Parted(NamedTuple):
    """A file without what is left out of it, and what is left out, both with the header."""

    kept: bytes
    left: bytes


@dataclass(frozen=True, slots=True)
class Aside:
    """What is put aside of a file of changes: the file's path, and its name; what is carried out; the records with the header; and why."""

    path: Path
    told: str
    kept: bytes
    records: bytes
    reasons: list[Finding]


class Sifting(Reading):
    """Records of changes one by one, of which those that are wrong are left out, each with what is told of it; and so are those of rows
    that may not be carried out. What is wrong with more than a record is a finding.
    """

    def __init__(self, records: Records, without: Mapping[Row, str]) -> None:
        self.without = without
        # What is told of each record that is left out, by its line; the lines at which records begin; and of the one that is judged why
        # it is left out.
        self.wrong: dict[int, Finding] = {}
        self.begins: list[int] = []
        self.reason: list[Finding] | None = None
        super().__init__(records)

    def is_text(self) -> bool:
        """Bytes that are no UTF-8 are found in their records."""
        self.text = self.content.removeprefix(MARK).decode(errors="surrogateescape")
        return True

    def find(self, line: int, column: int, text: str) -> None:
        """Keeps what is found, of a record that is judged as the reason to leave it out."""
        if self.reason is None:
            super().find(line, column, text)
        else:
            self.reason.append(Finding(Place(self.file, line, column), text))

    def take(self, record: Sequence[str], kinds: Sequence[str], counted: bool, line: int) -> None:
        """Adds a record, or keeps why it is left out."""
        self.begins.append(line)
        reason: list[Finding] = []
        self.reason = reason
        number = next((number for number, cell in enumerate(record) if not is_utf_8(cell)), None)
        if number is not None:
            self.find(*self.place_of(line, number), "this is not UTF-8")
        else:
            super().take(record, kinds, counted, line)
        if reason:
            self.wrong[line] = reason[0]
        self.reason = None

    def add(self, row: Row, count: int, line: int) -> None:
        """Adds a row, unless it may not be carried out."""
        if row in self.without:
            self.find(line, 1, self.without[row])
        else:
            super().add(row, count, line)

    def parted(self) -> Parted:
        """The file in two."""
        starts = [self.starts()[line - 1] for line in self.begins]
        kept: list[str] = []
        left: list[str] = []
        for line, start, end in zip(self.begins, starts, [*starts[1:], len(self.text)]):
            (left if line in self.wrong else kept).append(ended(self.text[start:end]))
        return Parted(self.file_of(self.text[: starts[0]], kept), self.file_of(self.text[: starts[0]], left))

    def file_of(self, head: str, records: Iterable[str]) -> bytes:
        """A file of these records behind what stands above them, with the mark that the whole one has."""
        mark = MARK if self.content.startswith(MARK) else b""
        return mark + "".join([head, *records]).encode(errors="surrogateescape")


def is_utf_8(cell: str) -> bool:
    try:
        return cell.isascii() or cell.encode() is not None
    except UnicodeEncodeError:
        return False


def ended(record: str) -> str:
    """A record with a line's end, which the last one of a file may lack."""
    return record if record.endswith(("\n", "\r")) else f"{record}\n"


def sifted(sources: Sequence[Source], view: CatalogueView, data: Records | None) -> tuple[Changes, list[Aside]]:
    """The changes of a view without what is put aside, and that. Where a file is wrong as a whole, nothing is put aside of it."""
    changes = Changes(sources, view)
    found = sift(changes, {}) if changes.findings else {}
    without = wanting(data, changes) if data and not data.findings and not changes.findings else {}
    if without:
        found = sift(changes, without)
    return changes, [aside_of(source, records, found[source.told]) for source, records in zip(sources, changes.files) if source.told in found]


def sift(changes: Changes, without: Mapping[Row, str]) -> dict[str, Sifting]:
    """Leaves out of changes what is wrong in them and these rows. Answers what was read of each file that has any."""
    found: dict[str, Sifting] = {}
    for records in changes.files:
        reading = Sifting(records, without)
        if reading.wrong and not reading.findings:
            found[records.file] = reading
    for records in changes.files:
        if records.file in found:
            records.become(found[records.file])
    changes.renew()
    return found


def aside_of(source: Source, records: Records, reading: Sifting) -> Aside:
    """What is put aside of a file that was read."""
    return Aside(source.path, source.told, records.content, reading.parted().left, list(reading.wrong.values()))


# ---- what is kept of it


def write_asides(part: Path, claim: Claim, asides: Sequence[Aside]) -> None:
    """Has the version that is being made carry out what is kept, and keep what is put aside."""
    if not asides:
        return
    os.makedirs(part / QUARANTINE)
    for aside in asides:
        claim.replace(aside.path, aside.kept)
        write(part / QUARANTINE / aside.path.name, [aside.records])
    reasons = "".join(f"{reason}\n" for aside in asides for reason in aside.reasons)
    write(part / QUARANTINE / REASONS, [reasons.encode(errors="backslashreplace")])


def judge_home(folder: Path) -> None:
    """Refuses a night that could not lay anything aside, before anything is moved."""
    home = folder / QUARANTINE
    if os.path.lexists(home) and not (home.is_dir() and os.access(home, os.W_OK | os.X_OK)):
        raise Failure(NOT_WRITTEN, f"{home} is no folder that this user can write, and takes what is put aside; nothing is moved")


def is_laid(made: Path, there: Path) -> bool:
    """Whether a folder has the same files."""
    return there.is_dir() and all(is_same(there / file.name, file) for file in made.iterdir())


def lay(folder: Path, number: int) -> None:
    """Lays what a version put aside into the folder's own quarantine/, whole, by a rename; where it lies there already, nothing is done."""
    made, home = place(folder, number) / QUARANTINE, folder / QUARANTINE
    if not made.is_dir():
        return
    os.makedirs(home, exist_ok=True)
    names = (f"{number}{f'.{again}' if again else ''}" for again in range(len(os.listdir(home)) + 1))
    free = next(home / name for name in names if is_laid(made, home / name) or not os.path.lexists(home / name))
    if free.is_dir():
        return
    part = home / f".{number}.part"
    remove(part)
    os.makedirs(part)
    for file in sorted(made.iterdir()):
        copy(file, part / file.name)
        sync(part / file.name)
    sync(part)
    os.rename(part, free)
    sync(home)
    sync(folder)
