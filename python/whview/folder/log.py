"""`log`: the versions of a folder, the newest first: when each was made, from which one, how, which rows changed, with what work, and by
whom, as its manifest says. Of a version of before there were manifests only its time is known.
"""

from __future__ import annotations

import json
import os
import time
from collections.abc import Iterable, Mapping
from dataclasses import asdict, dataclass, field
from pathlib import Path
from typing import TYPE_CHECKING

from ..finding import Failure
from ..status import BAD_WORDS, DONE, Status
from .identity import identity_of
from .manifest import found_manifest
from .versions import named, place, whole

if TYPE_CHECKING:
    from .command import Words

FORMATS = ("text", "json")
COLUMNS = ("version", "time", "kind", "parent", "work", "who", "changes")


@dataclass(frozen=True, slots=True)
class Entry:
    """What is told of a version. Of one of before there were manifests only its time is known; of a rollback `of` is the version whose files it
    has.
    """

    version: int
    current: bool
    time: str
    kind: str = "before manifests"
    parent: int | None = None
    work: int | None = None
    changes: Mapping[str, int] = field(default_factory=dict)
    user: str = ""
    host: str = ""
    of: int | None = None

    def as_json(self) -> dict[str, object]:
        """It as a JSON object, which has `of` of a rollback alone."""
        return {name: value for name, value in asdict(self).items() if name != "of" or value is not None}

    def cells(self) -> list[str]:
        """It as text."""
        kind = self.kind if self.of is None else f"{self.kind} to {self.of}"
        changes = ", ".join(f"{name} {count}" for name, count in self.changes.items()) or "-"
        who = f"{self.user}@{self.host}" if self.user else "-"
        numbers = ["-" if number is None else str(number) for number in (self.parent, self.work)]
        return [f"{self.version}{' *' * self.current}", self.time, kind, *numbers, who, changes]


def entry_of(folder: Path, number: int, current: int | None) -> Entry | None:
    """What is told of a version, or None where it was removed meanwhile."""
    version, is_current = place(folder, number), number == current
    found = found_manifest(version)
    if found is None:
        return Entry(number, is_current, time_of(version)) if os.path.lexists(version) else None
    how = found.time, found.kind, found.parent, found.work, found.changes
    return Entry(number, is_current, *how, found.user, found.host, found.of)


def time_of(version: Path) -> str:
    """When a version was made that has no manifest."""
    report = version / "report.txt"
    return time.strftime("%Y-%m-%dT%H:%M:%SZ", time.gmtime((report if report.is_file() else version).stat().st_mtime))


def text_of(entries: Iterable[Entry]) -> str:
    """A line for each, in columns."""
    rows = [list(COLUMNS), *(entry.cells() for entry in entries)]
    widths = [max(map(len, column)) for column in zip(*rows)]
    return "".join("  ".join(cell.ljust(width) for cell, width in zip(row, widths)).rstrip() + "\n" for row in rows)


def run(words: Words) -> Status:
    kind = words.option("--format", "text")
    if kind not in FORMATS:
        raise Failure(BAD_WORDS, f"--format is {' or '.join(FORMATS)}, and not {kind!r}")
    current, numbers = named(words.folder), whole(words.folder, identity_of(words.folder))
    entries = list(filter(None, (entry_of(words.folder, number, current) for number in reversed(numbers))))
    if kind == "json":
        print(json.dumps([entry.as_json() for entry in entries], indent=1))
    elif not entries:
        raise Failure(BAD_WORDS, f"{words.folder} has no version yet")
    else:
        print(text_of(entries), end="")
        print("* the current version")
    return DONE
