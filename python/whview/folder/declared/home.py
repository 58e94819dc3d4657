"""Where a folder with a catalogue in SQL has what, and what its catalogue was taken apart into."""

from __future__ import annotations

import fcntl
import os
from collections.abc import Iterator
from contextlib import contextmanager
from dataclasses import dataclass
from pathlib import Path

from ...finding import Failure
from ...status import BAD_INPUT
from .said import CATALOGUE

SQL, KEPT, CLAIMED = "catalogue.sql", "kept", ".taken"


@dataclass(frozen=True, slots=True)
class Home:
    """A folder whose catalogue is SQL, and the inner one that keeps what its views need."""

    folder: Path

    @property
    def text(self) -> Path:
        """The catalogue."""
        return self.folder / SQL

    @property
    def inner(self) -> Path:
        """The inner folder."""
        return self.folder / KEPT

    @property
    def changes(self) -> Path:
        """Where somebody puts changes by hand."""
        return self.folder / "changes"

    @property
    def claimed(self) -> Path:
        """Where changes lie that are being taken."""
        return self.changes / CLAIMED

    @contextmanager
    def alone(self) -> Iterator[None]:
        """Has nobody else turn files in meanwhile: whoever does is waited for."""
        handle = os.open(self.folder, os.O_RDONLY | os.O_DIRECTORY)
        try:
            fcntl.flock(handle, fcntl.LOCK_EX)
            yield
        finally:
            os.close(handle)


def home_of(folder: Path) -> Home | None:
    """A folder's home, if its catalogue is SQL."""
    if not (folder / SQL).is_file():
        return None
    if (folder / CATALOGUE).exists():
        raise Failure(BAD_INPUT, f"{folder} has a {SQL} and a {CATALOGUE}: keep one of them")
    return Home(folder)
