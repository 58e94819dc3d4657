"""The gate of changes/: one at a time brings changes in, takes them or gives them back. Each does that in a moment, so others wait for it."""

from __future__ import annotations

import fcntl
import os
import time
from pathlib import Path

from ..finding import Failure
from ..status import AT_WORK
from .lock import taken

CHANGES = "changes"
# For how many seconds the gate is waited for, and how long at a time.
PATIENCE, PAUSE = 30, 0.01


class Gate:
    """Holds the lock of a folder's changes/, which is made where there is none. The system frees it when the process ends."""

    handle: int

    def __init__(self, folder: Path) -> None:
        self.path = folder / CHANGES

    def __enter__(self) -> Gate:
        due = time.monotonic() + PATIENCE
        while not self.is_taken():
            if time.monotonic() > due:
                raise Failure(AT_WORK, f"somebody holds the lock of {self.path} for long; try again when it is free")
            time.sleep(PAUSE)
        return self

    def is_taken(self) -> bool:
        """Whether the lock could be taken of the folder that others find."""
        os.makedirs(self.path, exist_ok=True)
        self.handle = os.open(self.path, os.O_RDONLY | os.O_DIRECTORY)
        if taken(self.handle, fcntl.LOCK_EX) and self.is_there():
            return True
        os.close(self.handle)
        return False

    def is_there(self) -> bool:
        """Whether the folder that is locked is the one that others find."""
        try:
            return os.path.samestat(os.stat(self.path), os.fstat(self.handle))
        except FileNotFoundError:
            return False

    def __exit__(self, *_: object) -> None:
        os.close(self.handle)
