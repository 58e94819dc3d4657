"""What `serve` has in the memory of a program that stays: the newest versions of its folder, which it follows.

A page comes from there where the program keeps the version, and from files otherwise; both are the same. Whenever the program is not as it
should be, it is ended, and another one begins with the folder's current version: files answer meanwhile.
"""

from __future__ import annotations

import os
import time
from collections.abc import Callable
from pathlib import Path
from threading import Event, Thread
from typing import TypeAlias

from ..finding import Failure, of_system
from ..program import Chosen
from .choosing import Choice
from .declared.said import is_taken
from .forms import Form
from .held import Held
from .keeping import Elsewhere, Keeping, KeptVersion
from .pages import Filling, Page
from .places import Unkept
from .reading import Tables, VersionKey, key_of
from .talk import Lost
from .versions import named, place

# After how many seconds it is looked for another version, and for how long no program is begun after one was lost: at first, and at most.
LOOK, FIRST, LONGEST = 0.05, 1.0, 60.0
# For how many seconds the end of a program is waited for that opens just then; it ends by itself.
GRACE = 5
# How many versions are kept where nothing is said, and how many may be.
USUAL, LEAST, MOST = 2, 2, 4
# A version by its number, and by what its folder is known.
Key: TypeAlias = tuple[int, VersionKey]


class Memory:
    """The versions that a program keeps of a folder, if one does. `tables` gives those of a version; `program` finds the program."""

    def __init__(self, folder: Path, tables: Callable[[Held], Tables], program: Callable[[], Chosen], count: int, tell: Callable[[str], None]) -> None:
        self.folder, self.tables, self.program, self.count, self.tell = folder, tables, program, count, tell
        self.kept: dict[Key, KeptVersion] = {}
        self.keeping: Keeping | None = None
        # How many pages came from here, and how many programs were begun.
        self.pages, self.begun = 0, 0
        # What no program takes, until when none is begun, and how long the next pause is.
        self.unfit: Key | None = None
        self.until, self.pause = 0.0, FIRST
        self.over, self.thread = Event(), Thread(target=self.run, name="memory", daemon=True)

    def start(self) -> None:
        """Begins to follow the folder."""
        self.thread.start()

    def close(self) -> None:
        """Ends the program, and follows the folder no longer."""
        self.over.set()
        if self.keeping:
            self.keeping.lose("the server ends")
        if self.thread.is_alive():
            self.thread.join(GRACE)

    # ---- pages

    def has(self, held: Held, choice: Choice) -> bool:
        """Whether rows as they stand are asked for, of a table that a program keeps."""
        kept = self.kept.get(key(held)) if choice.is_plain else None
        return kept is not None and kept.has(choice.table.name)

    def page(self, held: Held, choice: Choice, form: Form, limit: int) -> Page | None:
        """A page of rows as they stand, or None where it does not come from here."""
        kept = self.kept.get(key(held))
        if kept is None:
            return None
        filling = Filling(choice, form, limit)
        try:
            filling.take(kept.keeping.rows(kept, choice, limit))
        except Elsewhere:
            return None
        except Lost as lost:
            kept.keeping.lose(str(lost))
            return None
        self.pages += 1
        return filling.page(held.number)

    # ---- versions

    def run(self) -> None:
        """Follows the folder until the server ends."""
        while not self.over.wait(LOOK):
            self.look()
        self.drop()

    def look(self) -> None:
        """Looks once for another version, and whether the program is as it should be."""
        try:
            self.step()
        except Unkept as unkept:
            self.drop(f"{unkept}; the program begins anew")
        except Lost as lost:
            self.lost(str(lost))
        except (Failure, OSError):
            # The folder is being moved or is damaged: whoever reads is told what is wrong.
            pass
        except Exception as fault:
            self.lost(f"this is a fault of the tool itself ({fault!r})")

    def step(self) -> None:
        """Has the program keep the current version, where it does not yet."""
        if self.keeping and (self.keeping.lost or self.keeping.talk.has_ended):
            raise Lost(self.keeping.lost or "the program has ended")
        if current_key(self.folder) in (*self.kept, self.unfit, None) or time.monotonic() < self.until:
            return
        with Held(self.folder) as held:
            try:
                self.take(held)
            except Failure as failure:
                raise Lost(str(failure.lines[0])) from failure
            except OSError as error:
                raise Lost(of_system(error)) from error

    def take(self, held: Held) -> None:
        """Has the program take a version, or one begin with it."""
        if self.keeping is None:
            self.begin(held)
        elif key(held) not in self.kept:
            self.keeping.follow(self.tables(held))
            self.note(key(held), self.keeping)

    def begin(self, held: Held) -> None:
        """Begins a program with a version, which may be none that one takes."""
        try:
            if is_taken(self.folder):
                raise Unkept("a catalogue in SQL")
            program = self.program()
            keeping = Keeping(program.path, self.tables(held), self.count)
        except (Unkept, Failure) as unfit:
            self.unfit = key(held)
            why = unfit.lines[0] if isinstance(unfit, Failure) else unfit
            self.tell(f"version {held.number} is read from files: {why}")
            return
        self.begun += 1
        self.keeping = keeping
        self.note(key(held), keeping)
        self.tell(f"version {held.number} is in the memory of {program.told}, and so are those that follow")

    def note(self, found: Key, keeping: Keeping) -> None:
        """Notes that the newest version that the program keeps is this one; those that it keeps no longer are forgotten."""
        there = list(keeping.desks.values())
        self.kept = {each: kept for each, kept in self.kept.items() if kept in there} | {found: keeping.newest}
        self.unfit = None

    def lost(self, why: str) -> None:
        """Lets a program go that was lost, and none begin for a while, which is longer each time."""
        is_early = time.monotonic() < self.until + 2 * self.pause
        self.pause = min(2 * self.pause, LONGEST) if is_early else FIRST
        self.until = time.monotonic() + self.pause
        self.drop(f"{why}; another one begins in {self.pause:g} seconds")

    def drop(self, why: str = "") -> None:
        """Ends the program, if there is one."""
        self.kept = {}
        if self.keeping:
            self.keeping.end()
            self.keeping = None
        if why and not self.over.is_set():
            self.tell(f"what a program kept is read from files: {why}")


def current_key(folder: Path) -> Key | None:
    """By what the current version is known, or None without one."""
    number = named(folder)
    return None if number is None else (number, key_of(os.stat(place(folder, number))))


def key(held: Held) -> Key:
    """By what a version is known that is held."""
    return held.number, key_of(os.fstat(held.handle))
