"""A program that keeps the newest versions of a folder's tables, and pages of them from its memory.

It is `whview live`, opened with the tables of one version, each row behind its place. A later version is a night of what differs between the
files of both, and at a desk of its own a session stays that reads it: any number of readers ask for pages behind the row that they name.
"""

from __future__ import annotations

import csv
import re
import time
from collections.abc import Iterator, Mapping
from itertools import chain
from pathlib import Path
from threading import Lock
from typing import BinaryIO

from ..catalogue.views import Kind
from ..finding import Failure
from ..program import temporary
from .choosing import Choice
from .places import MOST_TABLES, Change, KeptTable, Places, Unkept, can_be_kept, catalogue_of, data_of, night_of
from .reading import Numbered, Table, Tables, value_of
from .talk import Lost, Talk

# For how many seconds an opening, a night and a page are waited for, and those who ask before one.
OPENING, NIGHT, PATIENCE, WAIT = 600, 120, 2, 0.05
# How many rows are asked for at a time; the program gives one more.
CHUNK = 255
# Of a table up to so many rows may change in a night that is given to the program, or up to this part of all, and never more than so many: to
# find more of them takes longer than to load the table.
FEW, PART, MANY = 1000, 4, 10_000
STEPS = re.compile(rb"begun\n(?:(?:job [0-9]+|done|paged [0-9]+)\n)*ready\n")
SESSION = re.compile(rb"session ([0-9]+)\n")


class Elsewhere(Exception):
    """A page does not come from memory: the program is at work, or no longer keeps the version."""


class KeptVersion:
    """A version that a program keeps: the desk whose session reads it, and by the names of its views the names of their tables there, and the
    places of their rows.
    """

    def __init__(self, keeping: Keeping, desk: int, tables: Mapping[str, KeptTable]) -> None:
        self.keeping, self.desk = keeping, desk
        self.places: dict[str, tuple[str, Places]] = {view: (table.name, table.places) for view, table in tables.items()}

    def has(self, view: str) -> bool:
        """Whether the program keeps the rows of a view."""
        return view in self.places


def kept_tables(tables: Tables) -> dict[str, KeptTable]:
    """The tables that a program may keep, by their views. Of a damaged one whoever reads it is told."""
    found: dict[str, KeptTable] = {}
    for view in list(tables.paths)[:MOST_TABLES]:
        try:
            table = tables.table(view)
            if can_be_kept(table.columns):
                found[view] = KeptTable(f"t{len(found)}", table, Places(0))
        except Failure:
            continue
    return found


def later_tables(tables: Mapping[str, KeptTable], found: Mapping[str, KeptTable]) -> dict[str, KeptTable]:
    """The tables of a newer version that a program has as well, by the names that they have there."""
    for view, table in tables.items():
        if view not in found or found[view].columns != table.columns:
            raise Unkept(f"another table {view}")
        found[view].name = table.name
    return {view: found[view] for view in tables}


def put_opening(tables: Mapping[str, KeptTable]) -> tuple[BinaryIO, dict[str, KeptTable]]:
    """A file with the bundle of these tables, and those that are in it: one whose records are no lines is left out."""
    file, put = temporary(), {}
    for view, table in tables.items():
        start = file.tell()
        try:
            file.writelines(data_of(table))
            put[view] = table
        except Unkept:
            file.seek(start)
            file.truncate()
    if not put:
        raise Unkept("no table whose records are lines")
    file.write(catalogue_of(put.values()))
    file.flush()
    return file, put


def records_of(answer: bytes) -> list[list[str]]:
    """The records of a page, behind its header and before its last line."""
    texts = map(bytes.decode, answer.split(b"\n")[1:-2])
    return list(csv.reader(texts, strict=True)) if b'"' in answer else [text.split(",") for text in texts]


class Keeping:
    """A running program, the tables that it has, and the versions that it keeps of them, the newest last."""

    def __init__(self, program: Path, tables: Tables, count: int) -> None:
        self.lock, self.count, self.lost = Lock(), count, ""
        # Until when pages wait for a night that is under way, or None without one.
        self.due: float | None = None
        self.desks: dict[int, KeptVersion] = {}
        opening, self.tables = put_opening(kept_tables(tables))
        numbers = [word for name in ("--desks", "--versions") for word in (name, str(count))]
        with opening:
            self.talk = Talk(program, opening, [*numbers, "--most", str(max(opening.tell(), 1))])
            try:
                self.open()
            except BaseException:
                self.end()
                raise

    def open(self) -> None:
        """Opens the session of the first version, and tries what later is asked."""
        answer = self.talk.ask(b"open 0\n", OPENING)
        found = SESSION.fullmatch(answer)
        if not found:
            raise Unkept(f"the program does not take these tables: {answer.decode(errors='replace').strip()}")
        if self.talk.ask(b"tables\n", OPENING) == b"unknown\n":
            raise Unkept("this program knows no pages behind a row that is named")
        self.number = int(found[1])
        self.desks[0] = KeptVersion(self, 0, self.tables)
        self.judge()

    @property
    def newest(self) -> KeptVersion:
        """The newest version that it keeps."""
        return self.desks[self.number % self.count]

    def judge(self) -> None:
        """Asks how many rows there are, and compares that."""
        rows = "".join(f"{table.name},{table.places.total}\n" for table in self.tables.values())
        if not self.talk.ask(b"tables\n", OPENING).startswith(f"view,rows\n{rows}versions ".encode()):
            raise Lost("the program has other tables than it was given")

    # ---- nights

    def follow(self, tables: Tables) -> None:
        """Gives the program what differs between the newest version that it keeps and one that is newer."""
        coming = later_tables(self.tables, kept_tables(tables))
        changes = [each for view, table in self.tables.items() if (each := changed(table, coming[view]))]
        self.tables = coming
        if changes:
            self.carry(night_of(changes))

    def carry(self, night: bytes) -> None:
        """Has the program carry a night out, and opens a session of its version at the desk of the oldest one."""
        self.due = time.monotonic() + WAIT
        try:
            with self.lock:
                self.expect(self.talk.ask(night, NIGHT), STEPS)
                self.number += 1
                self.expect(self.talk.ask(b"commit\n", NIGHT), re.compile(b"version %d\n" % self.number))
                self.turn(self.number % self.count)
        finally:
            self.due = None

    def turn(self, desk: int) -> None:
        """Has a desk read the newest version."""
        if self.desks.pop(desk, None):
            self.expect(self.talk.ask(b"close %d\n" % desk, NIGHT), re.compile(b"closed\n"))
        self.expect(self.talk.ask(b"open %d\n" % desk, NIGHT), re.compile(b"session %d\n" % self.number))
        self.judge()
        self.desks[desk] = KeptVersion(self, desk, self.tables)

    def expect(self, answer: bytes, wanted: re.Pattern[bytes]) -> None:
        """Has an answer be of this form."""
        if not wanted.fullmatch(answer):
            raise Lost(f"the program answers {answer[-80:].decode(errors='replace').strip()!r}")

    # ---- pages

    def rows(self, kept: KeptVersion, choice: Choice, limit: int) -> Iterator[Numbered]:
        """So many rows of a choice that is plain, from the program's memory. Behind them stands one more where there is one, of which nothing
        is told.
        """
        _, places = kept.places[choice.table.name]
        last = min(choice.after + limit, places.count)
        pieces = ((first, min(CHUNK, last - first)) for first in range(choice.after, last, CHUNK))
        found = chain.from_iterable(self.piece(kept, choice.table, *piece) for piece in pieces)
        return chain(found, [(last + 1, (1, ()))] if last < places.count else [])

    def piece(self, kept: KeptVersion, table: Table, first: int, count: int) -> list[Numbered]:
        """So many rows behind the first ones."""
        name, places = kept.places[table.name]
        before = places.of(first)
        cells = "".join(",0" if kind == Kind.INT else "," for kind in table.columns.kinds)
        answer = self.asked(kept, f"page {kept.desk} {name} {count + 1} after {before}{cells}\n".encode())
        try:
            records = [(int(times), int(place), cells) for times, place, *cells in records_of(answer)]
        except (ValueError, csv.Error):
            raise Lost("the program gives a page that is none") from None
        start = 1 if records and records[0][1] == before else 0
        found = records[start : start + count]
        if [place for _, place, _ in found] != places.behind(first, count):
            raise Lost("the program gives other rows than were asked for")
        kinds = table.columns.kinds
        return [(number, (times, tuple(map(value_of, cells, kinds)))) for number, (times, _, cells) in enumerate(found, first + 1)]

    def asked(self, kept: KeptVersion, command: bytes) -> bytes:
        """The program's page, if nobody else takes it for long, and it keeps the version yet."""
        due = self.due
        if not self.lock.acquire(timeout=WAIT if due is None else max(due - time.monotonic(), 0)):
            raise Elsewhere
        try:
            if self.desks.get(kept.desk) is not kept:
                raise Elsewhere
            answer = self.talk.ask(command, PATIENCE)
        finally:
            self.lock.release()
        if answer == b"memory\n":
            raise Elsewhere
        return answer

    # ---- the end

    def lose(self, why: str) -> None:
        """Asks nothing more of the program, of which something is not as it should be."""
        self.lost = self.lost or why
        self.desks = {}
        self.talk.process.kill()

    def end(self) -> None:
        """Ends the program."""
        self.lose("it was ended")
        with self.lock:
            self.talk.end()
        for table in self.tables.values():
            table.close()


def changed(table: KeptTable, other: KeptTable) -> tuple[KeptTable, Change] | None:
    """How a table becomes the one of a newer version, whose places are known then; None where nothing changes."""
    if table.is_same(other):
        other.places = table.places
        return None
    change = table.change_to(other, max(FEW, min(table.places.count // PART, MANY)))
    other.places = change.places
    return (other, change) if change.rows else None
