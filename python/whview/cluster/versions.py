"""Versions and attempts, each a view of literals whose name can be had once: its creation is what commits.

A version's row has its number, the number of its night, how it came about, its slots and of each view how many rows it has, and a
lineage: a mark of its own, and those of the versions before it. So a version that a sleeping client makes again after it was swept is
known for what it is: no later one has its mark.
"""

from __future__ import annotations

import os
import re
import secrets
import socket
from collections.abc import Iterable, Sequence
from contextlib import suppress
from enum import StrEnum
from typing import TYPE_CHECKING, Any, NamedTuple

from ..finding import Failure
from ..sql.slots import FIRST, NO_SLOT, Slot
from ..sql.tokens import Sql, joined, number, sql, text
from .servers import GONE, NONE_THERE, TAKEN, Lost, Told
from .status import BAD_WORDS, FAILED, REFUSED

if TYPE_CHECKING:
    from ..sql.clickhouse import ClickHouse
    from .servers import Rows, Server

# Prints are numbers of so many bits.
WHOLE = 2**64
# So many versions back a version knows those before it.
REMEMBERED = 64
# How often a lost answer to a commit is asked for again, which does no harm: a name can be had once.
TRIES = 5
# How often a question is asked again that met a table which was just going.
MANY = 50
COLUMNS = "seq, night, stage, how, slots, totals, gross, lineage, at, changes, prints, generation, definitions, tables"


class Stage(StrEnum):
    """What a warehouse is by now."""

    CREATED = "created"
    LOADED = "loaded"
    OPENED = "opened"


class Version(NamedTuple):
    """A version: its number and its night's; what the warehouse is by now; how it came about; its slots; of each view how many rows it
    has, and how many its slots have; its lineage; when it was made, by the first server's clock; a digest of the last changes; of each
    server and view the prints of its rows; the generation of tables that the nights behind it put their rows into; and of each view by what it is
    known for so defined, and the name of its tables."""

    seq: int
    night: int
    stage: Stage
    how: str
    slots: tuple[int, ...]
    totals: tuple[int, ...]
    gross: tuple[int, ...]
    lineage: tuple[str, ...]
    at: int
    changes: str
    prints: tuple[int, ...] = ()
    generation: int = FIRST
    definitions: tuple[str, ...] = ()
    tables: tuple[str, ...] = ()

    @classmethod
    def of(cls, row: Sequence[Any]) -> Version:
        """A version by a row of a server's answer."""
        seq, night, stage, how, slots, totals, gross, lineage, at, changes, prints, generation, definitions, tables = row
        counts = whole(slots), whole(totals), whole(gross)
        return cls(
            int(seq), int(night), stage_of(stage), how, *counts, tuple(lineage), int(at), changes, whole(prints), int(generation), tuple(definitions),
            tuple(tables),
        )  # fmt: skip

    def literals(self) -> Sql:
        """The row as a question that answers it."""
        slots = joined([sql("toUInt32({slot})", slot=number(slot)) for slot in self.slots])
        return sql(
            "SELECT toUInt64({seq}) AS seq, toUInt64({night}) AS night, {stage} AS stage, {how} AS how, [{slots}] AS slots, [{totals}] AS totals,"
            " [{gross}] AS gross, [{lineage}] AS lineage, toUInt32({at}) AS at, {changes} AS changes, [{prints}] AS prints,"
            " toUInt32({generation}) AS generation, [{definitions}] AS definitions, [{tables}] AS tables",
            seq=number(self.seq), night=number(self.night), stage=text(self.stage), how=text(self.how), slots=slots, totals=texts(self.totals),
            gross=texts(self.gross), lineage=texts(self.lineage), at=number(self.at), changes=text(self.changes), prints=texts(self.prints),
            generation=number(self.generation), definitions=texts(self.definitions), tables=texts(self.tables),
        )  # fmt: skip


class Purpose(StrEnum):
    """What an attempt is for."""

    CREATE = "create"
    NIGHT = "night"
    FOLD = "fold"
    REPAIR = "repair"
    RECAST = "recast"


# What puts its rows into tables of its own.
OWN_TABLES = (Purpose.FOLD, Purpose.REPAIR, Purpose.RECAST)


class Attempt(NamedTuple):
    """An attempt: its slot, over which night, whose it is and since when."""

    slot: Slot
    night: int
    who: str
    at: int


class Gone(NamedTuple):
    """A version that was taken away: its number, its slots and when that was, by the first server's clock."""

    seq: int
    slots: tuple[int, ...]
    at: int


class Pin(NamedTuple):
    """What keeps a version, and all behind it, from sweeps: the version's number, whose it is and since when."""

    seq: int
    who: str
    at: int


def differing(found: Version, definitions: tuple[str, ...]) -> str:
    """Which views a version has otherwise, or the same in another order."""
    names = sorted({each.partition(" ")[0] for each in {*found.definitions} ^ {*definitions}})
    return f"{', '.join(names)} otherwise" if names else "its views in another order"


def stage_of(said: str) -> Stage:
    """A stage by its word, of which no other is a version's."""
    if said not in [stage.value for stage in Stage]:
        raise Failure(REFUSED, f"whview cluster: a version says that it is {said!r}, which is no stage of a warehouse")
    return Stage(said)


def attempt_of(row: Sequence[Any]) -> Attempt:
    """An attempt by a row of a server's answer."""
    slot, generation, night, who, at = row
    return Attempt(Slot(int(slot), int(generation)), int(night), who, int(at))


def whole(listed: Iterable[str | int]) -> tuple[int, ...]:
    return tuple(map(int, listed))


def texts(listed: Iterable[object]) -> Sql:
    return joined([text(str(each)) for each in listed])


def marked() -> str:
    """A mark that no other version has."""
    return secrets.token_hex(8)


def oneself() -> str:
    """Who makes an attempt, for people to read."""
    return f"{socket.gethostname()}, process {os.getpid()}"


class Versions:
    """The versions and attempts on the first server."""

    def __init__(self, server: Server, dialect: ClickHouse, definitions: tuple[str, ...] = ()) -> None:
        self.server, self.dialect = server, dialect
        # By what the views of the catalogue are known, of which each version is that is gone on with.
        self.definitions = definitions
        # The marks of one's own attempts, by their slots.
        self.mine: dict[int, str] = {}
        # The marks of those that one has left, since a server failed in them: one begins anew.
        self.left: frozenset[str] = frozenset()

    def written(self, said: Sql) -> str:
        return self.dialect.written([said])[0]

    def view(self, letter: str, seq: int) -> Sql:
        """The view of a version, v, of an attempt, a, or of a version that was taken away, x."""
        return self.dialect.table(f"~{letter}{seq}")

    def asked(self, said: Sql) -> Rows:
        return self.server.asked(self.written(said))

    def asked_again(self, said: Sql) -> Rows:
        """The same of a question over tables of which one may go while it is asked: then it is asked again."""
        for _ in range(MANY - 1):
            try:
                return self.asked(said)
            except Told as told:
                if told.code not in (*GONE, NONE_THERE):
                    raise
        return self.asked(said)

    def carried(self, said: Sql) -> None:
        self.server.carried(self.written(said))

    def now(self) -> int:
        """The first server's clock."""
        return int(self.asked(sql("SELECT toUInt32(now()) AS at"))[0][0])

    # ---- what is there

    def numbers(self, letter: str) -> list[int]:
        """The numbers of the views of versions, v, or attempts, a."""
        rows = self.asked_again(sql("SELECT name FROM system.tables WHERE database = {schema}", schema=text(self.dialect.schema)))
        return sorted(int(said[2:]) for said, in rows if re.fullmatch(f"~{letter}(0|[1-9][0-9]*)", said))

    def row(self, seq: int, letter: str = "v") -> Version | None:
        """A version's row, or None where it is not there."""
        found = self.cells(letter, seq, COLUMNS)
        return Version.of(found) if found else None

    def cells(self, letter: str, seq: int, columns: str) -> Sequence[Any] | None:
        """These columns of the row of a version, an attempt or a pin, or None where it is not there."""
        try:
            return self.asked(sql("SELECT {columns} FROM {view}", columns=sql(columns), view=self.view(letter, seq)))[0]
        except Told as told:
            if told.code in GONE:
                return None
            raise

    def newest(self) -> Version:
        """The newest version, which has the views of the catalogue."""
        found = self.highest()
        self.judge(found)
        return found

    def judge(self, found: Version) -> None:
        """Refuses a version that has other views than the catalogue."""
        if self.definitions and found.definitions != self.definitions:
            told = f"{self.dialect.schema} on {self.server} was made by another catalogue: that of version {found.seq} has {differing(found, self.definitions)}"
            raise Failure(BAD_WORDS, f"whview cluster: {told}; `recast` makes a version by this one")

    def highest(self) -> Version:
        """The newest version, which is the newest still when its row has been read: one who slept may have made a number again that was
        swept, but never the highest."""
        numbers = self.numbers("v")
        while numbers:
            highest = numbers[-1]
            found, numbers = self.row(highest), self.numbers("v")
            if found and numbers[-1:] == [highest]:
                return found
        raise Failure(REFUSED, f"whview cluster: {self.server} has no version in {self.dialect.schema}; was `create` cut off?")

    def genuine(self, seq: int) -> Version | None:
        """A version that is there and that the later ones came from; None for one that is gone or was made again by one who slept."""
        found = self.row(seq)
        if found is None or [seq] == self.numbers("v")[-1:]:
            return found
        after = self.row(seq + 1)
        return found if after and after.lineage[1:2] == found.lineage[:1] else None

    def all(self) -> list[Version]:
        """The rows of all versions that are there at one moment, in rising order: by one question, so that the newest is among them."""
        return [Version.of(row) for row in self.merged("SELECT {columns} FROM {versions} ORDER BY seq", columns=sql(COLUMNS))]

    def followed(self) -> dict[int, int]:
        """By each version's number when it was made at the latest: its client may have slept between the clock and the commit."""
        rows, made = self.all(), self.changed()
        return {row.seq: max(row.at, made.get(f"~v{row.seq}", 0)) for row in rows}

    def changed(self) -> dict[str, int]:
        """By each name when what is called so was made, or got that name."""
        question = "SELECT name, toUInt32(metadata_modification_time) FROM system.tables WHERE database = {schema}"
        return {name: int(at) for name, at in self.asked_again(sql(question, schema=text(self.dialect.schema)))}

    def all_taken_away(self) -> list[Gone]:
        """The versions that were taken away and whose names are kept."""
        changed = self.changed()
        rows = [self.row(seq, "x") for seq in self.numbers("x")]
        return [Gone(row.seq, row.slots, changed.get(f"~x{row.seq}", row.at)) for row in rows if row]

    def merged(self, template: str, **parts: Sql) -> Rows:
        """A question about all attempts or versions."""
        return self.asked_again(sql(template, attempts=self.dialect.numbered("a"), versions=self.dialect.numbered("v"), **parts))

    def alive(self, night: int, what: Purpose) -> Attempt | None:
        """The last attempt over this night that can still commit, or None; those do not count that one has left oneself."""
        question = "SELECT slot, generation, night, who, at, mark FROM {attempts} WHERE night = {night} AND what = {what} ORDER BY slot"
        rows = [row for *row, mark in self.merged(question, night=number(night), what=text(what)) if mark not in self.left]
        return attempt_of(rows[-1]) if rows else None

    def all_attempts(self) -> list[Attempt]:
        """All attempts that are there, by one question."""
        return [attempt_of(row) for row in self.merged("SELECT slot, generation, night, who, at FROM {attempts} ORDER BY slot")]

    def living(self, night: int) -> list[tuple[str, Attempt]]:
        """The attempts that can still commit where this is the newest night, each with what it is for."""
        question = "SELECT what, slot, generation, night, who, at FROM {attempts} WHERE night >= {night} AND slot > 0 ORDER BY slot"
        return [(what, attempt_of(row)) for what, *row in self.merged(question, night=number(night))]

    def dead(self) -> list[int]:
        """The slots of attempts that can no longer commit, by one question: the newest night is read in it, and first."""
        rows = self.merged("SELECT slot FROM {attempts} WHERE slot > 0 AND night < (SELECT max(night) FROM {versions})")
        return sorted(int(slot) for slot, in rows)

    def attempts(self) -> set[tuple[int, str]]:
        """The slots and marks of all attempts that are there."""
        return {(int(slot), mark) for slot, mark in self.merged("SELECT slot, mark FROM {attempts}")}

    # ---- what is made

    def attempt(self, night: int, what: Purpose, generation: int = FIRST) -> Slot:
        """Takes a slot that nobody had before, of a generation; a fold's or a repair's begins one. Where there is a higher one by now, it may have been had
        and forgotten meanwhile."""
        while True:
            highest = self.numbers("a")[-1] + 1
            slot, mark = Slot(highest, highest if what in OWN_TABLES else generation), marked()
            is_ours = self.made("a", highest, self.attempt_row(slot, night, what, mark)) or self.has_mark(highest, mark)
            if is_ours and self.numbers("a")[-1] == highest:
                self.mine[highest] = mark
                return slot

    def attempt_row(self, slot: Slot, night: int, what: Purpose, mark: str = "") -> Sql:
        """An attempt as a question that answers it."""
        return sql(
            "SELECT toUInt32({slot}) AS slot, toUInt64({night}) AS night, {what} AS what, {who} AS who, toUInt32({at}) AS at, {mark} AS mark,"
            " toUInt32({generation}) AS generation",
            slot=number(slot.number), night=number(night), what=text(what), who=text(oneself()), at=number(self.now()), mark=text(mark),
            generation=number(slot.generation),
        )  # fmt: skip

    def has_mark(self, slot: int, mark: str, letter: str = "a") -> bool:
        """Whether an attempt that is there is the one of this mark: its statement may have come twice, and the second found it made."""
        return self.cells(letter, slot, "mark") == [mark]

    def made(self, letter: str, seq: int, row: Sql) -> bool:
        """Whether a view could be made, which it cannot where its name is taken."""
        try:
            self.carried(sql("CREATE VIEW {view} AS {row}", view=self.view(letter, seq), row=row))
        except Told as told:
            if told.code == TAKEN:
                return False
            raise
        return True

    def dropped(self, letter: str, seq: int) -> None:
        self.carried(sql("DROP TABLE IF EXISTS {view}", view=self.view(letter, seq)))

    def taken_away(self, seq: int) -> None:
        """A version is none from here on. It keeps another name for a while, x, since who has just found it by the old one is about to read
        it, and would be told an error if it were dropped."""
        self.dropped("x", seq)
        try:
            self.carried(sql("RENAME TABLE {old} TO {new}", old=self.view("v", seq), new=self.view("x", seq)))
        except Told as told:
            if told.code not in (*GONE, TAKEN):
                raise

    def clear(self) -> None:
        """Takes away what is left of something that was cut off."""

    # ---- pins

    def pin(self, seq: int) -> int:
        """Keeps a version from sweeps, and answers the number of the pin. Who pins one looks behind it whether the version is still there."""
        mark = marked()
        while True:
            free = max(self.numbers("p"), default=0) + 1
            row = sql(
                "SELECT toUInt64({seq}) AS seq, {who} AS who, toUInt32({at}) AS at, {mark} AS mark",
                seq=number(seq), who=text(oneself()), at=number(self.now()), mark=text(mark),
            )
            if self.made("p", free, row) or self.has_mark(free, mark, "p"):
                return free

    def pins(self) -> dict[int, Pin]:
        """The pins that are there, by their numbers."""
        rows = {each: self.cells("p", each, "seq, who, at") for each in self.numbers("p")}
        return {each: Pin(int(row[0]), row[1], int(row[2])) for each, row in rows.items() if row}

    # ---- the commit

    def judge_night(self, base: Version) -> None:
        """Ends a night whose attempt can no longer commit, since a later one is there: a sweep may have taken rows of its slot by now."""
        newest = self.newest()
        if newest.night != base.night:
            raise overtaken(newest)

    def commit(self, base: Version, slot: Slot | None, night: int, stage: Stage, how: str, totals: Sequence[int] | None = None,
               gross: Sequence[int] | None = None, alone: bool = False, digest: str = "", prints: Sequence[int] = ()) -> Version:  # fmt: skip
        """Makes the next version: the slots of the one before it and this one, or these `alone`, whose prints are `prints`. Where a fold came
        between, which changes no contents, the version follows that. Answers the version, or ends the command where another client was first."""
        before = base
        while True:
            made = Version(
                before.seq + 1, night, stage, how, slots_after(before, slot, alone), tuple(totals or before.totals),
                tuple(map(sum, zip(before.gross, gross))) if gross else before.gross, (marked(), *before.lineage)[: REMEMBERED + 1], self.now(),
                digest or before.changes, prints_after(before, prints, alone), slot.generation if slot and alone else before.generation,
                before.definitions, before.tables,
            )  # fmt: skip
            if self.created(made):
                return self.looked_at(made)
            before = self.newest()
            if alone or before.night != base.night:
                raise overtaken(before)

    def commit_as(self, base: Version, wanted: Version) -> Version:
        """Makes the next version as it is wanted, where nobody came between, a fold neither."""
        made = wanted._replace(seq=base.seq + 1, lineage=(marked(), *base.lineage)[: REMEMBERED + 1], at=self.now())
        if not self.created(made):
            raise overtaken(self.newest())
        return self.looked_at(made)

    def created(self, made: Version) -> bool:
        """Whether a version could be made. Where no answer came it is looked for, and asked for again; and what came twice is found made."""
        lost: Lost | None = None
        for _ in range(TRIES):
            try:
                return self.made("v", made.seq, made.literals()) or self.is_ours(made)
            except Told:
                if self.is_ours(made):
                    return True
                raise
            except Lost as error:
                lost = error
        told = f"whether version {made.seq} was made is not known: `versions` tells, when the server answers"
        raise Failure(FAILED, f"whview cluster: {lost}; {told}") from lost

    def is_ours(self, made: Version) -> bool:
        """Whether a version that is there is the one that was made here."""
        row = self.row(made.seq)
        return row is not None and row.lineage == made.lineage

    def looked_at(self, made: Version) -> Version:
        """The version, where later ones come from it. One who slept while the number was swept has made it for nothing."""
        try:
            newest = self.newest()
        except (Told, Lost) as error:
            told = f"version {made.seq} was made, and whether it is kept is not known: `versions` tells, when the server answers"
            raise Failure(FAILED, f"whview cluster: {error}; {told}") from error
        if made.lineage[0] in newest.lineage:
            return made
        if newest.seq - made.seq > REMEMBERED:
            told = f"whether version {made.seq} was kept cannot be told: {newest.seq - made.seq} came since"
        else:
            told = f"version {made.seq} had been and was swept: this night began too long ago; nothing is changed"
        with suppress(Told, Lost):
            if self.is_ours(made):
                self.dropped("v", made.seq)
        raise Failure(FAILED, f"whview cluster: {told}")


def overtaken(by: Version) -> Failure:
    """What a client is told that another one overtook."""
    return Failure(FAILED, f"whview cluster: another client was first: version {by.seq} is {by.how}; nothing is changed")


def slots_after(before: Version, slot: Slot | None, alone: bool) -> tuple[int, ...]:
    """A version's slots, of which one is always no slot."""
    if slot is None:
        return before.slots
    return (NO_SLOT, slot.number) if alone else (*before.slots, slot.number)


def prints_after(before: Version, prints: Sequence[int], alone: bool) -> tuple[int, ...]:
    """A version's prints: those of the version before and of the slot that comes, or of that slot alone."""
    if not prints:
        return before.prints
    return tuple(prints) if alone or not before.prints else tuple((had + more) % WHOLE for had, more in zip(before.prints, prints))
