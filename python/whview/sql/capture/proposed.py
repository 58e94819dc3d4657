"""A first catalogue from what a database has: its tables as base views, and those of its views that whview keeps."""

from __future__ import annotations

import json
from collections.abc import Callable, Mapping
from functools import partial
from typing import TYPE_CHECKING

from .bounded import ANY, Written
from .parsed import NotTaken, parsed
from .sources import turned_by
from .taken import Reader
from .turned import Unturned
from .values import NAME, TEXT, WHOLE, Column, holds, is_moment, is_wide

if TYPE_CHECKING:
    from .database import Table
    from .live import LiveDialect

MOST_COLUMNS, MOST_VIEWS = 64, 64


def toml(value: Written) -> str:
    """A value as TOML writes it."""
    if isinstance(value, dict):
        return "{ " + ", ".join(f"{key} = {toml(each)}" for key, each in value.items()) + " }"
    if isinstance(value, list):
        return "[" + ", ".join(map(toml, value)) + "]"
    return json.dumps(value, ensure_ascii=False) if isinstance(value, str) else str(value).lower() if isinstance(value, bool) else str(value)


class Proposed:
    """The catalogue of a database: the views that are taken, in their order, and what is not taken, each with the reason."""

    def __init__(self, dialect: LiveDialect, tables: Mapping[str, Table], views: Mapping[str, str], schema: str | None = None) -> None:
        self.schema, self.dialect, self.lines, self.left = schema, dialect, list[str](), list[str]()
        self.known: dict[str, list[Column]] = {}
        self.without: dict[tuple[str, str], str] = {}
        for table in tables.values():
            self.attempt(table.name, partial(self.add_table, table))
        waiting = dict(views)
        while ready := [name for name in waiting if not self.over(waiting[name]) & set(waiting)]:
            for name in ready:
                text = waiting.pop(name)
                self.attempt(name, partial(self.add_view, name, text))
        self.left += [f"{name} is not taken: it is over itself" for name in waiting]

    def over(self, text: str) -> set[str]:
        """The tables that a view is over, as far as it is read."""
        try:
            return {table.name for table in parsed(text).tables}
        except (NotTaken, RecursionError):
            return set()

    def attempt(self, name: str, add: Callable[[], None]) -> None:
        """Adds a table or a view, or notes why it is not taken."""
        try:
            if not NAME.fullmatch(name):
                raise NotTaken("its name has other letters than A to Z and digits, or more than 64")
            if len(self.known) == MOST_VIEWS:
                raise NotTaken(f"a catalogue has {MOST_VIEWS} views at most")
            add()
        except (NotTaken, RecursionError) as why:
            reason = why if isinstance(why, NotTaken) else "its expressions lie too deep within each other"
            self.left.append(f"{name} is not taken: {reason}")

    def add_table(self, table: Table) -> None:
        """A table with those of its columns that can be turned."""
        if table.unfit:
            raise NotTaken(table.unfit)
        columns, without = self.columns_of(table)
        if not columns:
            raise NotTaken("none of its columns can be turned")
        self.left += without
        if len(columns) > MOST_COLUMNS:
            self.left.append(f"{table.name} is taken without its columns after the first {MOST_COLUMNS}")
            columns = columns[:MOST_COLUMNS]
        self.known[table.name] = columns
        listed = toml([f"{column.name}:text" if column.kind == "text" else column.name for column in columns])
        nulls: list[Written] = [column.name for column in columns if column.may_be_null]
        more = [f"nulls = {toml(nulls)}"] if nulls else []
        sure = {column.name for column in columns if not column.may_be_null and not is_moment(column.holds)}
        keys = [key for key in table.keys if sure.issuperset(key) and len(key) < len(columns)]
        more += [f"key = {toml([*keys[0]])}"] if keys else []
        self.lines += ["[[view]]", f"name = {toml(table.name)}", f"columns = {listed}", *more, ""]

    def columns_of(self, table: Table) -> tuple[list[Column], list[str]]:
        """The columns of a table that can be turned, and what is told of the others."""
        told = {each.name: each for each in table.columns}
        columns, without = list[Column](), list[str]()
        for said, found in turned_by(self.dialect, table).items():
            if isinstance(found, Unturned):
                without.append(f"{table.name} is taken without {said}: {found.why}")
                self.without[table.name, said] = f"it cannot be had with {said}: {found.why}"
            elif not NAME.fullmatch(said):
                without.append(f"{table.name} is taken without {said}: its name has other letters than A to Z and digits, or more than 64")
            else:
                kind = TEXT if found.kind == "text" else holds(told[said]) or WHOLE
                places, bounds = (told[said].places or 0, self.dialect.bounds(told[said])) if kind == WHOLE else (0, ANY)
                columns.append(Column(said, kind, places, found.may_be_null, bounds))
        return columns, without

    def add_view(self, name: str, text: str) -> None:
        """A view by its SELECT."""
        found, columns, notes = Reader(parsed(text), self.known, self.dialect, self.schema, self.without).table(name)
        if len(columns) > MOST_COLUMNS:
            raise NotTaken(f"it has more than {MOST_COLUMNS} columns")
        if any(map(is_wide, found.values())):
            raise NotTaken("it has a number that leaves 64 bits")
        self.known[name] = columns
        self.lines += [*(f"# {note}" for note in notes), "[[view]]", *(f"{key} = {toml(value)}" for key, value in found.items()), ""]

    def text(self) -> str:
        """The catalogue, with what is not taken above it."""
        return "".join(f"{line}\n" for line in [*(f"# {each}" for each in self.told()), *([""] if self.left else []), *self.lines])

    def told(self) -> list[str]:
        """What is not taken, each in one line: a name in it may have any letters."""
        return ["".join(letter if letter.isprintable() else repr(letter)[1:-1] for letter in each) for each in self.left]
