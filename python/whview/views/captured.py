"""What a mirror with row expressions is captured from: the table's own columns that these read, and what each of them is."""

from __future__ import annotations

import json
from collections.abc import Mapping, Sequence
from dataclasses import dataclass
from pathlib import Path
from typing import TYPE_CHECKING, Any

from ..sql.tokens import Unfit, joined, name, sql, text
from .as_tokens import as_real, tokens

if TYPE_CHECKING:
    from ..catalogue.views import View
    from ..sql.capture.database import Table
    from ..sql.capture.live import LiveDialect
    from ..sql.capture.sources import Source
    from ..sql.capture.turned import Told, Turned

FILE = "rows.json"


@dataclass(frozen=True, slots=True)
class RowsOf:
    """The row expressions of a mirror, by the names of its columns: each with its kind and the columns that it reads; its schema, and its key."""

    schema: str
    columns: Mapping[str, tuple[str, str, tuple[str, ...]]]
    key: tuple[str, ...]


def rows_in(path: str) -> dict[str, RowsOf]:
    """The row expressions of a folder's mirrors, by their names; none where it has no such file."""
    file = Path(path) / FILE
    if not file.is_file():
        return {}
    said: dict[str, Any] = json.loads(file.read_text())
    return {
        mirror: RowsOf(each["schema"], {column: (kind, shown, tuple(reads)) for column, (kind, shown, reads) in each["columns"].items()}, tuple(each["key"]))
        for mirror, each in said.items()
    }


def source_of(dialect: LiveDialect, view: View, table: Table, rows: RowsOf) -> Source:
    """The table that a mirror with row expressions is captured from."""
    from ..sql.capture.sources import Source
    told = {small(each.name) if dialect.folds else each.name: each for each in table.columns}
    read = sorted({each for _, _, reads in rows.columns.values() for each in reads})
    if missing := [each for each in read if each not in told]:
        raise Unfit(f"{view.name}: the table {table.name} has no column {missing[0]}")
    if table.unfit:
        raise Unfit(f"{view.name} cannot be captured: {table.unfit}")
    computed = [(said, *rows.columns[said]) for said, _ in view.columns]
    columns = [dialect.computed(said, kind, shown, [told[each] for each in reads]) for said, kind, shown, reads in computed]
    return Source(rows.schema, table.name, columns, list(rows.key), table.is_parted, False, tuple(map(dialect.plain, (told[each] for each in read))))


def small(said: str) -> str:
    """A name in small letters, of which databases that do not look at case know those of ASCII."""
    return "".join(letter.lower() if letter.isascii() else letter for letter in said)


def computed_in_postgresql(said: str, kind: str, shown: str, read: Sequence[Told]) -> Turned:
    """A column of a mirror, as it is computed."""
    from ..sql.capture.turned import OfPostgreSQL, Told, Turned
    made = tokens(shown)
    own = [sql("pg_typeof(r.{column}) = {own}::regtype", column=name(each.name), own=text(str(each.own_type))) for each in read]
    sure = sql("CASE WHEN {own} THEN {made} END", own=joined(own, "AND"), made=made)
    known = OfPostgreSQL(sql("FALSE"), sure, made, sql("r.{column}", column=name(said)), Told(said, kind, "computed", None, None, False))
    return Turned(said, "text" if kind == "text" else "int", made, False, True, known)


def computed_in_sqlite(said: str, kind: str, shown: str) -> Turned:
    """The same in SQLite, where a value of another kind is refused by the night."""
    from ..sql.capture.turned import Turned
    return Turned(said, "text" if kind == "text" else "int", tokens(shown, as_real), False, True)


def plain_in_sqlite(told: Told) -> Turned:
    """A column of the table as it is."""
    from ..sql.capture.turned import Turned, cell
    return Turned(told.name, "text", cell(told), told.may_be_null, True)


def plain_in_postgresql(told: Told) -> Turned:
    """A column of the table as it is, of which is only asked whether it is what it was."""
    from ..sql.capture.turned import OfPostgreSQL, Turned, cell, fits
    known = OfPostgreSQL(fits(told), cell(told), cell(told), cell(told), told)
    return Turned(told.name, "text", cell(told), told.may_be_null, True, known)


def written(mirrors: Sequence[Any]) -> str:
    """The file of row expressions."""
    listed = {
        each.name: {"schema": each.schema, "key": list(each.key), "columns": {column.name: [column.kind, column.expression, list(column.reads)] for column in each.columns}}
        for each in mirrors
    }
    return json.dumps(listed, indent=1, ensure_ascii=False) + "\n"
