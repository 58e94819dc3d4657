"""`whview sql take`: views of a database as somebody wrote them, taken apart, with all that keeps them and reads them back."""

from __future__ import annotations

import sys
from argparse import Namespace
from collections.abc import Sequence
from pathlib import Path
from typing import TYPE_CHECKING

from ..sql.capture import command as capturing
from ..sql.capture.database import PostgreSQLAsked
from ..sql.capture.live_postgresql import SCHEMA, LiveInPostgreSQL
from ..sql.capture.postgresql import LivePostgreSQL
from ..sql.tokens import Unfit
from . import reading, written
from .asked import Asking
from .parser import with_parser

if TYPE_CHECKING:
    from .taking import Taking


def judge_places(taking: Taking, schema: str, before: Sequence[str], names: Sequence[str]) -> None:
    """Refuses to take the place of a view that the files of this folder have not made."""
    for name in names:
        if (schema, name) in taking.relations and name not in before:
            raise Unfit(f"there is a {schema}.{name} that this folder's views.sql did not make: drop it, or name another schema by --schema")


def taken(words: Namespace) -> list[str]:
    """The script that captures what the views need, fills what is kept, and makes the views that are read; the folder gets the files for nights."""
    if words.engine not in ("postgresql", "sqlite"):
        raise Unfit("`take` goes with --engine postgresql or sqlite")
    if not words.views:
        raise Unfit("--views says which views are taken: names or patterns, with commas between them")
    if Path(words.path).is_file():
        raise Unfit(f"{words.path} is a file: name a folder, which is made where there is none")
    with_parser(sys.argv)
    if words.engine == "sqlite":
        from .sqlite.take import taken as taken_in_sqlite
        return taken_in_sqlite(words)
    from .taking import Taking
    schema, folder = words.schema or SCHEMA, Path(words.path)
    database = PostgreSQLAsked(words.database, LivePostgreSQL(schema))
    source = words.source or database.own_schema
    if schema == source:
        raise Unfit(f"the views would take the places of those in {source}: name another schema by --schema")
    if stranger := written.stranger(folder):
        raise Unfit(f"{stranger} was not written by `take`: name another folder")
    taking = Taking(Asking(database.command()), schema, source)
    decomposition = taking.taken(taking.chosen([each.strip() for each in words.views.split(",") if each.strip()]))
    if taking.refused:
        raise Unfit("; ".join(dict.fromkeys(each.told() for each in taking.refused)))
    for said in [f"{read.name}: {note}" for read in decomposition.reads for note in read.notes]:
        print(f"whview sql: {said}", file=sys.stderr)
    before, names = written.former(folder, schema), [each.name for each in decomposition.reads]
    judge_places(taking, schema, before, names)
    written.put(folder, decomposition, schema, reading.made(schema, decomposition.reads, words.role))
    words.capture = words.open = words.live = True
    there = [name for name in dict.fromkeys([*before, *names]) if (schema, name) in taking.relations]
    script = reading.beside(capturing.written(LiveInPostgreSQL(words)), schema, source, there)
    return [*script, *reading.made(schema, decomposition.reads, words.role, [name for name in before if name not in names])]
