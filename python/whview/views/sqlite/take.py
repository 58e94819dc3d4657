"""`whview sql take` over a file of SQLite: its views taken apart, with all that keeps them and reads them back in the same file."""

from __future__ import annotations

import sys
from argparse import Namespace
from collections.abc import Sequence
from pathlib import Path
from typing import TYPE_CHECKING

from ...sql.capture import command as capturing
from ...sql.capture.captured_sqlite import CAPTURED
from ...sql.capture.database import SQLiteAsked
from ...sql.capture.live_postgresql import SCHEMA
from ...sql.capture.live_sqlite import LiveInSQLite
from ...sql.capture.script import MirrorScript
from ...sql.capture.sqlite import LiveSQLite
from ...sql.catalogue import read
from ...sql.tokens import Sql, Unfit, joined, sql, text
from .. import written
from ..as_tokens import as_real, tokens
from ..captured import small
from ..record import Decomposition, Read
from . import reading

if TYPE_CHECKING:
    from .file import TakingStored


class AskedAnew(SQLiteAsked):
    """A file as it will be, once these tables and views are gone."""

    gone: frozenset[str] = frozenset()

    def names(self) -> set[str]:
        return super().names() - self.gone


class LiveAnew(LiveInSQLite):
    """SQLite as the commands have it, where these tables and views are gone before all else."""

    def __init__(self, words: Namespace, gone: Sequence[str]) -> None:
        super().__init__(words)
        self.gone = frozenset(map(small, gone))

    def database(self, script: MirrorScript | None = None) -> SQLiteAsked:
        found = AskedAnew(self.words.database, script.dialect if script else LiveSQLite())
        found.gone = self.gone
        return found


def judge_words(words: Namespace) -> None:
    """Refuses what does not go with a file of SQLite."""
    LiveInSQLite(words).judge_words()
    if words.source not in (None, SQLiteAsked.own_schema):
        raise Unfit("--from goes with --engine postgresql")


def judge_places(asked: SQLiteAsked, prefix: str, before: Sequence[str], names: Sequence[str]) -> None:
    """Refuses to take the place of what the files of this folder have not made."""
    there = asked.names()
    for name in names:
        if small(prefix + name) in there and name not in before:
            raise Unfit(f"there is a {prefix}{name} that this folder's views.sql did not make: drop it, or name another word by --schema")


def former(words: Namespace, asked: SQLiteAsked, prefix: str, is_own: bool) -> tuple[list[str], list[str]]:
    """The lines that let go what this folder had captured before, and the names of what goes."""
    if small(prefix + CAPTURED) not in asked.names():
        return [], []
    if not is_own:
        raise Unfit(f"there is a warehouse behind the word {prefix} already, which this folder did not make: name another word by --schema")
    live = LiveInSQLite(words)
    script = live.script(read(words.path))
    return [*script.dialect.head, *script.dialect.written(script.captures.uncapture(asked))], script.captures.made()


def judged(taking: TakingStored, dialect: LiveSQLite) -> list[str]:
    """The lines that refuse a file in which a table or a view is otherwise than it was read."""
    names = [name for _, name in taking.relations]
    listed = taking.asked.rows(sql("SELECT s.name, s.sql FROM sqlite_master AS s WHERE s.name IN ({names})", names=joined(list(map(text, names)))))[0]
    refused = list[Sql]()
    for name, made in listed:
        query = sql("SELECT 1 WHERE NOT EXISTS (SELECT 1 FROM sqlite_master AS s WHERE s.name = {name} AND s.sql = {made})", name=text(name), made=dialect.text(made))
        refused += dialect.refuse(f"{name} is not what it was when these views were taken: take them anew", query)
    return dialect.written(dialect.program(refused, [], [], {}))


def transaction(dialect: LiveSQLite, lines: Sequence[str]) -> list[str]:
    """The lines of a transaction."""
    return dialect.written(dialect.creation([tokens(line, as_real) for line in lines])) if lines else []


def of_views(script: MirrorScript, reads: Sequence[Read], gone: Sequence[str], prefix: str) -> list[str]:
    """The lines that make the views which are read, and by which those of these names go: nights need not look at all tables for it."""
    lines = [*written.gone([*gone, *(each.name for each in reads)], prefix), *(line for each in reads for line in reading.made(each, prefix))]
    return script.dialect.written(script.dialect.creation(script.captures.schema_changed([tokens(line, as_real) for line in lines])))


def taken(words: Namespace) -> list[str]:
    """The script that captures what the views need, fills what is kept, and makes the views that are read; the folder gets the files for nights."""
    from .file import TakingStored
    from .given import SUFFIX, views_in
    judge_words(words)
    schema, folder, dialect = words.schema or SCHEMA, Path(words.path), LiveSQLite()
    prefix, asked = f"{schema}_", SQLiteAsked(words.database, dialect)
    if stranger := written.stranger(folder):
        raise Unfit(f"{stranger} was not written by `take`: name another folder")
    wanted = [each.strip() for each in words.views.split(",") if each.strip()]
    given = [view for each in wanted if each.endswith(SUFFIX) for view in views_in(Path(each))]
    taking = TakingStored(asked, prefix, given)
    names = [*taking.chosen([each for each in wanted if not each.endswith(SUFFIX)]), *(each.name for each in given)]
    decomposition = taking.taken(list(dict.fromkeys(names))) if not taking.refused else Decomposition()
    if taking.refused:
        raise Unfit("; ".join(dict.fromkeys(each.told() for each in taking.refused)))
    for said in [f"{each.name}: {note}" for each in decomposition.reads for note in each.notes]:
        print(f"whview sql: {said}", file=sys.stderr)
    before, names = written.former(folder, schema), [each.name for each in decomposition.reads]
    judge_places(asked, prefix, before, names)
    let_go, gone = former(words, asked, prefix, bool(before))
    first = [*judged(taking, dialect), *transaction(dialect, reading.aside(before, taking.standing(), prefix))]
    # The files are written twice: what makes the views is known once there is a catalogue.
    written.put(folder, decomposition, schema, [])
    words.capture = words.open = words.live = True
    live = LiveAnew(words, [*gone, *(prefix + each for each in before), *(prefix + each + written.SHAPE for each in before)])
    script = live.script(read(words.path))
    views = of_views(script, decomposition.reads, [each for each in before if each not in names], prefix)
    written.put(folder, decomposition, schema, views)
    return [*first, *let_go, *capturing.written(live), *views]
