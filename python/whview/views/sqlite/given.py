"""Views that are given in a file of SQL, beside those that stand in a file of SQLite."""

from __future__ import annotations

import sqlite3
from collections.abc import Sequence
from contextlib import closing
from dataclasses import dataclass
from pathlib import Path
from typing import TYPE_CHECKING

from pglast import parse_sql
from pglast.parser import ParseError

from ...sql.tokens import Unfit, sql, text
from .. import tree
from ..asked import quoted
from ..record import Column
from ..refused import Refused
from .folded import in_quotes
from .unnamed import Named

if TYPE_CHECKING:
    from ...sql.capture.database import SQLiteAsked

SUFFIX = ".sql"


@dataclass(frozen=True, slots=True)
class GivenView:
    """A view of a file of SQL: its name, the text of the whole file, its statement there, and its query."""

    name: str
    text: str
    statement: str
    query: tree.Node


def views_in(path: Path) -> list[GivenView]:
    """The views that a file of SQL makes."""
    try:
        content = path.read_text()
        named = Named(in_quotes(content))
    except (OSError, UnicodeDecodeError) as fault:
        raise Unfit(f"{path}: {fault}") from fault
    try:
        statements = parse_sql(named.text)
    except ParseError as fault:
        place = named.place(tree.place_of(fault, named.text))
        refused = Refused("the text", f"the parser says: {fault.args[0]}", "write what both PostgreSQL and SQLite read", place)
        raise Unfit(refused.located(str(path), content).told()) from fault
    found = list[GivenView]()
    for each in statements:
        begin = named.place(int(each.stmt_location or 0))
        if tree.kind(each.stmt) != "ViewStmt":
            refused = Refused(tree.kind(each.stmt), "a file of views has CREATE VIEW alone", "leave it out", begin)
            raise Unfit(refused.located(str(path), content).told())
        piece = content[begin: named.place(int(each.stmt_location or 0) + int(each.stmt_len))] if each.stmt_len else content[begin:]
        found.append(GivenView(str(each.stmt.view.relname), content, piece, named.placed(each.stmt.query)))
    return found


def columns_of(asked: SQLiteAsked, given: Sequence[GivenView], name: str) -> tuple[Column, ...]:
    """The columns of a given view, as SQLite tells them over a copy of the file's tables and views, which is empty."""
    made = asked.rows(sql("SELECT s.sql FROM sqlite_master AS s WHERE s.sql IS NOT NULL AND s.type IN ({table}, {view}) ORDER BY s.rowid", table=text("table"), view=text("view")))
    with closing(sqlite3.connect(":memory:")) as copy:
        for said, in made[0]:
            try:
                copy.execute(said)
            except sqlite3.Error:
                # A table of a module that is not here is told where it is read.
                continue
        try:
            for each in given:
                copy.execute(each.statement)
            return tuple(Column(*row) for row in copy.execute(f"SELECT name, type FROM pragma_table_info({quoted(name)}) ORDER BY cid"))
        except sqlite3.Error as fault:
            raise Refused("the view", str(fault), "mend it") from fault
