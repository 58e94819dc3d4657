"""Views of a file of SQLite, taken apart each and all together over the tables of applications, or refused before anything is made."""

from __future__ import annotations

import sqlite3
from collections.abc import Sequence
from contextlib import closing
from dataclasses import dataclass, replace
from fnmatch import fnmatchcase
from typing import TYPE_CHECKING, ClassVar

from pglast import parse_sql
from pglast.parser import ParseError

from ...sql.tokens import Unfit, joined, sql, text
from ...sql.tokens import name as name_token
from .. import tree
from ..as_tokens import as_real, tokens
from ..asked import Relation, TableColumn, named, quoted
from ..captured import small
from ..keeping import Keeping
from ..record import Column, Decomposition, Mirror, Read
from ..refused import Refused
from .declared import DeclaredView
from .folded import folded, in_quotes
from .given import GivenView, columns_of
from .reading import Shown, affinity_of, made, shown_by
from .spelled import SCHEMA
from .stored import StoredWords, as_stored, kind_of
from .taking import Said, Taking, make_kept
from .unnamed import Named

if TYPE_CHECKING:
    from ...sql.capture.database import SQLiteAsked


@dataclass(frozen=True, slots=True)
class StoredView:
    """A view of the file: its name, and the statement that made it."""

    name: str
    text: str


class TakingStored(Taking):
    """The views of a file that are wanted, by names or patterns. What is kept of them stands in the same file, behind a word before its names."""

    moments: ClassVar[Sequence[str]] = ("date", "timestamp", "text", "integer")

    def __init__(self, asked: SQLiteAsked, prefix: str, given: Sequence[GivenView] = ()) -> None:
        super().__init__(StoredWords())
        self.asked, self.prefix, self.given, there = asked, prefix, given, asked.names()
        taken = [each.name for each in given if small(each.name) in there]
        self.refused += [Refused(f"the view {name}", "there is a table or a view of this name in the file", "name it otherwise") for name in taken]
        self.texts: dict[str, StoredView | GivenView] = {small(name): StoredView(name, said) for name, said in asked.views(SCHEMA).items()}
        self.texts |= {small(each.name): each for each in given if small(each.name) not in there}
        self.columns: dict[str, tuple[Column, ...]] = {}
        self.reading = list[str]()

    def text_of(self, view: DeclaredView) -> str:
        return self.texts[small(view.name)].text

    def chosen(self, wanted: Sequence[str]) -> list[str]:
        """The views of these names or patterns."""
        found: dict[str, None] = {}
        for pattern in wanted:
            names = [each.name for said, each in self.texts.items() if fnmatchcase(said, small(pattern)) and not said.startswith(small(self.prefix))]
            if not names:
                self.refused.append(Refused(f"the view {pattern}", "there is none in the file", "name one that is there"))
            found.update(dict.fromkeys(names))
        return list(found)

    def standing(self) -> list[str]:
        """The names of the views that stand in the file."""
        return [each.name for each in self.texts.values() if isinstance(each, StoredView)]

    def taken(self, names: Sequence[str]) -> Decomposition:
        """What they are taken apart into; why some are not is noted."""
        keeping, wanted = Keeping(SCHEMA, names, self.words), [DeclaredView(name, None, ()) for name in names]
        for view in wanted:
            said = self.attempt(view, lambda view=view: self.known(view.name))  # type: ignore[misc]
            made = self.attempt(view, lambda said=said: self.read_view(said, keeping)) if said is not None else None  # type: ignore[misc]
            if made is not None:
                keeping.decomposition.reads.append(made)
        if wanted and not self.refused:
            self.attempt(wanted[0], keeping.judged_whole)
        mirrors = [replace(each, columns=[as_stored(column) for column in each.columns]) for each in keeping.decomposition.mirrors]
        decomposition = replace(keeping.decomposition, mirrors=mirrors)
        if not self.refused:
            self.probed(decomposition)
        return decomposition

    # ---- what the file says

    def known(self, name: str) -> Said:
        """A view that is read, once all is known that it is over."""
        stored = self.texts[small(name)]
        query = self.query(stored)
        self.reading.append(small(name))
        for each in tree.found(query, "RangeVar"):
            self.learn(each.relname)
        self.reading.pop()
        self.columns[stored.name] = self.columns_of(stored)
        return self.read(DeclaredView(stored.name, query, tuple(small(each.name) for each in self.columns[stored.name])))

    def query(self, stored: StoredView | GivenView) -> tree.Node:
        """The query of a view."""
        if isinstance(stored, GivenView):
            return folded(stored.query)
        named = Named(in_quotes(stored.text))
        try:
            statement = named.placed(parse_sql(named.text)[0].stmt)
        except ParseError as fault:
            place = named.place(tree.place_of(fault, named.text))
            raise Refused("the text", f"the parser says: {fault.args[0]}", "write what both PostgreSQL and SQLite read", place) from fault
        if tree.kind(statement) != "ViewStmt":
            raise Refused(tree.kind(statement), "it is no CREATE VIEW", "write one")
        return folded(statement.query)

    def columns_of(self, stored: StoredView | GivenView) -> tuple[Column, ...]:
        """The columns of a view: their names, and their types where they have some."""
        if isinstance(stored, GivenView):
            return columns_of(self.asked, self.given, stored.name)
        try:
            rows = self.asked.rows(sql("SELECT x.name, x.type FROM pragma_table_info({view}) AS x ORDER BY x.cid", view=text(stored.name)))[0]
        except Unfit as fault:
            raise Refused("the view", str(fault), "mend it") from fault
        return tuple(Column(*row) for row in rows)

    def learn(self, name: str) -> None:
        """Has a table or a view known, with the kinds of its columns. What is neither is told where it is read."""
        if any(small(each) == small(name) for each in self.kinds):
            return
        if small(name) in self.texts:
            inner = self.texts[small(name)]
            if small(name) in self.reading:
                raise Refused(f"the view {inner.name}", "it is over itself", "mend it")
            try:
                self.known(inner.name)
            except Refused as refused:
                raise refused.located(inner.name, inner.text) from refused
            return
        for table in self.asked.tables(SCHEMA, self.actual(name)).values():
            if table.unfit:
                raise Refused(f"the table {table.name}", table.unfit, "have a table with numbers of rows")
            self.kinds[table.name] = {small(told.name): kind_of(told) for told in table.columns}
            listed = tuple(TableColumn(small(told.name), not told.may_be_null, told.type) for told in table.columns)
            key = tuple(map(small, table.keys[0])) if table.keys else ()
            self.relations[SCHEMA, table.name] = Relation(SCHEMA, table.name, "r", None, listed, key)

    def actual(self, name: str) -> list[str]:
        """The name of a table as the file has it."""
        found = self.asked.rows(sql("SELECT s.name FROM sqlite_master AS s WHERE s.type = {kind} AND lower(s.name) = {name}", kind=text("table"), name=text(small(name))))
        return [said for said, in found[0]] or [name]

    # ---- views

    def read_view(self, said: Said, keeping: Keeping) -> Read:
        read, kinds = super().read_view(said, keeping), self.kinds[said.view.name]
        types = {relation.name: {each.name: each.type for each in relation.columns} for relation in self.relations.values() if relation.letter == "r"}
        columns = enumerate(self.columns[said.view.name])
        shown = [Shown(each, small(each.name), affinity_of(said.statement, at, types), kinds[small(each.name)]) for at, each in columns]
        return shown_by(read, shown, self.prefix)

    # ---- whether SQLite takes it, before anything is made

    def probed(self, decomposition: Decomposition) -> None:
        """Notes as refused what SQLite does not compile, or reads as other columns than the view's."""
        for mirror in decomposition.mirrors:
            self.compiled(mirror)
        with closing(sqlite3.connect(":memory:")) as database:
            make_kept(database, decomposition, self.prefix)
            for read in decomposition.reads:
                self.attempt(DeclaredView(read.name, None, ()), lambda read=read: self.probed_view(database, read))  # type: ignore[misc]

    def compiled(self, mirror: Mirror) -> None:
        """Notes as refused what SQLite does not compile over a table of the file."""
        try:
            listed = joined([tokens(each.expression, as_real) for each in mirror.columns])
            self.asked.rows(sql("SELECT {listed} FROM {table} AS r LIMIT 0", listed=listed, table=name_token(mirror.table)))
        except Unfit as fault:
            self.refused.append(Refused(f"the table {mirror.table}", f"SQLite {sqlite3.sqlite_version} says: {fault}", "write its views more simply"))

    def probed_view(self, database: sqlite3.Connection, read: Read) -> None:
        """Refuses a view that SQLite does not take, or whose columns are others."""
        try:
            for line in self.asked.dialect.written([tokens(each, as_real) for each in made(read, self.prefix)]):
                database.execute(line)
            found = database.execute(f"SELECT name, type FROM pragma_table_info({quoted(self.prefix + read.name)})").fetchall()
            database.execute(f"SELECT * FROM {named(self.prefix + read.name)} LIMIT 0")
        except sqlite3.Error as fault:
            raise Refused("the view", f"SQLite {sqlite3.sqlite_version} says: {fault}", "write its parts more simply") from fault
        wanted = [(each.name, each.type) for each in read.columns]
        if found != wanted:
            unlike = next(((one, other) for one, other in zip(found, wanted) if one != other), (found, wanted))
            raise Refused("the view", f"a column would read as {unlike[0]}, and is {unlike[1]}", "cast it to what it is to be")
