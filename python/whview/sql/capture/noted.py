"""By what definition each view was filled, and how the application's own view of its name was defined then."""

from __future__ import annotations

from abc import ABC, abstractmethod
from collections.abc import Sequence
from typing import TYPE_CHECKING, NamedTuple

from ..tokens import Sql, joined, name, name_of, sql, text
from .definitions import definitions

if TYPE_CHECKING:
    from .database import Rows
    from .live import LiveScript, Session
    from .merge import MergeScript
    from .script import MirrorScript

# How the application's view of a name was defined stands by this beside what is noted of the view, which stands by no name.
OF_VIEW = "~view"
UNLIKE = "was filled by another definition than the catalogue has: run whview sql open --live"
ANEW = "is defined otherwise in the database than when it was filled: let its catalogue say so, and run whview sql open --live"


class NotedView(NamedTuple):
    """Of a view that was filled the print of its definition, what the application's view of its name was then, and what that is now."""

    print: str | None
    was: str | None
    now: str | None


NOTHING = NotedView(None, None, None)


class Noted(ABC):
    """What was noted of the derived views, and what is so now."""

    def __init__(self, script: LiveScript) -> None:
        self.script = script
        self.found: dict[str, NotedView] = {}

    def view(self, v: int) -> Sql:
        """A view's name, as a text."""
        return text(self.script.views[v].name)

    def print(self, v: int) -> str:
        """The print of a view's definition."""
        return definitions(self.script.tables)[v]

    # ---- what is noted

    def as_filled(self, views: Sequence[int]) -> list[Sql]:
        """These views are filled as the catalogue has them."""
        return [each for v in views for each in [*self.put_right(v), *self.own_view(v)]]

    @abstractmethod
    def own_view(self, v: int) -> list[Sql]:
        """What the application's view of this name is now is noted."""

    @abstractmethod
    def put_right(self, v: int) -> list[Sql]:
        """A view has what the catalogue says, whatever the application's view of its name says now."""

    # ---- what is asked

    @abstractmethod
    def asked(self, session: Session, views: Sql) -> Rows:
        """Of each of these views that was filled its name, the print of its definition, what the application's view of its name was then, and is."""

    def read(self, session: Session) -> Noted:
        """Of each view that was filled the print of its definition, what its CREATE VIEW was, and what it is."""
        derived = joined([self.view(v) for v in self.script.steps.derived()])
        if derived:
            self.found = {view: NotedView(*others) for view, *others in self.asked(session, derived)}
        return self

    def unlike(self, v: int) -> bool:
        """Whether a view was filled by another definition, or by none that was noted."""
        return self.found.get(self.script.views[v].name, NOTHING).print != self.print(v)

    def told(self, v: int) -> list[str]:
        """What is told of a view's definitions."""
        known, was, now = self.found.get(self.script.views[v].name, NOTHING)
        return [UNLIKE] * (known is not None and self.unlike(v)) + [ANEW] * (was is not None and was != now)


class NotedInPostgreSQL(Noted):
    """The same in PostgreSQL, in the table of columns; a definition is told as a digest."""

    def __init__(self, script: MergeScript) -> None:
        super().__init__(script)
        self.state, self.columns = script.captures.state, script.captures.columns

    def own_view(self, v: int) -> list[Sql]:
        view, own, noted = self.view(v), text(OF_VIEW), self.columns
        made = sql("SELECT {view} AS view, o.own FROM (SELECT {now} AS own FROM (SELECT {view}::text AS view) AS k) AS o WHERE o.own IS NOT NULL",
                   view=view, now=self.now())
        return [
            sql("DELETE FROM {noted} WHERE view = {view} AND name = {own}", noted=noted, view=view, own=own),
            # Which names have their schemas in the text goes by the path.
            sql("path := current_setting({key})", key=text("search_path")),
            sql("PERFORM set_config({key}, {own}, TRUE)", key=text("search_path"), own=text("pg_catalog, pg_temp")),
            sql("INSERT INTO {noted} SELECT q.view, {own}, q.own FROM ({made}) AS q", noted=noted, own=own, made=made),
            sql("PERFORM set_config({key}, path, TRUE)", key=text("search_path")),
        ]

    def put_right(self, v: int) -> list[Sql]:
        view, noted, none = self.view(v), self.columns, text("")
        return [
            sql("DELETE FROM {noted} WHERE view = {view} AND name = {none}", noted=noted, view=view, none=none),
            sql("INSERT INTO {noted} VALUES ({view}, {none}, {print})", noted=noted, view=view, none=none, print=text(self.print(v))),
        ]

    def now(self) -> Sql:
        """The definition of the application's view that is called k.view, in the schema of what is captured."""
        return sql(
            "(SELECT md5(pg_get_viewdef(c.oid)) FROM pg_class AS c WHERE c.relname = k.view AND c.relkind IN ({view}, {kept}) AND c.relnamespace ="
            " (SELECT min(s.relnamespace) FROM {state} AS a JOIN pg_class AS s ON s.oid = a.source))",
            state=self.state, view=text("v"), kept=text("m"),
        )

    def asked(self, session: Session, views: Sql) -> Rows:
        rest = "FROM {noted} AS k LEFT JOIN {noted} AS o ON o.view = k.view AND o.name = {own} WHERE k.name = {none} AND k.view IN ({views})"
        return session.rows("k.view, k.type, o.type, {now}", rest, noted=self.columns, own=text(OF_VIEW), none=text(""), views=views, now=self.now())


class NotedInSQLite(Noted):
    """The same in SQLite, in the table of what is captured; a definition is told as it was written."""

    def __init__(self, script: MirrorScript) -> None:
        super().__init__(script)
        self.state, self.dialect = script.captures.state, script.dialect
        self.target = self.dialect.target(name_of(self.state))

    def own_view(self, v: int) -> list[Sql]:
        view = self.view(v)
        put = "INSERT OR REPLACE INTO {state} SELECT {view} || {own}, s.sql, 0 FROM {schema}.sqlite_master AS s WHERE s.type = {kind} AND s.name = {view}"
        return [sql(put, state=self.target, view=view, own=text(OF_VIEW), schema=name(self.dialect.schema), kind=text("view"))]

    def put_right(self, v: int) -> list[Sql]:
        return [sql("INSERT OR REPLACE INTO {state} VALUES ({view}, {print}, 0)", state=self.target, view=self.view(v), print=text(self.print(v)))]

    def asked(self, session: Session, views: Sql) -> Rows:
        now = sql("(SELECT s.sql FROM {schema}.sqlite_master AS s WHERE s.type = {kind} AND s.name = k.view)", schema=name(self.dialect.schema), kind=text("view"))
        rest = "FROM {noted} AS k LEFT JOIN {noted} AS o ON o.view = k.view || {own} WHERE k.view IN ({views})"
        return session.rows("k.view, k.source, o.source, {now}", rest, noted=self.state, own=text(OF_VIEW), views=views, now=now)
