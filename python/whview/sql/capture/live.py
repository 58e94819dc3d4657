"""What an engine is that captures tables: its words, its scripts over mirrors, its database as it is asked, and a session of it. An engine has a class
for each of these, and what the commands are given of it is one class more, in a module that the registry of engines names."""

from __future__ import annotations

from abc import ABC, abstractmethod
from argparse import Namespace
from collections.abc import Callable, Iterable, Mapping, Sequence
from typing import TYPE_CHECKING, ClassVar, Generic, Protocol, TypeVar

from ..engine import Engine
from ..tokens import Sql, Unfit

if TYPE_CHECKING:
    from ...catalogue.views import View
    from ..catalogue import Catalogue
    from ..shape import Shape
    from ..steps import Expression, Steps
    from ..stepwise import Comment
    from ..tables import Tables
    from ..terms import Terms
    from .access import CapturedAccess
    from .bounded import Ends
    from .database import Indexed, Rows, Standing, Table
    from .definitions import Planned
    from .existing import Existing, Strangers
    from .history import History
    from .noted import Noted
    from .sources import Source
    from .turned import Told, Turned, Unturned

T = TypeVar("T")


class LiveDialect(Engine):
    """The words of such an engine, beside those that every one has."""

    history_kinds: ClassVar[Mapping[str, Sql]]
    # When it is now: as it is kept, and in seconds, where a statement is told the time while it runs.
    moment: Sql
    now: Sql
    # Whether it computes exactly with numbers that have places; else it keeps so many digits of them.
    is_exact: ClassVar[bool]
    most_digits: ClassVar[int]

    @abstractmethod
    def turned(self, told: Told) -> Turned | Unturned:
        """How a column of the application's is turned, or why it is not."""

    @abstractmethod
    def bounds(self, told: Told) -> Ends:
        """The least and the largest number that a column may have, once it is turned."""

    @abstractmethod
    def computed(self, said: str, kind: str, shown: str, read: Sequence[Told]) -> Turned:
        """A column of a mirror that is computed from these of a row r."""

    @abstractmethod
    def plain(self, told: Told) -> Turned:
        """A column of the application's as it is, from which others are computed."""

    # ---- what is asked

    @abstractmethod
    def answered(self, columns: Sql) -> Sql:
        """Columns as a query lists them whose rows are told."""

    @abstractmethod
    def epoch(self, moment: Sql) -> Sql:
        """A moment that was kept, in seconds since 1970."""

    @abstractmethod
    def size(self, table: Sql, cells: Sequence[Sql]) -> Sql:
        """How many bytes a table has, with these cells of its rows t."""

    # ---- what is compared and put right

    @abstractmethod
    def typed(self, cell: Sql, kind: str) -> Sql:
        """A cell as it stands in a table."""

    @abstractmethod
    def exactly(self, cells: Sequence[Sql]) -> list[Sql]:
        """What has to be equal beside cells that compare as equal, where they are the same cells."""

    @abstractmethod
    def digest(self, cells: Sql) -> Sql:
        """The digest of rows d with these cells, in whatever order they come."""

    @abstractmethod
    def delete_like(self, table: Sql, rows: Sql, same: Sql) -> Sql:
        """The rows t of a table leave that are the same as one of these."""

    @abstractmethod
    def made_where_missing(self, table: Sql, columns: Sql) -> list[Sql]:
        """A table is made where it is not there."""


class LogAsked(Protocol):
    """The server's log, where tables are captured from it, as it is asked."""

    def beside_nights(self, ask: Callable[[], T]) -> T:
        """The answer of what asks the log in one snapshot."""

    def noted(self, is_kept: bool) -> list[Sql]:
        """What a snapshot sees of the log becomes changes, which stay where that is said."""

    def waiting(self, database: Database, queries: Sequence[Sql]) -> list[Rows]:
        """The answers of queries for what waits, with what waits in the log."""

    def kept(self) -> Sql:
        """A query for how many bytes of the log are kept, and how the server calls that."""


class LiveCaptures(Protocol):
    """What captures the tables of a script, as all ask it."""

    @property
    def state(self) -> Sql:
        """The table of what is captured."""

    def log_of(self, database: Database) -> LogAsked | None:
        """The log that tables of a database are captured from, if they are."""

    def refusals(self, sources: Mapping[int, Source]) -> list[Sql]:
        """Refusals of tables that are not captured as they were; whether rows changed unnoticed is not looked at."""

    def captured_in(self, database: Database) -> list[str]:
        """The names of the base views that are captured."""

    def marked_in(self, database: Database) -> list[str]:
        """The names of base views whose mirrors got their columns, and not their contents yet, since a capture was stopped."""

    def filled_in(self, database: Database) -> list[str]:
        """The names of the derived views that were filled, and perhaps of base ones."""


class LiveScript(Protocol):
    """The scripts over the mirrors of a catalogue."""

    @property
    def catalogue(self) -> Planned: ...
    @property
    def dialect(self) -> LiveDialect: ...
    @property
    def tables(self) -> Tables[LiveDialect]: ...
    @property
    def views(self) -> Sequence[View]: ...
    @property
    def shape(self) -> Shape: ...
    @property
    def steps(self) -> Steps: ...
    @property
    def access(self) -> CapturedAccess: ...
    @property
    def terms(self) -> Terms: ...
    @property
    def history(self) -> History: ...
    @property
    def captures(self) -> LiveCaptures: ...

    def noted(self) -> Noted:
        """What is noted of the derived views."""

    def night(self, strategy: Iterable[Expression], comment: Comment) -> list[Sql]:
        """The changes are carried out by a strategy."""

    def open(self, comment: Comment, chosen: Iterable[int] | None = None) -> list[Sql]:
        """The derived views are filled from the mirrors, or these of them and those over them."""


class Session(ABC):
    """A transaction of a database, whose statements follow from what the ones before answered. It is rolled back where it was not committed."""

    @abstractmethod
    def __enter__(self) -> Session: ...

    @abstractmethod
    def __exit__(self, *_: object) -> None: ...

    @property
    @abstractmethod
    def makes_tables(self) -> bool:
        """Whether it may keep rows in tables of its own."""

    @abstractmethod
    def locked(self, own: Sequence[Sql], sources: Sequence[Sql]) -> None:
        """From here on the tables stay what they are, and writers to the sources go on."""

    @abstractmethod
    def rows(self, columns: str, rest: str, **parts: Sql) -> Rows:
        """The rows of a query, whose columns and whose rest are templates."""

    @abstractmethod
    def carried_out(self, statements: Sequence[Sql]) -> None:
        """Statements one by one."""

    @abstractmethod
    def judged(self, statements: Sequence[Sql]) -> None:
        """Statements which may refuse what there is, and change nothing that stays."""

    @abstractmethod
    def noted(self, statements: Sequence[Sql]) -> None:
        """The same, which change what there is."""

    @abstractmethod
    def set_aside(self, said: str, rows: Sql) -> Sql | None:
        """The table of this transaction that has rows from here on, or None where a query has room for them as they are."""

    @abstractmethod
    def committed(self) -> None:
        """All that was done stays."""


class Database(Protocol):
    """An application's database, as it is asked."""

    @property
    def dialect(self) -> LiveDialect: ...
    @property
    def address(self) -> str: ...
    @property
    def own_schema(self) -> str: ...

    def rows(self, *queries: Sql) -> list[Rows]:
        """The rows of each query, whose columns are listed as its words answer them."""

    def put(self, lines: Sequence[Sql]) -> None:
        """Statements that write."""

    def tables(self, schema: str, names: Sequence[str] | None = None) -> dict[str, Table]:
        """The tables of a schema, by their names."""

    def views(self, schema: str) -> dict[str, str]:
        """The views of a schema with their texts, by their names."""

    def is_there(self, table: Sql) -> bool:
        """Whether a table of the nights is there."""

    def standing_columns(self, names: Sequence[str]) -> list[Standing]:
        """The columns of these of the nights' tables."""

    def standing_indexes(self, names: Sequence[str]) -> list[Indexed]:
        """The columns of the indexes of these of the nights' tables."""

    def session(self, is_writing: bool, is_noting: bool = False) -> Session:
        """A transaction of it."""

    def rolled_back(self, lines: Sequence[Sql], asked: Sequence[Sql]) -> list[Rows]:
        """The answers of queries behind statements, which are rolled back."""


S = TypeVar("S", bound=LiveScript)


class Live(ABC, Generic[S]):
    """What the commands are given of an engine: the scripts of the words over catalogues, the database that the words name, and what captures there."""

    def __init__(self, words: Namespace) -> None:
        self.words = words

    def judge_words(self) -> None:
        """Refuses words that do not go with this engine, or not together."""
        if self.words.role or self.words.without_role:
            raise Unfit("--role and --without-role go with `capture` and --engine postgresql")
        if self.words.from_log:
            raise Unfit("--from-log goes with --engine postgresql")

    @abstractmethod
    def script(self, catalogue: Catalogue) -> S:
        """The scripts over mirrors, in a schema of their own, or with its word before their names."""

    def kept_way(self, catalogue: Catalogue) -> S:
        """The scripts that capture and let go: what is captured in one way stays so until it is let go."""
        return self.script(catalogue)

    @abstractmethod
    def database(self, script: S | None = None) -> Database:
        """The database that is asked."""

    def schema(self, script: S) -> str:
        """The schema of the tables that are captured."""
        return self.database(script).own_schema

    # ---- what captures

    def takes_some(self, script: S) -> bool:
        """Whether tables may be captured some and some."""
        return True

    def identified(self, script: S, schema: str, sources: dict[int, Source], left_out: Sequence[str]) -> dict[int, Source]:
        """The tables that are captured, with what tells their rows. Those of these names are captured too, and not in the catalogue."""
        return sources

    @abstractmethod
    def captured(self, script: S, existing: Existing, sources: dict[int, Source]) -> list[Sql]:
        """The statements that capture these tables: those that stand with other columns get theirs first, and keep what they have."""

    @abstractmethod
    def uncaptured(self, script: S) -> list[Sql]:
        """The statements that let all captures go."""

    @abstractmethod
    def let_go(self, script: S, names: Strangers) -> list[Sql]:
        """The statements that let go what has these names."""

    # ---- nights

    def before_night(self, script: S) -> None:
        """What a script of a night is told of the database."""

    def carried(self, script: S, made: list[Sql]) -> list[Sql]:
        """A night, with what stands round it."""
        return made
