"""An engine that carries out a night in one transaction: one module with one class of these functions."""

from __future__ import annotations

from abc import abstractmethod
from collections.abc import Iterable, Mapping
from typing import TYPE_CHECKING, ClassVar

from .dialect import Dialect
from .tokens import Sql, sql, word

if TYPE_CHECKING:
    from .checks import Checks
    from .tables import Tables

# A working table's name, and its columns.
Working = tuple[str, "list[Sql]"]


class Engine(Dialect):
    """An engine: its sums, refusals, changes of rows and transactions."""

    # The kinds of working tables' columns: sums, counts, the number of a row, and where it stands; and the test for a count of a table.
    free_number: ClassVar[Sql]
    count_number: ClassVar[Sql]
    id_kind: ClassVar[Sql]
    part_kind: ClassVar[Sql]
    place_kind: ClassVar[Sql]
    holds_count: ClassVar[Sql]

    def room(self, is_summary: bool) -> Sql:
        """How much room a table has for rows that change."""
        return sql("")

    # ---- columns

    @abstractmethod
    def read_count(self, column: Sql) -> Sql:
        """A column of counts."""

    # ---- sums: an engine that does not add up exactly keeps one in halves, each of which adds up by itself

    def halves(self, number: Sql) -> list[Sql]:
        return [number]

    def times(self, count: Sql, number: Sql) -> list[Sql]:
        """The halves of a product."""
        return self.halves(sql("{count} * {number}", count=count, number=number))

    def parts(self, place: int) -> list[Sql]:
        """The columns that the halves of a sum stand in."""
        return [word("s", place)]

    def whole_of(self, halves: list[Sql]) -> Sql:
        """The number that halves make; where it leaves 64 bits, it is lost."""
        return halves[0]

    @abstractmethod
    def is_lost(self, number: Sql) -> Sql:
        """Whether a number is none of 64 bits."""

    # ---- statements of a night

    @abstractmethod
    def refuse(self, told: str, query: Sql) -> list[Sql]:
        """A refusal where a query finds a row."""

    @abstractmethod
    def counted(self, told: str, made: list[Sql]) -> list[Sql]:
        """Statements that compute counts, with a word where one leaves 64 bits."""

    @abstractmethod
    def only_where(self, test: Sql, made: list[Sql]) -> list[Sql]:
        """Statements that are carried out where a test holds."""

    @abstractmethod
    def planned(self, children: int, pairs: int, statement: Sql, told: str) -> list[Sql]:
        """The statement of a term whose children are joined by so many pairs of columns."""

    @abstractmethod
    def apart(self, children: int, pairs: int) -> Sql:
        """What keeps the adding up apart from such joins."""

    def filling(self, table: Sql) -> Sql:
        """A table that a statement fills."""
        return table

    @abstractmethod
    def filled(self, table: Sql) -> list[Sql]:
        """What follows where a working table has been filled."""

    # ---- rows, each told by its table and its place

    def target(self, said: str) -> Sql:
        """A table of which rows are changed."""
        return self.table(said)

    @abstractmethod
    def delete(self, said: str, gone: Sql) -> Sql:
        """The rows at the places that a query gives leave."""

    @abstractmethod
    def update(self, said: str, sets: Sql, rows: Sql) -> Sql:
        """The rows at the places that a query gives change."""

    @abstractmethod
    def copies(self, net: Sql) -> Sql:
        """Rows of a change beside the numbers up to their counts."""

    @abstractmethod
    def index(self, said: str) -> Sql:
        """The name of an index that is made."""

    @abstractmethod
    def indexed(self, said: str) -> Sql:
        """The table over which it is made."""

    # ---- programs

    @abstractmethod
    def program(self, checked: list[Sql], working: Iterable[Working], made: list[Sql], watchers: Mapping[str, Sql]) -> list[Sql]:
        """A transaction: what is checked, its working tables, its statements, and triggers that count what is touched."""

    @abstractmethod
    def creation(self, made: list[Sql]) -> list[Sql]:
        """A transaction that makes tables and indexes."""

    @abstractmethod
    def failing(self, told: str) -> list[Sql]:
        """A script that raises, and nothing else."""

    @abstractmethod
    def deferred(self) -> list[Sql]:
        """What may be wrong until the end, and no longer."""

    @abstractmethod
    def settled(self) -> list[Sql]:
        """What was put off is judged."""


class StepwiseEngine(Engine):
    """An engine whose nights are a statement for each thing that is done."""

    @abstractmethod
    def checks(self, tables: Tables[Engine]) -> Checks:
        """What is asked of the server about these tables."""

    @abstractmethod
    def wrong_cells(self, cells: Iterable[Sql], kinds: Iterable[str], count: Sql) -> Sql | None:
        """A test for cells that are of another kind than their columns, where an engine keeps such."""

    @abstractmethod
    def inexact(self, columns: list[Sql]) -> list[Sql]:
        """Tests for sums that are not exact."""

    @abstractmethod
    def exact(self, told: str, query: Sql) -> list[Sql]:
        """A refusal of what left 64 bits, where the engine did not say so."""

    @abstractmethod
    def touched(self, told: str, count: Sql) -> list[Sql]:
        """A refusal where the statement before did not touch as many rows as a query says."""

    @abstractmethod
    def skipped(self, changes: list[Sql], made: list[Sql]) -> list[Sql]:
        """Statements of a term that are left out where a change is empty."""

    @abstractmethod
    def here(self, of: Sql) -> Sql:
        """The table and the place of a row."""

    @abstractmethod
    def found_in(self, operand: Sql, test: Sql) -> Sql:
        """Rows that are looked up in a table."""
