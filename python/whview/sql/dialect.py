"""What an engine says in its own words: its names, its literals and how it computes."""

from __future__ import annotations

from abc import ABC, abstractmethod
from collections.abc import Callable, Iterable, Sequence
from typing import ClassVar

from ..catalogue.views import Formula
from .tokens import Sql, name, sql
from .written import Writer

LEAST, MOST = -(2**63), 2**63 - 1
COUNT = name("#")


def summed(numbers: Iterable[Sql]) -> list[Sql]:
    return [sql("sum({each})", each=each) for each in numbers]


class Arithmetic(ABC):
    """How an engine computes the formulas of a catalogue."""

    # ---- what an engine does not take, of which it says so; PostgreSQL takes all that the formats do

    def judge_test(self, deep: int) -> None:
        """Refuses a predicate of so many operators within each other."""

    def judge_expression(self, held: int) -> None:
        """Refuses an expression of whose beginning so many tokens are remembered."""

    # ---- literals and expressions

    @abstractmethod
    def text(self, said: str) -> Sql:
        """A text."""

    @abstractmethod
    def whole(self, number: int) -> Sql:
        """A number as it stands in a column."""

    @abstractmethod
    def number(self, number: int) -> Sql:
        """A number that is computed with."""

    @abstractmethod
    def cell(self, column: Sql) -> Sql:
        """A column that is computed with."""

    @abstractmethod
    def value_tests(self, formula: Formula, computed: Callable[[Formula], Sql]) -> list[Sql]:
        """What holds where no step of an expression leaves 64 bits."""

    @abstractmethod
    def kept(self, computed: Sql, tests: list[Sql]) -> Sql:
        """An expression, without a value where a test does not hold."""

    @abstractmethod
    def summand(self, value: Sql) -> Sql:
        """A number that is added up."""


class Dialect(Arithmetic):
    """An engine's names and literals."""

    engine: ClassVar[str]
    own_schema: ClassVar[str]
    temporary: ClassVar[Sql]
    limit: int | None = None
    folds: bool = False
    writer: ClassVar[Writer] = Writer()
    own_columns: ClassVar[Sequence[str]] = ()
    kinds: ClassVar[dict[str, Sql]]
    declared: ClassVar[dict[str, Sql]]
    head: ClassVar[list[str]]

    def __init__(self, schema: str | None = None) -> None:
        self.schema = schema or self.own_schema

    def written(self, lines: Iterable[Sql]) -> list[str]:
        """Each line of a script as its text."""
        return [self.writer.written(each) for each in lines]

    def table(self, said: str) -> Sql:
        """A table that stays."""
        return sql("{schema}.{table}", schema=name(self.schema), table=name(said))

    def working(self, said: str) -> Sql:
        """A table that passes with the night."""
        return sql("{schema}.{table}", schema=self.temporary, table=name(said))

    def judge_table(self, said: str) -> None:
        """Refuses a name that the engine has for itself."""

    def read(self, column: Sql, kind: str) -> Sql:
        """A column of the user's, which may be of a narrower type."""
        return column
