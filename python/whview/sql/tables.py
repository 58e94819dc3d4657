"""The tables of a script, whatever is done with them: their names, columns and kinds, what of them is a key, and what is told of them."""

from __future__ import annotations

from collections.abc import Iterable, Mapping, Sequence
from copy import copy
from dataclasses import dataclass
from functools import cached_property
from typing import Generic, Protocol, TypeVar

from ..catalogue.parts import Warehouse
from ..catalogue.views import View
from .dialect import COUNT, Dialect
from .formulas import Formulas, both
from .keys import Keys
from .names import Names
from .shape import Shape, ShapeApart, Spot
from .steps import Steps, Term
from .tokens import Sql, joined, name, number, sql, word

WIDEST_INDEX = 32
# A column of a table, and what it gets.
Cell = tuple[Sql, Sql]


class Catalogued(Protocol):
    """What is known of a catalogue: its views, their definitions in words, and its text."""

    @property
    def views(self) -> Sequence[View]: ...
    @property
    def words(self) -> Warehouse: ...
    @property
    def content(self) -> str: ...


@dataclass(frozen=True, slots=True)
class Expected:
    """A table that a night wants: `base`, `derived` or `changes`; what it is called when it is told of, and in SQL; its columns with their kinds."""

    role: str
    told: str
    said: str
    columns: Sequence[tuple[str, str]]


E = TypeVar("E", bound=Dialect, covariant=True)


def assigned(cells: Iterable[Cell]) -> Sql:
    """What an UPDATE sets."""
    return joined([sql("{column} = {cell}", column=column, cell=cell) for column, cell in cells])


def inserted(table: Sql, cells: Sequence[Cell], rows: Sql) -> Sql:
    """A statement that puts rows."""
    columns, shown = (joined(each) for each in zip(*cells))
    return sql("INSERT INTO {table} ({columns}) SELECT {shown} FROM {rows}", table=table, columns=columns, shown=shown, rows=rows)


def is_other(pairs: Iterable[tuple[Sql, Sql]], first: int = 1) -> Sql:
    """Whether the column is another one, after than before, at the place to which a reference r goes; the first pair is that of a place."""
    whens = [sql("WHEN {place} THEN {old} <> {new}", place=number(at), old=old, new=new) for at, (old, new) in enumerate(pairs, first)]
    return sql("CASE r.place {whens} END", whens=joined(whens, ""))


class Tables(Generic[E]):
    """The tables of a catalogue in the names of an engine. `plain` has the base views whose tables have no column of counts, `keyed` of base views the
    places of a key that is said; `prefix` stands before all names."""

    def __init__(self, catalogue: Catalogued, dialect: E, plain: Iterable[int] = (), keyed: Mapping[int, Sequence[int]] | None = None,
                 prefix: str = "", steps: type[Steps] = Steps) -> None:
        self.catalogue, self.views, self.words, self.dialect = catalogue, catalogue.views, catalogue.words, dialect
        self.shape, self.steps, self.keyed, self.prefix = Shape(self.views, plain), steps(self.views), dict(keyed or {}), prefix
        # What stands for a table that is not as it should be, where a check says so.
        self.instead: dict[int, Sql] = {}
        self.names = Names(dialect, [prefix + view.name for view in self.views])
        for view in self.views:
            dialect.judge_table(view.name)
        self.columns = [Names(dialect, [said for said, _ in view.columns], dialect.own_columns) for view in self.views]
        self._cells: dict[tuple[int, str | None], tuple[Sql, ...]] = {}
        self._read: dict[tuple[int, str], tuple[Sql, ...]] = {}

    def apart(self) -> Tables[E]:
        """The same, where each change is computed first, and then put."""
        found = copy(self)
        found.shape = ShapeApart(self.views, self.shape.plain)
        return found

    # ---- names

    def said(self, v: int, suffix: str = "") -> str:
        """The name of a view's table, or of its changes."""
        return self.names.of(self.prefix + self.views[v].name, suffix)

    def table(self, v: int, suffix: str = "") -> Sql:
        """The table of a view or of its changes."""
        return self.instead[v] if v in self.instead and not suffix else self.dialect.table(self.said(v, suffix))

    def changes(self, v: int) -> Sql:
        """The table that a night reads a base view's changes from."""
        return self.table(v, "~changes")

    def own(self, suffix: str) -> Sql:
        """A table that is of no view, such as the history of nights."""
        return self.dialect.table(f"{self.prefix}{suffix}")

    def working_name(self, v: int, kind: str) -> str:
        return f"night~{kind}{v}"

    def working(self, v: int, kind: str) -> Sql:
        """A working table of a view's."""
        return self.dialect.working(self.working_name(v, kind))

    # ---- columns

    def users(self, v: int) -> list[Sql]:
        """The names of a view's columns in the user's table."""
        return [name(self.columns[v].of(said)) for said, _ in self.views[v].columns]

    def kinds(self, v: int) -> list[str]:
        return [kind for _, kind in self.views[v].columns]

    def is_text(self, v: int, place: int) -> bool:
        return self.kinds(v)[place] == "text"

    def cells(self, v: int, of: str | None = None) -> tuple[Sql, ...]:
        """The columns of a view's working tables."""
        if (v, of) not in self._cells:
            found = [word("c", place) for place in range(1, self.shape.width(v) + 1)]
            self._cells[v, of] = tuple(sql("{of}.{column}", of=word(of), column=column) if of else column for column in found)
        return self._cells[v, of]

    def read(self, v: int, of: str = "t") -> tuple[Sql, ...]:
        """The columns of a view's table, as they are read."""
        if (v, of) not in self._read:
            columns = zip(self.users(v), self.kinds(v))
            self._read[v, of] = tuple(self.dialect.read(sql("{of}.{column}", of=word(of), column=column), kind) for column, kind in columns)
        return self._read[v, of]

    def cells_put(self, v: int, of: str = "d") -> list[Cell]:
        """The columns of a view's table, each with the cell of a change that it gets; one of counts with how often the row counts."""
        count = [(COUNT, sql("{of}.n", of=word(of)))] if self.shape.is_counted(v) else []
        return [*zip(self.users(v), self.cells(v, of)), *count]

    def spot(self, term: Term, spot: Spot) -> Sql:
        """A column of a child of a term; the children stand as t1, t2, ..."""
        operand, of = term[spot.child], f"t{spot.child + 1}"
        return (self.cells(operand.view, of) if operand.is_change else self.read(operand.view, of))[spot.column]

    def summed_columns(self, v: int, letter: str, of: str | None = None) -> list[Sql]:
        """The columns of a group's count and sums in a working table."""
        found = [word(letter, place) for place in range(1, self.shape.sums(v) + 1)]
        return [sql("{of}.{column}", of=word(of), column=column) for column in found] if of else found

    def lost_column(self, v: int) -> list[Sql]:
        """Where a sum is over an output that may have no value, how many have none."""
        return [word("lost")] if self.shape.checked(v) else []

    def typed(self, v: int) -> list[Sql]:
        """The columns as they are declared."""
        return [
            sql("{column} {kind} NOT NULL", column=column, kind=self.dialect.declared[kind]) for column, kind in zip(self.users(v), self.kinds(v))
        ]

    def typed_cells(self, v: int, many: int | None = None) -> list[Sql]:
        """The columns of a working table with their kinds."""
        return [sql("{cell} {kind}", cell=cell, kind=self.dialect.kinds[kind]) for cell, kind in zip(self.cells(v)[:many], self.kinds(v))]

    def asked_for(self) -> list[dict[tuple[int, ...], bool]]:
        """Of each view the lists of columns by which another view is joined with it, each once."""
        found: list[dict[tuple[int, ...], bool]] = [{} for _ in self.views]
        for v, view in enumerate(self.views):
            for (u, _), columns in self.shape.partners(v).items():
                found[view.over[u]][tuple(sorted(columns)[:WIDEST_INDEX])] = True
        return found

    # ---- what is wanted of the tables

    @cached_property
    def said_keys(self) -> dict[int, tuple[int, ...]]:
        """The places of the key of each view that has one by the catalogue."""
        return Keys(self.catalogue, self.shape).found

    def expected(self) -> list[Expected]:
        """What tables a night wants."""
        found = []
        for v, view in enumerate(self.views):
            columns: list[tuple[str, str]] = [(self.columns[v].of(said), kind) for said, kind in view.columns]
            counted = [*columns, ("#", "count")]
            role, columns = "derived" if view.over else "base", counted if self.shape.is_counted(v) else columns
            found.append(Expected(role, view.name, self.said(v), columns))
        for v in self.steps.base():
            columns = [(self.columns[v].of(said), kind) for said, kind in self.views[v].columns]
            found.append(Expected("changes", f"{self.views[v].name}~changes", self.said(v, "~changes"), [*columns, ("#", "count")]))
        return found

    # ---- what is told of them

    def told_absent(self, v: int) -> str:
        return f"refused absent {self.views[v].name}"

    def told_large(self, v: int) -> str:
        return f"refused large {self.views[v].name}"

    def told_range(self, v: int) -> str:
        return f"refused range {self.views[v].name}"

    def told_unfit(self, v: int) -> str:
        return f"{self.told_large(v)}: a number does not fit its column"

    def told_touched(self, v: int) -> str:
        return f"refused torn {self.views[v].name}: a trigger or a foreign key changed rows of it that are in no change"

    def told_torn(self, v: int) -> str:
        return f"refused torn {self.views[v].name}: a trigger, a rule or another writer changed what was installed"

    def told_twice(self, v: int) -> str:
        return f"table {self.views[v].name} does not fit: a row stands in it twice, where each stands once with its count"

    def told_group_twice(self, v: int) -> str:
        return f"table {self.views[v].name} does not fit: a group stands in it twice"

    # ---- what a combined row shows

    def outputs(self, v: int, formulas: Formulas) -> list[Sql]:
        """What it is kept or grouped by, and what is summed."""
        view = self.views[v]
        if not self.shape.is_summary(v):
            return [formulas.value(formula) for formula in self.shape.kept(v)]
        return [*map(formulas.column, view.group), *(formulas.dialect.summand(formulas.value(formula)) for formula in view.sums)]

    def lost(self, v: int, formulas: Formulas) -> Sql:
        """1 where an output has no value."""
        tests = [test for formula in self.shape.checked(v) for test in formulas.tests(formula)]
        return sql("CASE WHEN {tests} THEN 0 ELSE 1 END", tests=both(tests)) if tests else number(0)


class Part(Generic[E]):
    """What each part of a script knows: the tables, and the words of their engine."""

    def __init__(self, tables: Tables[E]) -> None:
        self.tables, self.views, self.shape, self.steps, self.dialect = tables, tables.views, tables.shape, tables.steps, tables.dialect
