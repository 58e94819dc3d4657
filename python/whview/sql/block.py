"""What the statements of a block in PostgreSQL have in common, which counts in variables and carries out what has something to do."""

from __future__ import annotations

from collections.abc import Callable, Iterable, Mapping

from ..catalogue.views import Formula
from .engine import Engine
from .postgresql import PostgreSQL
from .tables import Part, Tables
from .terms import Terms
from .tokens import Sql, body, joined, name, sql, statements, text, word

# Rows are looked up by places and keys; by PostgreSQL's own reckoning of disks that turn it would rather go through whole tables.
LOOK_UPS = sql("SET LOCAL random_page_cost = {cost}", cost=text("1.1"))
# Of so many rows on, places are gone to one by one: each has to be gone to in any case, and PostgreSQL would rather read the whole table.
LARGE = 500
# What is refused, by which test, and with which words.
Refusal = tuple[Sql, str]


class InSixtyFourBits(PostgreSQL):
    """Formulas in numbers of 64 bits, which raise where one leaves them."""

    def number(self, number: int) -> Sql:
        return self.whole(number)

    def cell(self, column: Sql) -> Sql:
        return sql("{column}::bigint", column=column)

    def value_tests(self, formula: Formula, computed: Callable[[Formula], Sql]) -> list[Sql]:
        return []

    def kept(self, computed: Sql, tests: list[Sql]) -> Sql:
        return computed

    def summand(self, value: Sql) -> Sql:
        return value


def joins(**switches: str) -> Sql:
    """Ways to join that PostgreSQL may go, or may not if there is another."""
    return sql("PERFORM {set}", set=joined([sql("set_config({key}, {value}, TRUE)", key=text(f"enable_{kind}"), value=text(value))
                                            for kind, value in switches.items()]))


def counter(kind: str, v: int) -> Sql:
    """A variable of a view's."""
    return word(kind, v)


def many(test: Sql) -> Sql:
    """How many rows pass a test."""
    return sql("count(*) FILTER (WHERE {test})", test=test)


def once(statement: Sql) -> Sql:
    """A statement of a block as a text: it is read where it is carried out, and not before, and its plan is not kept."""
    return sql("EXECUTE {program}", program=body(statement))


def unless_large(made: list[Sql], otherwise: list[Sql]) -> Sql:
    """Statements, and what is done where a number in them leaves 64 bits."""
    return sql("BEGIN {made} EXCEPTION WHEN numeric_value_out_of_range THEN {otherwise} END", made=statements(made, 2),
               otherwise=statements(otherwise, 2))


def declared(kind: str, names: Iterable[str]) -> list[Sql]:
    """Variables of a kind of the server's."""
    return [sql(f"{{said}} pg_catalog.{kind}", said=word(said)) for said in names]


def changes_there(tables: Tables[Engine]) -> Sql:
    """Which base views have changes, asked at once."""
    base = tables.steps.base()
    tests = [sql("EXISTS (SELECT 1 FROM {changes} AS d)", changes=tables.changes(v)) for v in base]
    return sql("SELECT {tests} INTO {there}", tests=joined(tests), there=joined([counter("there", v) for v in base]))


def added_up_in(kind: str, v: int) -> Sql:
    """Where what is counted goes: a view's own variable, or one that all have in turn."""
    return word(kind) if kind in ("lost", "parts", "places") else counter(kind, v)


class Block(Part[PostgreSQL]):
    """The statements of a block, and the terms of its Comps: `exact`, and `fast`, in 64 bits."""

    def __init__(self, tables: Tables[PostgreSQL], exact: Terms, fast: Terms) -> None:
        super().__init__(tables)
        self.exact, self.fast = exact, fast

    def made(self, v: int, kind: str, columns: list[Sql]) -> Sql:
        """The statement that makes a working table."""
        return self.dialect.created(name(self.tables.working_name(v, kind)), columns)

    def then(self, test: Sql, made: list[Sql]) -> list[Sql]:
        return self.dialect.only_where(test, made) if made else []

    def refused_where(self, test: Sql, told: str) -> Sql:
        return self.dialect.where(test, self.dialect.raised(text(told)))

    def first_told(self, refusals: Iterable[Refusal]) -> Sql:
        """What is told by the first test that holds, if one does."""
        whens = [sql("WHEN {test} THEN {told}", test=test, told=text(told)) for test, told in refusals]
        return sql("CASE {whens} END", whens=joined(whens, ""))

    def analyzed(self, v: int) -> list[Sql]:
        """Statistics of one column tell how many rows a change has, which is what plans of joins go by: without them PostgreSQL supposes
        hundreds, and goes through whole tables for a few. Where a view adds it up in fewer columns, those of others tell how many there are then."""
        is_joined = any(v in view.over and not self.shape.is_direct(u) for u, view in enumerate(self.views))
        columns = joined([word("n"), *(self.tables.cells(v)[place] for place in sorted(self.told_apart(v)))])
        return [sql("ANALYZE {table} ({columns})", table=self.tables.working(v, "net"), columns=columns)] if is_joined else []

    def told_apart(self, v: int) -> set[int]:
        """The columns by which rows of a change are told apart where views add it up: a key's, or those by which it is joined."""
        key, found = set(self.tables.said_keys.get(v, ())), set[int]()
        for u, view in enumerate(self.views):
            for child in (child for child, below in enumerate(view.over) if below == v and self.shape.reads_less(u, child)):
                by = {spot.column for spots in self.shape.classes[u] for spot in spots if spot.child == child}
                found |= key & set(self.shape.columns_read(u, child)) or by
        return found

    def counted(self, v: int, change: Sql, judging: Mapping[str, Sql], before: Sql = sql("")) -> Sql:
        """A statement that counts the rows d of a change, and tells what is refused of them."""
        query = sql("{before} SELECT {numbers} FROM {change} AS d", before=before, numbers=joined(judging.values()), change=change)
        return sql("{query} INTO {into}", query=once(query), into=joined([added_up_in(kind, v) for kind in judging]))

    def in_64_bits(self, made: Callable[[Terms], Sql], sure: list[Sql]) -> Sql:
        """A statement that is tried in 64 bits, and what is done where a number leaves them."""
        return unless_large([made(self.fast)], sure)

    def in_64_bits_first(self, made: Callable[[Terms], Sql]) -> Sql:
        """A statement in 64 bits, or exactly where a number leaves them."""
        return self.in_64_bits(made, [made(self.exact)])
