"""SQLite 3.39 and later: a night is one statement, which fires a temporary trigger, and is undone as a whole where anything in it fails."""

from __future__ import annotations

from collections.abc import Callable, Iterable, Mapping, Sequence
from typing import TYPE_CHECKING

from ..catalogue.views import Formula
from .engine import Engine, StepwiseEngine, Working
from .sqlite_checks import Checks
from .tokens import END_OF_STATEMENT, Sql, Unfit, joined, name
from .tokens import number as sql_number
from .tokens import sql, statements, text, word

if TYPE_CHECKING:
    from .tables import Tables

HALF = 2**32
# The high half of a product may have 2^39 at most, so that only sums of 2^24 of them could leave 64 bits.
ROOM = 2**24
INTEGER = text("integer")
# What is left of SQLite's limits beside the statements round a formula.
DEEPEST_TEST, MOST_HELD = 900, 66
JUDGED, LOOKED, NIGHT = "night~judged", "night~looked", "night~"
UNJUDGED = "the tables were not judged: run the script from its beginning"


class SQLite(StepwiseEngine):
    """Integers that leave 64 bits turn into reals there, and what is made of a real never turns back into an integer."""

    engine = "sqlite"
    own_schema = "main"
    temporary = word("temp")
    folds = True
    own_columns = ("_rowid_",)
    kinds = {"int": sql("INTEGER"), "text": sql("TEXT")}
    declared = kinds
    # Without a type a number stays what it was computed as; a column of integers would turn a real back.
    free_number = sql("")
    count_number = sql("NOT NULL")
    id_kind, part_kind, place_kind = sql("INTEGER PRIMARY KEY"), sql("INTEGER"), sql("INTEGER")
    holds_count = sql("{count} > 0 AND typeof({count}) = {integer}", count=name("#"), integer=INTEGER)
    head = []

    def checks(self, tables: Tables[Engine]) -> Checks:
        return Checks(tables)

    def judge_table(self, said: str) -> None:
        """Refuses a name that SQLite or a trigger has for itself."""
        if said.lower().startswith("sqlite_") or said.lower() in ("new", "old"):
            raise Unfit(f"SQLite has the name {said} for itself: give the view another one")

    def judge_test(self, deep: int) -> None:
        if deep > DEEPEST_TEST:
            raise Unfit(f"a predicate is {deep} operators deep, and SQLite takes 1000 (SQLITE_MAX_EXPR_DEPTH): part it into two views")

    def judge_expression(self, held: int) -> None:
        if held > MOST_HELD:
            raise Unfit("an expression nests too deep for SQLite's parser, whose stack has 100 places (YYSTACKDEPTH): part it in two")

    # ---- literals and expressions

    def text(self, said: str) -> Sql:
        """A text; the lines of a script end where its statements do, so that a line's end in it is a number."""
        whole, found, rest = text(said), [], said
        while (at := next((at for at, letter in enumerate(rest) if letter < " "), None)) is not None:
            found += [text(rest[:at]), sql("char({code})", code=sql_number(ord(rest[at])))]
            rest = rest[at + 1 :]
        return sql("({parts})", parts=joined([*found, text(rest)], "||")) if found else whole

    def whole(self, number: int) -> Sql:
        return sql_number(number)

    def number(self, number: int) -> Sql:
        return sql_number(number)

    def cell(self, column: Sql) -> Sql:
        return column

    def read_count(self, column: Sql) -> Sql:
        return column

    def value_tests(self, formula: Formula, computed: Callable[[Formula], Sql]) -> list[Sql]:
        return [sql("typeof({computed}) = {integer}", computed=computed(formula), integer=INTEGER)]

    def kept(self, computed: Sql, tests: list[Sql]) -> Sql:
        return computed

    def summand(self, value: Sql) -> Sql:
        return value

    def is_lost(self, said: Sql) -> Sql:
        return sql("typeof({number}) <> {integer}", number=said, integer=INTEGER)

    def inexact(self, columns: Sequence[Sql]) -> list[Sql]:
        """Tests for sums of what turned into reals."""
        return [self.is_lost(column) for column in columns]

    # ---- sums, which SQLite refuses where they leave 64 bits on the way: those of halves do not

    def halves(self, said: Sql) -> list[Sql]:
        """Both have the number's sign. The high half of a real is a real."""
        return [sql("{said} / {half}", said=said, half=sql_number(HALF)), sql("{said} % {half}", said=said, half=sql_number(HALF))]

    def times(self, count: Sql, said: Sql) -> list[Sql]:
        """A product may leave 64 bits by a byte; one that is larger turns into a real."""
        high, low = (sql("{count} * ({half})", count=count, half=half) for half in self.halves(said))
        half, room = sql_number(HALF), sql_number(ROOM)
        first = sql("({high} + {low} / {half}) * {room} / {room}", high=high, low=low, half=half, room=room)
        return [first, sql("{low} % {half}", low=low, half=half)]

    def parts(self, place: int) -> list[Sql]:
        return [word("s", place), word("l", place)]

    def whole_of(self, halves: Sequence[Sql]) -> Sql:
        """The low half is brought between 0 and 2^32, so that nothing leaves 64 bits, and turns into a real, but what is joined."""
        high, low = halves
        return sql("(({high} + ({low} >> 32)) * {half} + ({low} & {most}))", high=high, low=low, half=sql_number(HALF), most=sql_number(HALF - 1))

    # ---- statements of a trigger

    def refuse(self, told: str, query: Sql) -> list[Sql]:
        """All of the transaction is undone, and a client that goes on finds nothing to commit."""
        return [sql("SELECT RAISE(ROLLBACK, {told}) WHERE EXISTS ({query})", told=text(told), query=query)]

    def counted(self, told: str, made: list[Sql]) -> list[Sql]:
        return made

    def exact(self, told: str, query: Sql) -> list[Sql]:
        return self.refuse(told, query)

    def only_where(self, test: Sql, made: list[Sql]) -> list[Sql]:
        """The statements find nothing where there is nothing to do."""
        return made

    def touched(self, told: str, count: Sql) -> list[Sql]:
        return [sql("SELECT RAISE(ROLLBACK, {told}) WHERE changes() <> ({count})", told=text(told), count=count)]

    def filled(self, table: Sql) -> list[Sql]:
        return []

    def planned(self, children: int, pairs: int, statement: Sql, told: str) -> list[Sql]:
        return [statement]

    def apart(self, children: int, pairs: int) -> Sql:
        return sql("")

    def skipped(self, changes: list[Sql], made: list[Sql]) -> list[Sql]:
        return made

    def filling(self, table: Sql) -> Sql:
        """A table that a statement of a trigger fills, which has no schema: temporary tables are found first."""
        return Sql(table.tokens[-1:])

    def wrong_cells(self, cells: Iterable[Sql], kinds: Iterable[str], count: Sql) -> Sql | None:
        """A test for cells that are of another kind than their columns."""
        wanted = [*zip(cells, (text("integer" if kind == "int" else "text") for kind in kinds)), (count, INTEGER)]
        return joined([sql("typeof({cell}) <> {kind}", cell=cell, kind=kind) for cell, kind in wanted], "OR")

    # ---- rows, each told by its place

    def here(self, of: Sql) -> Sql:
        return sql("0, {of}._rowid_", of=of)

    def target(self, said: str) -> Sql:
        return name(said)

    def delete(self, said: str, gone: Sql) -> Sql:
        return sql("DELETE FROM {table} WHERE _rowid_ IN (SELECT g.place FROM ({gone}) AS g)", table=name(said), gone=gone)

    def update(self, said: str, sets: Sql, rows: Sql) -> Sql:
        return sql("UPDATE {table} SET {sets} FROM ({rows}) AS g WHERE {table}._rowid_ = g.place", table=name(said), sets=sets, rows=rows)

    def copies(self, net: Sql) -> Sql:
        """Rows of a change beside the numbers up to their counts."""
        return sql(
            "{net} AS d JOIN (WITH RECURSIVE copies (k) AS (SELECT 1 UNION ALL SELECT c.k + 1 FROM copies AS c WHERE c.k <"
            " (SELECT max(d.n) FROM {net} AS d)) SELECT c.k AS k FROM copies AS c) AS k ON k.k <= d.n",
            net=net,
        )

    def found_in(self, operand: Sql, test: Sql) -> Sql:
        """Rows that are looked up one by one: tables are gone through in the order that they are written in."""
        return sql("CROSS JOIN {operand} ON {test}", operand=operand, test=test)

    def index(self, said: str) -> Sql:
        return sql("{schema}.{index}", schema=name(self.schema), index=name(said))

    def indexed(self, said: str) -> Sql:
        return name(said)

    # ---- programs

    def fired(self, said: str, made: Sequence[Sql]) -> list[Sql]:
        """Statements as one: a trigger, and what fires it."""
        table, body = name(said), statements(made, 1)
        trigger = "CREATE TEMPORARY TRIGGER {table} AFTER INSERT ON {table} BEGIN{body}\nEND{end}"
        return [
            sql(trigger, table=table, body=body, end=END_OF_STATEMENT),
            sql("INSERT INTO {table} VALUES (1){end}", table=self.working(said), end=END_OF_STATEMENT),
        ]

    def program(self, checked: list[Sql], working: Iterable[Working], made: list[Sql], watchers: Mapping[str, Sql], looked: Sequence[Sql] = (),
                shown: Iterable[Sql] = ()) -> list[Sql]:
        """A transaction between the making of its working tables and their going: a judgement, so that columns are there which the night
        names, more that is looked at, with what is printed of it, and the night, which does nothing where the judgement did not end well."""
        fired = (JUDGED, *([LOOKED] if looked else []), NIGHT)
        tables = [(self.working(said), columns) for said, columns in [*working, *((said, [sql("begun")]) for said in fired)]]
        gone = [self.dropped("TRIGGER", self.working(said)) for said in watchers]
        gone += [self.dropped("TABLE", table) for table, _ in tables]
        judged = sql("SELECT RAISE(ROLLBACK, {told}) WHERE NOT EXISTS (SELECT 1 FROM {table})", told=text(UNJUDGED), table=self.working(JUDGED))
        return [
            sql("BEGIN IMMEDIATE{end}", end=END_OF_STATEMENT),
            *gone,
            *(sql("CREATE TABLE {table} ({columns}){end}", table=table, columns=joined(columns), end=END_OF_STATEMENT) for table, columns in tables),
            *self.fired(JUDGED, checked),
            *(self.fired(LOOKED, looked) if looked else []),
            *(sql("{query}{end}", query=query, end=END_OF_STATEMENT) for query in shown),
            *(
                sql("CREATE TEMPORARY TRIGGER {said} {watcher}{end}", said=name(said), watcher=watcher, end=END_OF_STATEMENT)
                for said, watcher in watchers.items()
            ),
            *self.fired(NIGHT, [judged, *made]),
            *gone,
            sql("COMMIT{end}", end=END_OF_STATEMENT),
        ]

    def dropped(self, kind: str, said: Sql) -> Sql:
        return sql("DROP {kind} IF EXISTS {said}{end}", kind=word(kind), said=said, end=END_OF_STATEMENT)

    def failing(self, told: str) -> list[Sql]:
        """A script that raises, and nothing else."""
        made = sql("CREATE TABLE {table} (begun){end}", table=self.working(NIGHT), end=END_OF_STATEMENT)
        return [made, *self.fired(NIGHT, [sql("SELECT RAISE(ROLLBACK, {told})", told=text(told))])]

    def creation(self, made: list[Sql]) -> list[Sql]:
        """A transaction that makes tables and indexes."""
        lines = [sql("{made}{end}", made=each, end=END_OF_STATEMENT) for each in made]
        return [sql("BEGIN IMMEDIATE{end}", end=END_OF_STATEMENT), *lines, sql("COMMIT{end}", end=END_OF_STATEMENT)]

    def deferred(self) -> list[Sql]:
        return []

    def settled(self) -> list[Sql]:
        """SQLite looks at foreign keys where a statement ends, and a night is one."""
        return []
