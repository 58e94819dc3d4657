"""PostgreSQL 15 and later: a night is one block, which is undone as a whole where anything in it fails."""

from __future__ import annotations

from collections.abc import Callable, Iterable, Mapping, Sequence
from typing import TYPE_CHECKING

from ..catalogue.views import Formula
from .dialect import LEAST, MOST
from .engine import Engine, Working
from .formulas import both, nodes
from .plpgsql import created, raised, refuse_with, where
from .postgresql_checks import Checks
from .tokens import END_OF_STATEMENT, Sql, body, name, number, sql, statements, text, word
from .written import EscapingWriter

if TYPE_CHECKING:
    from .tables import Tables

LIMITS = sql("{least} AND {most}", least=sql("{n}::numeric", n=text(str(LEAST))), most=sql("{n}::numeric", n=text(str(MOST))))
VARIABLES = [sql("{name} pg_catalog.text", name=word(said)) for said in ("path", "finding", "collapsed", "merged", "nested")]
VARIABLES.append(sql("touched pg_catalog.int8"))
MANY_PAIRS = 12
# A block rests on these, whatever a session has set. No name is looked up but in the server's own schema, and tables that are not there among
# temporary ones: whoever may make functions or operators elsewhere would have them called in the place of the server's, where they fit better.
PATH = "pg_catalog, pg_temp"
SETTINGS = [
    sql("PERFORM pg_catalog.set_config({key}, {value}, TRUE)", key=text("search_path"), value=text(PATH)),
    sql("PERFORM set_config({rows}, {off}, TRUE), set_config({jit}, {off}, TRUE), set_config({nulls}, {on}, TRUE)", rows=text("row_security"),
        jit=text("jit"), nulls=text("array_nulls"), off=text("off"), on=text("on")),
]
# Of many equalities PostgreSQL supposes that hardly a row passes, and would go through changes that have no index again and again.
SEARCHES = (
    ("join_collapse_limit", "1", word("collapsed")),
    ("enable_mergejoin", "off", word("merged")),
    ("enable_nestloop", "off", word("nested")),
)
KEPT = [sql("{before} := current_setting({key})", key=text(key), before=before) for key, _, before in SEARCHES]
LIMITED = [sql("PERFORM set_config({key}, {value}, TRUE)", key=text(key), value=text(value)) for key, value, _ in SEARCHES]
UNLIMITED = [sql("PERFORM set_config({key}, {before}, TRUE)", key=text(key), before=before) for key, _, before in SEARCHES]
# How full, in hundredths, pages of rows are filled at first, and those of groups, most of which change: a row that changes finds room beside
# itself then, and its indexes stay as they are.
FILLED = {False: 90, True: 75}
# Each statement of a block is read where it is carried out; to read all of them beforehand takes a tenth of a small night. Trials do without.
UNREAD = sql("SET LOCAL check_function_bodies = off{end}", end=END_OF_STATEMENT)
ISOLATION = "the isolation is not READ COMMITTED: run the script outside of other transactions"


class PostgreSQL(Engine):
    """A night is one block; a row is told by its table and its place."""

    engine = "postgresql"
    own_schema = "public"
    temporary = word("pg_temp")
    limit = 63
    writer = EscapingWriter()
    kept_settings = KEPT
    own_columns = ("tableoid", "xmin", "cmin", "xmax", "cmax", "ctid")
    kinds = {"int": sql("bigint"), "text": sql("text")}
    declared = kinds
    free_number = sql("numeric")
    count_number = sql("bigint NOT NULL")
    id_kind, part_kind, place_kind = sql("bigint NOT NULL"), sql("oid"), sql("tid")
    holds_count = sql("{count} > 0", count=name("#"))
    head = [r"\set ON_ERROR_STOP on", r"\set ON_ERROR_ROLLBACK off", "SET client_encoding = 'UTF8';"]

    def checks(self, tables: Tables[Engine]) -> Checks:
        return Checks(tables)

    def room(self, is_summary: bool) -> Sql:
        return sql("WITH (fillfactor = {filled})", filled=number(FILLED[is_summary]))

    # ---- literals and expressions

    def text(self, said: str) -> Sql:
        return sql("{said}::text", said=text(said))

    def whole(self, number: int) -> Sql:
        return sql("{said}::bigint", said=text(str(number)))

    def number(self, number: int) -> Sql:
        return sql("{said}::numeric", said=text(str(number)))

    def cell(self, column: Sql) -> Sql:
        return sql("{column}::numeric", column=column)

    def read(self, column: Sql, kind: str) -> Sql:
        """A column of the user's, which may be of a narrower type."""
        return sql("{column}::text", column=column) if kind == "text" else column

    def read_count(self, column: Sql) -> Sql:
        return sql("{column}::bigint", column=column)

    def value_tests(self, formula: Formula, computed: Callable[[Formula], Sql]) -> list[Sql]:
        """That no step leaves 64 bits. It is computed in numeric, so that none raises."""
        return [sql("{node} BETWEEN {limits}", node=computed(node), limits=LIMITS) for node in nodes(formula)]

    def kept(self, computed: Sql, tests: list[Sql]) -> Sql:
        return sql("CASE WHEN {tests} THEN {computed} END", tests=both(tests), computed=computed)

    def summand(self, value: Sql) -> Sql:
        return sql("({value})::numeric", value=value)

    def is_lost(self, number: Sql) -> Sql:
        """Whether a number is no bigint."""
        return sql("NOT {number} BETWEEN {limits}", number=number, limits=LIMITS)

    # ---- statements of a block

    def raised(self, told: Sql) -> Sql:
        return raised(told)

    def where(self, test: Sql, statement: Sql) -> Sql:
        return where(test, statement)

    def refuse(self, told: str, query: Sql) -> list[Sql]:
        return [self.where(sql("EXISTS ({query})", query=query), self.raised(text(told)))]

    def refuse_with(self, query: Sql) -> list[Sql]:
        return refuse_with(query)

    def counted(self, told: str, made: list[Sql]) -> list[Sql]:
        """Statements that compute counts, with a word where one leaves 64 bits."""
        return [
            sql(
                "BEGIN {made} EXCEPTION WHEN numeric_value_out_of_range THEN {raised}{end} END",
                made=statements(made, 2), raised=self.raised(text(told)), end=END_OF_STATEMENT,
            )
        ]

    def only_where(self, test: Sql, made: list[Sql]) -> list[Sql]:
        """Statements that are carried out where a test holds."""
        return [sql("IF {test} THEN {made} END IF", test=test, made=statements(made, 2))]

    def planned(self, children: int, pairs: int, statement: Sql, told: str) -> list[Sql]:
        """The statement of a term. Where children are joined by many pairs they are joined in the order that is written, since a search
        for a better one takes longer than the night, and the plan is not kept."""
        if not self.is_wide(children, pairs):
            return self.counted(told, [statement])
        return [*LIMITED, *self.counted(told, [sql("EXECUTE {body}", body=body(statement))]), *UNLIMITED]

    def is_wide(self, children: int, pairs: int) -> bool:
        """Whether planning a term by PostgreSQL's own ways takes longer than carrying it out."""
        return children > 2 and pairs >= MANY_PAIRS

    def apart(self, children: int, pairs: int) -> Sql:
        """What keeps the adding up apart from the joins, whose equal columns it would be compared with one by one."""
        return sql("OFFSET 0") if self.is_wide(children, pairs) else sql("")

    def filled(self, table: Sql) -> list[Sql]:
        """What follows where a working table has been filled: without statistics nested loops may be planned."""
        return [sql("ANALYZE {table}", table=table)]

    # ---- rows, each told by its table and its place

    def at(self) -> Sql:
        return sql("t.tableoid = g.part AND t.ctid = g.place")

    def delete(self, said: str, gone: Sql) -> Sql:
        return sql("DELETE FROM {table} AS t USING ({gone}) AS g WHERE {at}", table=self.table(said), gone=gone, at=self.at())

    def update(self, said: str, sets: Sql, rows: Sql) -> Sql:
        return sql("UPDATE {table} AS t SET {sets} FROM ({rows}) AS g WHERE {at}", table=self.table(said), sets=sets, rows=rows, at=self.at())

    def copies(self, net: Sql) -> Sql:
        """Rows of a change beside the numbers up to their counts."""
        return sql("{net} AS d CROSS JOIN LATERAL generate_series(1::bigint, d.n) AS k", net=net)

    def index(self, said: str) -> Sql:
        return name(said)

    def indexed(self, said: str) -> Sql:
        return self.table(said)

    # ---- programs

    def created(self, table: Sql, columns: Iterable[Sql]) -> Sql:
        return created(table, columns)

    def block(self, made: Iterable[Sql], variables: Iterable[Sql] = VARIABLES) -> Sql:
        """Statements as one. A column's name means the column, also where PL/pgSQL has a variable of that name."""
        begun = sql("\n#variable_conflict use_column\nDECLARE{variables}\nBEGIN", variables=statements(variables, 1))
        program = sql("{begun}{made}\nEND{end}", begun=begun, made=statements([*SETTINGS, *self.kept_settings, *made], 1), end=END_OF_STATEMENT)
        return sql("DO {body}{end}", body=body(program), end=END_OF_STATEMENT)

    def program(self, checked: list[Sql], working: Iterable[Working], made: list[Sql], watchers: Mapping[str, Sql],
                variables: Iterable[Sql] = VARIABLES) -> list[Sql]:
        """A transaction of one block: what is checked, its working tables, and its statements."""
        isolated = sql("current_setting({key}) <> {wanted}", key=text("transaction_isolation"), wanted=text("read committed"))
        tables = [self.created(name(said), columns) for said, columns in working]
        block = self.block([self.where(isolated, self.raised(text(ISOLATION))), *checked, *tables, *made], variables)
        begin = sql("BEGIN ISOLATION LEVEL READ COMMITTED READ WRITE{end}", end=END_OF_STATEMENT)
        return [begin, UNREAD, block, sql("COMMIT{end}", end=END_OF_STATEMENT)]

    def failing(self, told: str) -> list[Sql]:
        """A script that raises, and nothing else."""
        raised = sql("\nBEGIN\n  {raised}{end}\nEND{end}", raised=self.raised(text(told)), end=END_OF_STATEMENT)
        return [sql("DO {raised}{end}", raised=body(raised), end=END_OF_STATEMENT)]

    def creation(self, made: Sequence[Sql]) -> list[Sql]:
        """A transaction that makes tables and indexes."""
        return [sql("BEGIN READ WRITE{end}", end=END_OF_STATEMENT), self.block(made), sql("COMMIT{end}", end=END_OF_STATEMENT)]

    def deferred(self) -> list[Sql]:
        """What may be wrong until the end, and no longer."""
        return [sql("SET CONSTRAINTS ALL DEFERRED")]

    def settled(self) -> list[Sql]:
        return [sql("SET CONSTRAINTS ALL IMMEDIATE")]
