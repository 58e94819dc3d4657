"""Which rows did it, where a night over mirrors in PostgreSQL is refused: groups whose sums leave 64 bits with the rows that are added to them,
rows of a change that are not there, and values that are no numbers where views compute with them."""

from __future__ import annotations

from collections.abc import Callable, Mapping, Sequence

from ..culprits import SHOWN, Culprits
from ..dialect import MOST
from ..postgresql import PostgreSQL
from ..tables import Tables
from ..terms import Terms
from ..tokens import Sql, body, joined, number, sql, text, word
from .sources import Source
from .turned import FIRST, LAST

CAPTURED = "~captured"
STRANGE = "a value that is no number, or without end, with which views compute"


class CapturedCulprits(Culprits):
    """The statements that find these rows, which are carried out where a night is refused, and not else. `computed_with` has of base views the places of
    the numbers with which views compute."""

    def __init__(self, tables: Tables[PostgreSQL], terms: Terms, key: Callable[[int], Sequence[int] | None], computed_with: Mapping[int, Sequence[int]]) -> None:
        super().__init__(tables, terms, key)
        self.computed_with = computed_with

    # ---- what is no number

    def strange_numbers(self, v: int, cells: Sequence[Sql]) -> Sql:
        """A test for what stands for no number, or for what has no end, in a row of a base view, where views compute with it."""
        both_ends = joined([self.dialect.whole(LAST), self.dialect.whole(FIRST)])
        return joined([sql("{cell} IN ({ends})", cell=cells[place], ends=both_ends) for place in self.computed_with.get(v, ())], "OR")

    def strange_rows(self, v: int, rows: Sql, cells: Sequence[Sql], refused: str) -> Sql:
        """A query for what is told of such rows: a whole number may be as large as what stands for none."""
        whens = [
            sql("{cell} IN ({last}, {first}) AND EXISTS (SELECT 1 FROM {state} AS k JOIN pg_attribute AS a ON a.attrelid = k.source"
                " AND a.attname = {column} AND a.attnum > 0 AND NOT a.attisdropped AND a.atttypid <> {whole}::regtype WHERE k.view = {view})",
                cell=cells[place], last=self.dialect.whole(LAST), first=self.dialect.whole(FIRST), state=self.tables.own(CAPTURED), whole=text("bigint"),
                column=text(self.views[v].columns[place][0]), view=text(self.views[v].name))
            for place in self.computed_with.get(v, ())
        ]
        shown = sql("SELECT {said} AS said FROM {rows} WHERE {tests} LIMIT {most}", said=self.told_row(v, cells), rows=rows, tests=joined(whens, "OR"),
                    most=number(SHOWN))
        told = text(f"{refused}: {STRANGE}: ")
        return sql("SELECT concat({told}, string_agg(g.said, {comma})) FROM ({shown}) AS g HAVING count(*) > 0", told=told, comma=text("; "), shown=shown)

    def strange_refused(self, v: int, test: Sql, rows: Sql, cells: Sequence[Sql], refused: str | None = None) -> list[Sql]:
        """A refusal of such rows, which are looked for where a test holds."""
        if not self.computed_with.get(v):
            return []
        refused = refused or f"refused number {self.views[v].name}"
        query = sql("EXECUTE {query} INTO finding", query=body(self.strange_rows(v, rows, cells, refused)))
        refusal = self.dialect.where(sql("finding IS NOT NULL"), self.dialect.raised(word("finding")))
        return self.dialect.only_where(test, [query, refusal])

    def strange_in_mirrors(self) -> list[Sql]:
        """Refusals of such rows where views are filled: no night mends a mirror before that."""
        found = []
        for v in self.computed_with:
            read, table = self.tables.read(v), sql("{table} AS t", table=self.tables.table(v))
            test = sql("EXISTS (SELECT 1 FROM {table} WHERE {tests})", table=table, tests=self.strange_numbers(v, read))
            cure = f"refused number {self.views[v].name}: in its mirror, so mend the table, and then run --uncapture and --capture before --open"
            found += self.strange_refused(v, test, table, read, cure)
        return found

    def strange_in_source(self, v: int, source: Source) -> list[Sql]:
        """A refusal of such rows where a table is captured, so that none comes into its mirror."""
        if not self.computed_with.get(v):
            return []
        rows, cells = sql("{source} AS r", source=source.said), [column.said for column in source.columns]
        test = sql("EXISTS (SELECT 1 FROM {rows} WHERE {tests})", rows=rows, tests=self.strange_numbers(v, cells))
        return self.strange_refused(v, test, rows, cells, f"{self.views[v].name} cannot be captured")

    # ---- what is refused of a change

    def wrong_rows(self, v: int) -> Sql:
        """A query for the rows of a change that take away what is not there, or are too many."""
        row = self.told_row(v, self.tables.cells(v, "d"))
        return sql(
            "SELECT string_agg(g.said, {comma}) FROM (SELECT {row} AS said FROM {net} AS d WHERE d.n IS NULL OR d.n < - d.was OR d.n > 0 AND"
            " d.n > {most} - d.was LIMIT {shown}) AS g",
            comma=text("; "), row=row, net=self.tables.working(v, "net"), most=self.dialect.whole(MOST), shown=number(SHOWN),
        )
