"""Comps in PostgreSQL that compute no more than changes ask for: terms whose changes have rows, in numbers of 64 bits where none leaves them."""

from __future__ import annotations

from .block import Block, counter, once
from .comps import Ranges, added_by_term, comp_tables
from .dialect import summed
from .postgresql import PostgreSQL
from .steps import Comp, Term
from .tables import Part, Tables
from .terms import Terms
from .tokens import Sql, body, joined, name, sql, word


class BlockComps(Part[PostgreSQL]):
    """The statements of Comps, in a block that counts in variables. Working tables are made where they are filled."""

    def __init__(self, tables: Tables[PostgreSQL], block: Block, ranges: Ranges) -> None:
        super().__init__(tables)
        self.block, self.ranges = block, ranges

    # ---- terms

    def comp(self, step: Comp) -> list[Sql]:
        """The terms whose changes have rows."""
        v, found = step.view, list[Sql]()
        for term in step.terms:
            made = [*self.computed_term(v, term), *self.added_to(v)]
            tests = [sql("{rows} > 0", rows=counter("rows", operand.view)) for operand in term if operand.is_change]
            found += self.block.then(joined(tests, "AND"), made) if tests else made
        return [*found, *self.computed_right(v)]

    def computed_term(self, v: int, term: Term) -> list[Sql]:
        """A term in numbers of 64 bits; where one leaves them, exactly, with the words for what does."""
        exact, told = self.block.exact, self.tables.told_large(v)
        pairs = exact.pairs(v, term)
        if self.dialect.is_wide(len(term), pairs):
            return [*self.pending_made(v), *self.dialect.planned(len(term), pairs, self.term_statement(exact, v, term), told), sql("lost := 1")]
        tried = self.block.in_64_bits(lambda terms: self.put(terms, v, term), [*self.dialect.counted(told, [self.put(exact, v, term)]), sql("lost := 1")])
        return [*(self.pending_made(v) if self.shape.is_summary(v) else []), tried]

    def put(self, terms: Terms, v: int, term: Term) -> Sql:
        return once(self.term_statement(terms, v, term)) if self.shape.is_summary(v) else self.put_pending(terms, v, term)

    def put_pending(self, terms: Terms, v: int, term: Term) -> Sql:
        """A statement that keeps the combined rows of a joined view as they are, since all are added up once in any case; in a table that the first
        term makes."""
        kinds, table = self.dialect.kinds, self.tables.working(v, "pending")
        cells = [sql("r.{cell}::{kind} AS {cell}", cell=cell, kind=kinds[kind]) for cell, kind in zip(self.tables.cells(v), self.tables.kinds(v))]
        return sql(
            "EXECUTE concat(CASE WHEN {made} IS NULL THEN {create} ELSE {insert} END, {query})", made=counter("made", v),
            create=body(sql("CREATE TEMPORARY TABLE {table} ON COMMIT DROP AS", table=name(self.tables.working_name(v, "pending")))),
            insert=body(sql("INSERT INTO {table}", table=table)),
            query=body(sql("SELECT {cells}, r.n AS s1, r.lost FROM ({term}) AS r", cells=joined(cells), term=terms.term(v, term))),
        )

    def term_statement(self, terms: Terms, v: int, term: Term) -> Sql:
        """Of a joined view each combined row is kept as it is, since all are added up once in any case."""
        if self.shape.is_summary(v):
            return added_by_term(terms, v, term)
        return sql(
            "INSERT INTO {pending} ({cells}, s1, lost) SELECT {shown}, r.n, r.lost FROM ({term}) AS r", pending=self.tables.working(v, "pending"),
            cells=joined(self.tables.cells(v)), shown=joined(self.tables.cells(v, "r")), term=terms.term(v, term),
        )

    def pending_made(self, v: int) -> list[Sql]:
        """The table of what is computed; how often a row of a joined view counts has 64 bits."""
        (kind, columns), *_ = comp_tables(self.tables, v)
        if not self.shape.is_summary(v):
            columns = [*self.tables.typed_cells(v), *map(sql, ("s1 bigint", "lost bigint"))]
        return self.block.then(sql("{made} IS NULL", made=counter("made", v)),
                               [self.block.made(v, kind, columns), sql("{made} := 0", made=counter("made", v))])

    def added_to(self, v: int) -> list[Sql]:
        return [sql("GET DIAGNOSTICS touched = ROW_COUNT"), sql("{made} := coalesce({made}, 0) + touched", made=counter("made", v))]

    def computed_right(self, v: int) -> list[Sql]:
        """A refusal of an output without a value: there is none where all was computed in 64 bits."""
        if not self.shape.checked(v):
            return []
        there = sql("SELECT 1 FROM {pending} AS d WHERE d.lost > 0", pending=self.tables.working(v, "pending"))
        return self.block.then(sql("lost > 0"), [*self.ranges.refused(v, there), sql("lost := 0")])


class GroupSums(Part[PostgreSQL]):
    """What is added to the groups of a summary, as queries."""

    def grouped(self, v: int, numbers: list[Sql], rows: Sql) -> Sql:
        """Groups with what is added to their sums, where that is anything."""
        cells = self.tables.cells(v, "r")[: self.shape.groups(v)]
        lost = [sql("sum(r.{lost})", lost=each) for each in self.tables.lost_column(v)]
        changed = [sql("{each} <> 0", each=each) for each in summed(numbers)] + [sql("{each} > 0", each=each) for each in lost]
        return sql(
            "SELECT {shown} FROM {rows} {grouped} HAVING {changed}", shown=joined([*cells, *summed(numbers), *lost]), rows=rows,
            grouped=sql("GROUP BY {cells}", cells=joined(cells)) if cells else sql(""), changed=joined(changed, "OR"),
        )

    def of_term(self, terms: Terms, v: int, term: Term) -> Sql:
        """What a term adds to each group."""
        numbers = [sql("r.n"), *(sql("r.n * r.{sum}", sum=word("s", at)) for at in range(2, self.shape.sums(v) + 1))]
        return self.grouped(v, numbers, sql("({term}) AS r", term=terms.term(v, term)))

    def of_pending(self, v: int) -> Sql:
        """What all terms together add to each group."""
        return self.grouped(v, self.tables.summed_columns(v, "s", "r"), sql("{pending} AS r", pending=self.tables.working(v, "pending")))

    def of(self, terms: Terms, v: int) -> Sql:
        """What its Comps add to each group: of a view over one other its change, and else what they made."""
        if not self.shape.is_direct(v):
            return self.of_pending(v)
        (term,) = self.steps.terms(v, self.views[v].over)
        return self.of_term(terms, v, term)
