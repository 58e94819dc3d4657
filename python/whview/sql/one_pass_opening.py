"""Opening over tables of one's own in PostgreSQL: each derived view is filled by one statement, and apart, step by step, where a trigger may change what is
installed, a column has no value, or a number leaves 64 bits or its column."""

from __future__ import annotations

from typing import TYPE_CHECKING

from .block import once
from .insts import cleared
from .one_pass_checks import OnePassChecks
from .postgresql import PostgreSQL
from .steps import Term
from .stepwise import Comment
from .tables import Part, Tables, inserted
from .tokens import END_OF_STATEMENT, Sql, joined, sql, statements, text, word

if TYPE_CHECKING:
    from .one_pass import OnePass


class OnePassOpening(Part[PostgreSQL]):
    """The statements that fill the derived views."""

    def __init__(self, tables: Tables[PostgreSQL], checked: OnePassChecks, apart: OnePass) -> None:
        super().__init__(tables)
        self.checked, self.apart, self.block = checked, apart, apart.block

    def statements(self, comment: Comment) -> list[Sql]:
        """All of them, between the settings of a night and its end."""
        derived = self.steps.derived()
        made = [each for v in reversed(derived) for each in cleared(self.tables, self.checked.cascades, v)]
        for v in derived:
            made += [comment(self.steps.filling(v)[0]), *self.filled(v)]
        looked = [each for v in derived for each in self.block.then(word("apart", v), self.apart.insts.verified(v))]
        return [*made, *self.dialect.settled(), *looked]

    def filled(self, v: int) -> list[Sql]:
        """A view from scratch."""
        busy = sql("{apart} := watched OR {spare} IS NOT NULL", apart=word("apart", v), spare=self.checked.known("spare_columns", v))
        tried = sql("BEGIN {made} EXCEPTION WHEN numeric_value_out_of_range THEN {apart} := TRUE{end} END", made=statements([self.filling(v)], 2),
                    apart=word("apart", v), end=END_OF_STATEMENT)
        done = [each for step in self.steps.filling(v) for each in self.apart.put(step)]
        return [busy, self.dialect.where(sql("NOT {apart}", apart=word("apart", v)), tried), *self.block.then(word("apart", v), done)]

    def filling(self, v: int) -> Sql:
        """The statement that fills a view: rows are added up in the order of their columns, which is that of the unique index; they are not
        where each stands once, since the view keeps a key that all children's keys lead to."""
        term, cells = self.steps.whole(v), list(self.tables.cells(v, "r"))
        if self.shape.is_summary(v):
            return once(self.filled_with(v, term, cells[: self.shape.groups(v)]))
        grouped = once(self.filled_with(v, term, cells))
        grouped = sql("SET LOCAL enable_hashagg = off{end} {grouped}{end} SET LOCAL enable_hashagg = on", grouped=grouped, end=END_OF_STATEMENT)
        if v not in self.tables.said_keys:
            return grouped
        keyed = [sql("{found} AND {key} = {said}", found=self.checked.known("is_found", u), key=self.checked.known("key_columns", u),
                     said=text(", ".join(f"p.c{place + 1}" for place in self.tables.said_keys[u]))) for u in sorted(set(self.views[v].over))]
        return sql("IF {keyed} THEN {alone}{end} ELSE {grouped}{end} END IF", keyed=joined(keyed, "AND"), alone=once(self.filled_with(v, term, None)),
                   grouped=grouped, end=END_OF_STATEMENT)

    def filled_with(self, v: int, term: Term, groups: list[Sql] | None) -> Sql:
        """The rows of a view from scratch, in numbers of 64 bits; added up by these columns."""
        rows, cells = sql("({rows}) AS r", rows=self.block.fast.term(v, term)), self.tables.cells_put(v, "r")
        if groups is None:
            return inserted(self.tables.table(v), cells, rows)
        sums = [sql("sum(r.n)"), *(sql("sum(r.n * r.{sum})", sum=word("s", at)) for at in range(2, self.shape.sums(v) + 1))]
        summed = [(column, cell) for (column, _), cell in zip(cells, [*groups, *sums])]
        by = sql("GROUP BY {groups}", groups=joined(groups)) if groups else sql("")
        return inserted(self.tables.table(v), summed, sql("{rows} {by} HAVING count(*) > 0", rows=rows, by=by))
