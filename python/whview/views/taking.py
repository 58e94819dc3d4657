"""Takes views of a database apart, each and all of them together, or says of each why it is not taken."""

from __future__ import annotations

from collections.abc import Callable, Sequence
from dataclasses import dataclass
from fnmatch import fnmatchcase
from typing import TypeVar

from ..sql.tokens import Unfit
from . import tree
from .asked import Asking, Judged, Relation, named, quoted
from .decompose import Blocks, View
from .divided import Divided
from .expanded import Expanded
from .judging import judge_called, judge_order
from .keeping import Keeping
from .leaves import Leaves
from .pulled import Pulled
from .record import MOST_SHARED, Column, Decomposition, Read
from .refused import Refused
from .tree import Node
from .words import PostgreSQLWords

KINDS = {"int": "bigint", "text": 'text COLLATE "C"'}
T = TypeVar("T")


@dataclass(frozen=True, slots=True)
class Said:
    """A view as it is read: its query in one piece, the items in it, and what is told of it."""

    view: Relation
    expanded: Expanded
    statement: Node
    notes: tuple[str, ...]


class Taking:
    """The views of a database that are wanted, by names or patterns."""

    def __init__(self, asking: Asking, schema: str, source: str) -> None:
        self.asking, self.schema, self.source = asking, schema, source
        self.relations, self.aggregates = asking.relations(), asking.aggregates()
        self.refused: list[Refused] = []

    def chosen(self, wanted: Sequence[str]) -> list[Relation]:
        """The views of these names or patterns, a schema before them or not."""
        found: dict[str, Relation] = {}
        for pattern in wanted:
            schema, _, name = pattern.rpartition(".")
            views = [each for each in self.relations.values() if each.letter == "v" and each.schema == (schema or self.source) and fnmatchcase(each.name, name)]
            if not views:
                self.refused.append(Refused(f"the view {pattern}", f"there is none in {schema or self.source}", "name one that is there"))
            found.update((each.name, each) for each in views)
        return list(found.values())

    def attempt(self, view: Relation, act: Callable[[], T]) -> T | None:
        """What comes of an act, or None where it is refused, which is noted."""
        try:
            return act()
        except Refused as refused:
            self.refused.append(refused.located(view.name, view.definition or ""))
            return None

    def taken(self, views: Sequence[Relation]) -> Decomposition:
        """What they are taken apart into; why some are not is noted."""
        keeping = Keeping(self.schema, [each.name for each in views], PostgreSQLWords(), most_mirrored=MOST_SHARED)
        said = [found for view in views if (found := self.attempt(view, lambda view=view: self.read(view)))]  # type: ignore[misc]
        told = self.told(said)
        for each in said:
            leaves = Leaves(each.expanded.items, self.aggregates, told)
            made = self.attempt(each.view, lambda each=each, leaves=leaves: self.read_view(each, leaves, keeping))  # type: ignore[misc]
            if made is not None:
                keeping.decomposition.reads.append(made)
        if keeping.decomposition.reads:
            self.attempt(views[0], Divided(keeping.decomposition).parts)
        if not self.refused:
            self.probed(keeping.decomposition)
        return keeping.decomposition

    def read(self, view: Relation) -> Said:
        """A view's query in one piece."""
        statement = tree.parsed(view.definition or "")
        if not view.columns:
            raise Refused("a SELECT of nothing", "a view without columns has nothing to keep", "name a column", tree.location(statement))
        judge_called(statement, self.asking.called(view))
        expanded = Expanded(self.relations)
        statement = expanded.query(statement)
        self.judge_inner(expanded)
        self.judge_schemas(expanded)
        notes = judge_order(statement)
        return Said(view, expanded, Pulled(self.aggregates).query(tree.renamed(statement, view.names)), tuple(notes))

    def judge_inner(self, expanded: Expanded) -> None:
        """Refuses what the views below call, before anything of it is computed: it would be with the rights of whoever takes the view."""
        for inner in {(each.schema, each.name): each for each in expanded.inner.values()}.values():
            try:
                judge_called(tree.parsed(inner.definition or ""), self.asking.called(inner))
            except Refused as refused:
                raise Refused(f"{refused.part} in {inner.name}", refused.cause, refused.instead) from refused

    def judge_schemas(self, expanded: Expanded) -> None:
        """Refuses tables of other schemas than the one that is captured."""
        others = [item.relation for item in expanded.items.values() if item.relation is not None and item.relation.schema != self.source]
        if others:
            raise Refused(f"the table {others[0].schema}.{others[0].name}", f"it stands in another schema than {self.source}", "take views of one schema's tables, by --from")

    def told(self, said: Sequence[Said]) -> dict[tuple[Relation, str], Judged | str]:
        """What the server says of all expressions that may be leaves."""
        wanted: dict[Relation, dict[str, bool]] = {}
        for each in said:
            for relation, expressions in Leaves(each.expanded.items, self.aggregates, {}).wanted(each.statement).items():
                wanted.setdefault(relation, {}).update(expressions)
        return self.asking.judged({relation: expressions.items() for relation, expressions in wanted.items()})

    def read_view(self, said: Said, leaves: Leaves, keeping: Keeping) -> Read:
        """A view as readers will see it."""
        view = said.view
        blocks = Blocks(View(view.name, said.expanded.inner), said.expanded.items, leaves, keeping)
        query = tree.printed(blocks.query(said.statement))
        columns = tuple(Column(each.name, each.type) for each in view.columns)
        return Read(view.schema, view.name, query, columns, said.notes)

    # ---- whether the server takes it, before anything is made

    def probed(self, decomposition: Decomposition) -> None:
        """Notes as refused what the server does not take, or reads as other columns than the view's, where all of it is made for a moment."""
        lines = [line for each in decomposition.mirrors for line in self.table(each.name, [(column.name, column.kind) for column in each.columns])]
        lines += [line for mirror in decomposition.mirrors for line in self.expressions(mirror.schema, mirror.table, [each.expression for each in mirror.columns])]
        kinds = {f"{each.name}.{column.name}": column.kind for each in decomposition.mirrors for column in each.columns}
        for kept in decomposition.kept:
            columns = [(name, kinds.get(formula, "int") if isinstance(formula, str) else "int") for name, formula in kept.outputs]
            kinds.update((f"{kept.name}.{name}", kind) for name, kind in columns)
            numbers = [("n", "int"), *((name, "int") for name, _ in kept.sums)] if kept.is_summary else []
            lines += self.table(kept.name, [*columns, *numbers])
        found = self.all_probed(lines, decomposition.reads)
        for at, read in enumerate(decomposition.reads):
            known = found[at] if found is not None else None
            self.attempt(
                self.relations[read.schema, read.name],
                lambda read=read, known=known: self.judge_columns(read, known or self.probed_alone(lines, read)),  # type: ignore[misc]
            )

    def all_probed(self, lines: Sequence[str], reads: Sequence[Read]) -> list[list[list[str]]] | None:
        """The columns as which all views read, or None where the server does not take some of them: each is then made by itself."""
        try:
            return self.asking.lines("\n".join([*lines, *(line for at, read in enumerate(reads) for line in self.probe(read, f"read view {at}"))]))
        except Unfit:
            self.asking.lines("\n".join(lines))
            return None

    def table(self, name: str, columns: Sequence[tuple[str, str]]) -> list[str]:
        """A table for a moment."""
        listed = ", ".join(f"{named(column)} {KINDS[kind]}" for column, kind in columns)
        return [f'CREATE TEMP TABLE {named(name)} ({listed}, "#" bigint);']

    def expressions(self, schema: str, table: str, expressions: Sequence[str]) -> list[str]:
        """All row expressions of a table."""
        return [f"CREATE TEMP VIEW {named('rows of ' + table)} AS SELECT {', '.join(f'{each} AS x{at}' for at, each in enumerate(expressions))} FROM {named(schema, table)} AS r;"]

    def probe(self, read: Read, name: str) -> list[str]:
        """What makes a view for a moment, and asks for its columns."""

        def change(node: Node) -> Node | None:
            is_own = tree.kind(node) == "RangeVar" and node.schemaname == self.schema
            return tree.with_values(node, {"schemaname": "pg_temp"}) if is_own else None
        query = tree.printed(tree.changed(tree.parsed(read.query), change))
        asked = (
            "SELECT json_agg(json_build_array(a.attname, format_type(a.atttypid, a.atttypmod)) ORDER BY a.attnum) FROM pg_attribute AS a"
            f" WHERE a.attrelid = {quoted('pg_temp.' + named(name))}::regclass AND a.attnum > 0;"
        )
        return [f"CREATE TEMP VIEW {named(name)} AS {query};", asked]

    def probed_alone(self, lines: Sequence[str], read: Read) -> list[list[str]]:
        """The columns as which a view reads; it is refused where the server does not take it."""
        try:
            (columns,) = self.asking.lines("\n".join([*lines, *self.probe(read, "read view")]))
        except Unfit as fault:
            raise Refused("the view", f"{fault} of what would be read", "write its parts more simply") from fault
        return list(columns)

    def judge_columns(self, read: Read, found: list[list[str]]) -> None:
        """Refuses a view that reads as other columns than its own."""
        wanted = [[each.name, each.type] for each in read.columns]
        if found != wanted:
            unlike = next(((one, other) for one, other in zip(found, wanted) if one != other), (found, wanted))
            raise Refused("the view", f"a column would read as {unlike[0]}, and is {unlike[1]}", "cast it to what it is to be")
