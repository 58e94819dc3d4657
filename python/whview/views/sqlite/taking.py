"""Takes the views of a catalogue in SQL apart, or says of each why it is not taken; and has SQLite compile all that comes of it before anything is made."""

from __future__ import annotations

import sqlite3
from abc import ABC, abstractmethod
from collections.abc import Callable, Iterable, Mapping, Sequence
from contextlib import closing
from dataclasses import dataclass, replace
from typing import ClassVar, TypeVar

from .. import tree
from ..asked import Judged, Relation, TableColumn, named
from ..decompose import Blocks, View
from ..expanded import Expanded
from ..judging import judge_order
from ..keeping import Keeping
from ..leaves import Leaves
from ..pulled import Pulled
from ..record import Column, Decomposition, Kept, Mirror, Read, RowExpression
from ..refused import Refused
from .declared import Declared, DeclaredTable, DeclaredView
from .kinds import Kind, encoding, judged
from .queries import Queries
from .reserved import names_in_quotes
from .spelled import SCHEMA, Spelled, named_as
from .typed import AGGREGATES, Total, Typed
from .whole import whole
from .words import NUMBERS, SQLiteWords

AFFINITIES = {"int": "INTEGER", "text": "TEXT"}
T = TypeVar("T")


@dataclass(frozen=True, slots=True)
class Said:
    """A view as it is read: its query in one piece, the items in it, and the kinds of its columns."""

    view: DeclaredView
    expanded: Expanded
    statement: tree.Node
    columns: tuple[Column, ...]
    notes: tuple[str, ...]


class Taking(ABC):
    """Views that are taken apart one after another: the kinds of the columns of what is known by now, and what is refused. `moments` has the kinds of columns
    of which a function of time is never one of now."""

    moments: ClassVar[Sequence[str]] = ("date", "timestamp")

    def __init__(self, words: SQLiteWords) -> None:
        self.words, self.refused = words, list[Refused]()
        self.kinds, self.relations = dict[str, dict[str, Kind]](), dict[tuple[str, str], Relation]()

    @abstractmethod
    def text_of(self, view: DeclaredView) -> str:
        """The text in which the places of a view's parts are told."""

    def attempt(self, view: DeclaredView, act: Callable[[], T]) -> T | None:
        """What comes of an act, or None where it is refused, which is noted."""
        try:
            return act()
        except Refused as refused:
            self.refused.append(refused.located(view.name, self.text_of(view)))
            return None

    # ---- views

    def read(self, view: DeclaredView) -> Said:
        """A view's query in one piece, which is known to those below from then on."""
        columns = {name: list(kinds) for name, kinds in self.kinds.items()}
        notes = judge_order(view.query)
        spelled = tree.renamed(Spelled(columns).query(named_as(view.query, view.names)), list(view.names))
        expanded = Expanded(self.relations)
        statement = expanded.query(spelled)
        found = Queries(expanded.items, self.kinds).of_query(statement)
        names = [str(tree.output_name(each)) for each in tree.first_select(statement).targetList]
        listed = tuple(Column(name, kind.shown) for name, kind in zip(names, found))
        self.kinds[view.name] = dict(zip(names, found))
        self.relations[SCHEMA, view.name] = Relation(SCHEMA, view.name, "v", tree.printed(spelled), tuple(TableColumn(each.name, False, each.type) for each in listed), ())
        return Said(view, expanded, Pulled(AGGREGATES).query(statement), listed, tuple(notes))

    def read_view(self, said: Said, keeping: Keeping) -> Read:
        """A view as readers will see it."""
        leaves = Leaves(said.expanded.items, AGGREGATES, {}, self.words.encoding)
        leaves.told = self.told(leaves.wanted(said.statement).items())
        blocks = Blocks(View(said.view.name, said.expanded.inner), said.expanded.items, leaves, keeping)
        query = names_in_quotes(tree.printed(whole(blocks.query(said.statement))))
        return Read(SCHEMA, said.view.name, query, said.columns, said.notes)

    def told(self, wanted: Iterable[tuple[Relation, dict[str, bool]]]) -> dict[tuple[Relation, str], Judged | str]:
        """What is said of expressions over a row r of each table."""
        found: dict[tuple[Relation, str], Judged | str] = {}
        with closing(sqlite3.connect(":memory:")) as database:
            for relation, expressions in wanted:
                nulls = ", ".join(f"NULL AS {named(each)}" for each in self.kinds[relation.name])
                for said in expressions:
                    found[relation, said] = self.judged(relation.name, said, database, nulls)
        return found

    def judged(self, table: str, said: str, database: sqlite3.Connection, nulls: str) -> Judged | str:
        """What is said of an expression over a row of a table, if it has a value for each."""
        node, kinds = tree.expression(said), self.kinds[table]

        def of_column(column: tree.Node) -> Kind:
            return kinds[(tree.column_parts(column) or ["?"])[-1]]

        try:
            kind = Typed(of_column, lambda _: []).kind(node)
            if tree.kind(node) != "ColumnRef" and not (self.words.keeps(kind) and Total(of_column, self.moments).holds(node)):
                return "it is computed as it is read"
            is_strict = bool(database.execute(f"SELECT ({names_in_quotes(said)}) IS NULL FROM (SELECT {nulls}) AS r").fetchone()[0])
        except (Refused, KeyError, sqlite3.Error) as fault:
            return str(fault)
        return judged(kind, is_strict)


class TakingDeclared(Taking):
    """All views of a catalogue."""

    def __init__(self, catalogue: Declared, names: Mapping[str, str] | None = None) -> None:
        super().__init__(SQLiteWords())
        self.catalogue, self.names = catalogue, names or {}
        self.kinds = {each.name: {column.name: column.kind for column in each.columns} for each in catalogue.tables}
        self.relations = {(SCHEMA, each.name): relation_of(each) for each in catalogue.tables}

    def text_of(self, view: DeclaredView) -> str:
        return self.catalogue.text

    def taken(self) -> Decomposition:
        """What they are taken apart into; why some are not is noted."""
        keeping = Keeping(SCHEMA, [each.name for each in self.catalogue.views], self.words, self.names)
        for table in self.catalogue.tables:
            self.attempt_table(keeping, table)
        for view in self.catalogue.views:
            said = self.attempt(view, lambda view=view: self.read(view))  # type: ignore[misc]
            made = self.attempt(view, lambda said=said: self.read_view(said, keeping)) if said is not None else None  # type: ignore[misc]
            if made is not None:
                keeping.decomposition.reads.append(made)
        if self.catalogue.views and not self.refused:
            self.attempt(self.catalogue.views[0], keeping.judged_whole)
        decomposition = spelled_out(keeping.decomposition)
        if not self.refused:
            self.probed(decomposition)
        return decomposition

    def attempt_table(self, keeping: Keeping, table: DeclaredTable) -> None:
        """The mirror of a table, or why it is not kept."""
        try:
            self.mirrored(keeping, table)
        except Refused as refused:
            self.refused.append(refused.located(table.name, self.catalogue.text))

    def mirrored(self, keeping: Keeping, table: DeclaredTable) -> None:
        """The mirror of a table, which has all of its columns, so that they can be told again from what is kept."""
        relation, kinds = self.relations[SCHEMA, table.name], self.kinds[table.name]
        mirror = keeping.mirror(relation, [(name, judged(kinds[name], True)) for name in table.key])
        for column in table.columns:
            how = encoding(judged(column.kind, True))
            expression = tree.printed(tree.column("r", column.name))
            if how is not None:
                keeping.column(mirror, how.kind, how.kept(expression, column.is_filled), frozenset([column.name]), column.name)

    # ---- whether SQLite takes it, before anything is made

    def probed(self, decomposition: Decomposition) -> None:
        """Notes as refused what SQLite does not compile."""
        with closing(sqlite3.connect(":memory:")) as database:
            make_kept(database, decomposition)
            for view, read in zip(self.catalogue.views, decomposition.reads):
                self.attempt(view, lambda read=read: probed_view(database, read))  # type: ignore[misc]
        with closing(sqlite3.connect(":memory:")) as database:
            for table in self.catalogue.tables:
                make_declared(database, table)
            for mirror in decomposition.mirrors:
                database.execute(rows_of(mirror))


def relation_of(table: DeclaredTable) -> Relation:
    """A table, as queries are read over it."""
    columns = tuple(TableColumn(each.name, each.is_filled, each.kind.shown) for each in table.columns)
    return Relation(SCHEMA, table.name, "r", None, columns, table.key)


def spelled_out(decomposition: Decomposition) -> Decomposition:
    """The same with row expressions as SQLite writes them."""
    mirrors = [replace(each, columns=[in_words(column) for column in each.columns]) for each in decomposition.mirrors]
    return replace(decomposition, mirrors=mirrors)


def in_words(column: RowExpression) -> RowExpression:
    """A row expression as SQLite writes it."""
    return replace(column, expression=names_in_quotes(tree.printed(tree.expression(column.expression))))


def probed_view(database: sqlite3.Connection, read: Read) -> None:
    """Refuses a view whose query SQLite does not take."""
    try:
        found = database.execute(f"SELECT * FROM ({read.query}) LIMIT 0")
    except sqlite3.Error as fault:
        raise Refused("the view", f"SQLite {sqlite3.sqlite_version} says: {fault}", "write its parts more simply") from fault
    names = [each[0] for each in found.description]
    if names != [each.name for each in read.columns]:
        raise Refused("the view", f"its columns would be {', '.join(names)}", "name each by AS")


# ---- tables in SQLite


def make_declared(database: sqlite3.Connection, table: DeclaredTable) -> None:
    """Makes a table as it is declared, for rows that come."""
    columns = ", ".join(f"{named(each.name)} {each.kind.affinity}" for each in table.columns)
    database.execute(f"CREATE TABLE {named(table.name)} ({columns})")


def rows_of(mirror: Mirror) -> str:
    """The query for what a mirror keeps of the rows of its table."""
    return f"SELECT {', '.join(each.expression for each in mirror.columns)} FROM {named(mirror.table)} AS r"


def columns_of(decomposition: Decomposition) -> dict[str, list[tuple[str, str]]]:
    """The columns of all that is kept, each with its kind."""
    found = {each.name: [(column.name, column.kind) for column in each.columns] for each in decomposition.mirrors}
    for kept in decomposition.kept:
        found[kept.name] = kept_columns(kept, found)
    return found


def kept_columns(kept: Kept, known: dict[str, list[tuple[str, str]]]) -> list[tuple[str, str]]:
    """Those of a view that is kept."""
    kinds = {f"{name}.{column}": kind for name, columns in known.items() for column, kind in columns}
    columns = [(name, kinds.get(formula, "int") if isinstance(formula, str) else "int") for name, formula in kept.outputs]
    numbers = [("n", "int"), *((name, "int") for name, _ in kept.sums)] if kept.is_summary else []
    return [*columns, *numbers]


def make_kept(database: sqlite3.Connection, decomposition: Decomposition, prefix: str = "") -> None:
    """Makes the tables of what is kept, with a word before their names, and that of numbers."""
    for name, columns in columns_of(decomposition).items():
        listed = ", ".join(f"{named(column)} {AFFINITIES[kind]}" for column, kind in columns)
        database.execute(f'CREATE TABLE {named(prefix + name)} ({listed}, "#" INTEGER)')
    database.execute(f"CREATE TABLE {named(NUMBERS)} (i INTEGER PRIMARY KEY)")
