"""How a view of a file is read back: over what is kept, with the names, the declared types and the affinities of the view's own columns.

SQLite tells a declared type of a column of a table alone. So an empty table, the view's shape, stands before the rows of what is kept."""

from __future__ import annotations

from collections.abc import Iterator, Mapping, Sequence
from dataclasses import dataclass

from .. import tree
from ..asked import named
from ..record import Column, Read
from ..tree import Node
from ..written import SHAPE, gone
from .kinds import Kind
from .reserved import names_in_quotes
from .spelled import SCHEMA
from .stored import affinity

CASTS = {"int2": "INTEGER", "int4": "INTEGER", "int8": "INTEGER", "text": "TEXT", "float4": "REAL", "float8": "REAL", "real": "REAL"}


@dataclass(frozen=True, slots=True)
class Shown:
    """A column of a view: as the file tells it, its name in the query over what is kept, its affinity, and its kind."""

    column: Column
    inner: str
    affinity: str
    kind: Kind

    @property
    def value(self) -> str:
        """It, of a row q: a cast leaves such a value what it is, and has its affinity. Days are texts in columns of numbers, of which no cast is."""
        said = f"q.{named(self.inner)}"
        is_cast = bool(self.affinity) and not (self.affinity == "NUMERIC" and self.kind.is_text)
        return f"CAST({said} AS {self.affinity})" if is_cast else f"+{said}"

    @property
    def of_shape(self) -> str:
        """It, of a row s of the shape."""
        if self.column.type:
            return f"s.{named(self.column.name)}"
        return f"CAST(NULL AS {self.affinity})" if self.affinity else "NULL"


def items_in(node: Node) -> Iterator[Node]:
    """The tables and queries in an item of a FROM."""
    if tree.kind(node) == "JoinExpr":
        yield from items_in(node.larg)
        yield from items_in(node.rarg)
    else:
        yield node


def affinity_of(statement: Node, at: int, types: Mapping[str, Mapping[str, str]]) -> str:
    """The affinity of an output of a query, by the declared types of tables."""
    select = tree.first_select(statement)
    return affinity_in(select, select.targetList[at].val, types)


def affinity_in(select: Node, node: Node, types: Mapping[str, Mapping[str, str]]) -> str:
    """That of an expression: of a column as of its table's, of a cast its own, and of all else none."""
    match tree.kind(node):
        case "TypeCast":
            return CASTS.get(node.typeName.names[-1].sval, "")
        case "SubLink" if int(node.subLinkType) == 4:
            return affinity_of(node.subselect, 0, types)
        case "ColumnRef":
            alias, name = (tree.column_parts(node) or ["", ""])[:2]
            for item in (each for said in select.fromClause or () for each in items_in(said)):
                if item.alias is not None and item.alias.aliasname == alias:
                    return affinity_of_item(item, name, types)
    return ""


def affinity_of_item(item: Node, name: str, types: Mapping[str, Mapping[str, str]]) -> str:
    """That of a column of an item."""
    if tree.kind(item) == "RangeVar":
        return affinity(types[item.relname][name])
    outputs = [str(tree.output_name(each)) for each in tree.first_select(item.subquery).targetList]
    return affinity_of(item.subquery, outputs.index(name), types)


def in_place(read: Read, prefix: str) -> str:
    """A view's query over the tables of what is kept, which have a word before their names."""
    def change(node: Node) -> Node | None:
        is_kept = tree.kind(node) == "RangeVar" and node.schemaname == SCHEMA
        return tree.with_values(node, {"relname": prefix + node.relname}) if is_kept else None
    return names_in_quotes(tree.printed(tree.changed(tree.parsed(read.query), change)))


def shown_by(read: Read, columns: Sequence[Shown], prefix: str) -> Read:
    """A view as readers see it, and the types of its columns."""
    query = f"SELECT {', '.join(f'{each.value} AS {named(each.column.name)}' for each in columns)} FROM ({in_place(read, prefix)}) AS q"
    if any(each.column.type for each in columns):
        shape = ", ".join(f"{each.of_shape} AS {named(each.column.name)}" for each in columns)
        query = f"SELECT {shape} FROM {named(SCHEMA, prefix + read.name + SHAPE)} AS s UNION ALL {query}"
    return Read(read.schema, read.name, query, tuple(each.column for each in columns), read.notes)


# ---- statements


def made(read: Read, prefix: str) -> list[str]:
    """The statements that make a view. A type stands in quotes, so that it is the text that it was."""
    typed = [f"{named(each.name)} {named(each.type)}" for each in read.columns if each.type]
    shape = [f"CREATE TABLE {named(SCHEMA, prefix + read.name + SHAPE)} ({', '.join(typed)})"] if typed else []
    return [*shape, f"CREATE VIEW {named(SCHEMA, prefix + read.name)} AS {read.query}"]


def aside(names: Sequence[str], own: Sequence[str], prefix: str) -> list[str]:
    """The statements by which views of these names read as those that somebody wrote, while what is kept changes; one whose view is gone goes."""
    there = [f"CREATE VIEW {named(SCHEMA, prefix + each)} AS SELECT * FROM {named(SCHEMA, each)}" for each in names if each in own]
    return [*gone(names, prefix), *there]
