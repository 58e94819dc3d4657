"""A catalogue in SQL: CREATE TABLE declares tables of CSV with the kinds of their columns, CREATE VIEW the views over them."""

from __future__ import annotations

import re
from dataclasses import dataclass

from pglast import parse_sql
from pglast.parser import ParseError

from .. import tree
from ..refused import Refused
from ..tree import Node
from .kinds import BOOLEAN, DATE, INTEGER, TEXT, TIMESTAMP, Kind, numeric

MOST_DIGITS = 15
PLAIN = {
    "int2": INTEGER, "int4": INTEGER, "int8": INTEGER, "integer": INTEGER, "int": INTEGER, "bigint": INTEGER, "text": TEXT, "varchar": TEXT, "bool": BOOLEAN,
    "date": DATE, "timestamp": TIMESTAMP,
}
KINDS_TOLD = "integer, text, boolean, date, timestamp, numeric(p, s)"
NAME = re.compile(r"[A-Za-z_][A-Za-z0-9_]{0,50}")
NOT_NULL, PRIMARY = 1, 6


@dataclass(frozen=True, slots=True)
class DeclaredColumn:
    """A column of a table: its name, its kind, and whether it is always there."""

    name: str
    kind: Kind
    is_filled: bool


@dataclass(frozen=True, slots=True)
class DeclaredTable:
    """A table of CSV: its columns, its primary key, and the cell that stands for NULL."""

    name: str
    columns: tuple[DeclaredColumn, ...]
    key: tuple[str, ...]
    null: str

    @property
    def names(self) -> list[str]:
        return [each.name for each in self.columns]


@dataclass(frozen=True, slots=True)
class DeclaredView:
    """A view: its query, and the names of its columns where they are said."""

    name: str
    query: Node
    names: tuple[str, ...]


@dataclass(frozen=True, slots=True)
class Declared:
    """All of a catalogue."""

    text: str
    tables: tuple[DeclaredTable, ...]
    views: tuple[DeclaredView, ...]


def declared(text: str) -> Declared:
    """What a text declares."""
    try:
        statements = parse_sql(text)
    except ParseError as fault:
        raise Refused("the text", f"the parser says: {fault.args[0]}", "write what both PostgreSQL and SQLite read", tree.place_of(fault, text)) from fault
    tables, views, names = list[DeclaredTable](), list[DeclaredView](), set[str]()
    for raw in statements:
        statement, place = raw.stmt, int(raw.stmt_location or 0)
        match tree.kind(statement):
            case "CreateStmt":
                tables.append(table_of(statement, place))
                names = judged_name(tables[-1].name, names, place)
            case "ViewStmt" if not statement.replace:
                views.append(DeclaredView(plain_name(statement.view, place), statement.query, tuple(each.sval for each in statement.aliases or ())))
                names = judged_name(views[-1].name, names, place)
            case _:
                raise Refused(tree.kind(statement), "a catalogue has CREATE TABLE and CREATE VIEW alone", "leave it out", place)
    return Declared(text, tuple(tables), tuple(views))


def judged_name(name: str, names: set[str], place: int) -> set[str]:
    """The names with one more, which is another also where case is not looked at."""
    if not NAME.fullmatch(name) or name.lower().startswith("sqlite_"):
        raise Refused(name, "a name has letters from A to Z, digits and _ alone, 51 at most, and does not begin with sqlite_", "name it otherwise", place)
    if name.lower() in names:
        raise Refused(name, "there is a table or a view of this name above", "name it otherwise", place)
    return names | {name.lower()}


def plain_name(relation: Node, place: int) -> str:
    """The name of a table or a view, which stands in no schema."""
    if relation.schemaname or relation.relpersistence not in (None, "p"):
        raise Refused(f"{relation.schemaname or 'TEMPORARY'} {relation.relname}", "a folder has one schema, and keeps what is in it", "write the name alone", place)
    return str(relation.relname)


def table_of(statement: Node, place: int) -> DeclaredTable:
    """A table."""
    name, columns, key = plain_name(statement.relation, place), list[DeclaredColumn](), list[str]()
    for each in statement.tableElts or ():
        if tree.kind(each) == "Constraint" and int(each.contype) == PRIMARY:
            key = [said.sval for said in each.keys]
        elif tree.kind(each) == "ColumnDef":
            kinds = [int(constraint.contype) for constraint in each.constraints or ()]
            judge_constraints(each, kinds)
            key = [each.colname] if PRIMARY in kinds else key
            columns.append(DeclaredColumn(each.colname, kind_of_type(each), NOT_NULL in kinds or PRIMARY in kinds))
        else:
            raise Refused(f"a constraint of {name}", "nights keep primary keys and NOT NULL", "leave it out", tree.location(each))
    columns = [DeclaredColumn(each.name, each.kind, each.is_filled or each.name in key) for each in columns]
    judge_columns(name, columns, key, place)
    return DeclaredTable(name, tuple(columns), tuple(key), null_of(statement, place))


def judge_constraints(column: Node, kinds: list[int]) -> None:
    """Refuses what is said of a column and not kept."""
    if any(kind not in (0, NOT_NULL, PRIMARY) for kind in kinds) or column.collClause is not None:
        raise Refused(f"the column {column.colname}", "of a column nights keep its kind, NOT NULL and PRIMARY KEY", "leave out what else is said", tree.location(column))


def judge_columns(name: str, columns: list[DeclaredColumn], key: list[str], place: int) -> None:
    """Refuses names that are no names, or stand twice."""
    names = [each.name.lower() for each in columns]
    if not columns or len(set(names)) < len(names) or not all(NAME.fullmatch(each.name) for each in columns):
        raise Refused(f"the table {name}", "its columns have names of letters, digits and _, each once, and there is one at least", "name them so", place)
    if missing := [each for each in key if each.lower() not in names]:
        raise Refused(f"the key of {name}", f"there is no column {missing[0]}", "name columns of the table", place)


def null_of(statement: Node, place: int) -> str:
    """The cell that stands for NULL: an empty one, where WITH (null = '..') says no other."""
    said = {each.defname: each.arg for each in statement.options or ()}
    if not said:
        return ""
    if set(said) != {"null"} or tree.kind(said["null"]) != "String":
        raise Refused("WITH", "of a table is only said which cell stands for NULL", "write WITH (null = 'NA')", place)
    return str(said["null"].sval)


def kind_of_type(column: Node) -> Kind:
    """The kind that a column is declared with."""
    written = column.typeName
    name, digits = written.names[-1].sval, [each.val.ival for each in written.typmods or () if tree.kind(each) == "A_Const"]
    if written.arrayBounds is None and name == "numeric" and digits:
        if 0 <= (digits[1] if len(digits) > 1 else 0) <= digits[0] <= MOST_DIGITS:
            return numeric(digits[1] if len(digits) > 1 else 0, digits[0])
        raise Refused(f"the column {column.colname}", f"SQLite has {MOST_DIGITS} digits of a number exactly", f"declare numeric({MOST_DIGITS}, 2) or fewer", tree.location(column))
    if name not in PLAIN or written.arrayBounds is not None or digits:
        raise Refused(f"the column {column.colname}", f"its kind is none of {KINDS_TOLD}", "declare one of these", tree.location(column))
    return PLAIN[name]
