"""Has the inner folder keep what a catalogue in SQL wants: its catalogue, and tables that are new or kept otherwise than before."""

from __future__ import annotations

import sys
from collections.abc import Iterator, Mapping
from pathlib import Path
from typing import TYPE_CHECKING

from ...finding import Failure, warn
from ...sql.tokens import Unfit
from ...status import BAD_INPUT
from ...views.parser import with_parser
from ...views.written import catalogue as catalogue_of
from ..inputs import CHANGES
from ..versions import named, place
from .cells import cell_of
from .home import SQL, Home
from .rows import turn, write
from .said import CATALOGUE, Column, Expression, Said, SaidTable, SaidView, put_said, said_by, sum_of
from .shown import ShownTables

if TYPE_CHECKING:
    from ...views.record import Column as ReadColumn, Decomposition
    from ...views.sqlite.declared import Declared, DeclaredTable


def taken(home: Home) -> Said:
    """What the catalogue is taken apart into; the inner folder has its catalogue then."""
    content = home.text.read_bytes()
    former = said_by(home.inner, home.inner / CATALOGUE)
    if former is not None and former.text == sum_of(content):
        return former
    said, inner = anew(home, content, former)
    judge_waiting(home, said)
    home.inner.mkdir(exist_ok=True)
    put_said(home.inner, said)
    part = home.inner / f".{CATALOGUE}.new"
    part.write_bytes(inner)
    part.replace(home.inner / CATALOGUE)
    return said


def anew(home: Home, content: bytes, former: Said | None) -> tuple[Said, bytes]:
    """What a catalogue is taken apart into, and the inner one. A mirror that keeps something else than before has another name."""
    try:
        with_parser(sys.argv)
    except Unfit as fault:
        raise Failure(BAD_INPUT, str(fault)) from None
    from ...views.refused import Refused
    from ...views.sqlite.declared import declared
    text = content.decode("utf-8", errors="replace")
    try:
        catalogue = declared(text)
    except Refused as refused:
        raise Failure(BAD_INPUT, refused.located(str(home.text), text).told()) from None
    names = {each.name: each.mirror for each in former.tables} if former else {}
    decomposition = apart(home, catalogue, names)
    now = {each.table: tuple(Expression(column.name, column.kind, column.expression) for column in each.columns) for each in decomposition.mirrors}
    others = [each for each in former.tables if each.name in now and now[each.name] != each.expressions] if former else []
    for each in others:
        taken_names = {*names.values(), *(table.name for table in catalogue.tables), *(view.name for view in catalogue.views)}
        names[each.name] = next(said for said in (f"{each.name}_{at}" for at in range(2, 9999)) if said not in taken_names)
    decomposition = apart(home, catalogue, names) if others else decomposition
    inner = catalogue_of(decomposition).encode()
    return said_of_all(catalogue, decomposition, sum_of(content), sum_of(inner)), inner


def apart(home: Home, catalogue: Declared, names: Mapping[str, str]) -> Decomposition:
    """What the views are taken apart into, over mirrors of these names."""
    from ...views.sqlite.taking import TakingDeclared
    from ...views.refused import Refused
    taking = TakingDeclared(catalogue, names)
    try:
        decomposition = taking.taken()
    except Refused as refused:
        raise Failure(BAD_INPUT, f"{home.text}: {refused.told()}") from None
    if taking.refused:
        raise Failure(BAD_INPUT, *dict.fromkeys(f"{home.text}: {each.told()}" for each in taking.refused))
    warn([f"{home.text}: {read.name}: {note}" for read in decomposition.reads for note in read.notes])
    return decomposition


def said_of_all(catalogue: Declared, decomposition: Decomposition, text: str, inner: str) -> Said:
    """It, as it is noted."""
    mirrors = {each.table: each for each in decomposition.mirrors}
    tables = []
    for table in catalogue.tables:
        found = tuple(Expression(each.name, each.kind, each.expression) for each in mirrors[table.name].columns)
        tables.append(SaidTable(table.name, mirrors[table.name].name, table.null, columns_of(table), found))
    views = tuple(SaidView(read.name, read.query, over_of(read.query), tuple(map(read_column, read.columns))) for read in decomposition.reads)
    return Said(text, inner, tuple(tables), views)


def columns_of(table: DeclaredTable) -> tuple[Column, ...]:
    """The columns of a table."""
    return tuple(Column(each.name, each.kind.name, each.kind.digits, each.kind.places, each.is_filled) for each in table.columns)


def read_column(column: ReadColumn) -> Column:
    """A column of a view: of a number with its digits and places."""
    name, _, digits = column.type.partition("(")
    many, _, places = digits.rstrip(")").partition(",")
    return Column(column.name, name, int(many or 0), int(places or 0))


def over_of(query: str) -> tuple[str, ...]:
    """The tables that a query is over."""
    from ...views import tree
    from ...views.sqlite.spelled import SCHEMA
    return tuple(dict.fromkeys(str(each.relname) for each in tree.found(tree.parsed(query), "RangeVar") if each.schemaname == SCHEMA))


def judge_waiting(home: Home, said: Said) -> None:
    """Refuses another catalogue while changes wait that were taken for the mirrors of before."""
    mirrors = {each.mirror for each in said.tables}
    files = (home.inner / "changes").glob("*.csv") if (home.inner / "changes").is_dir() else []
    for file in files:
        found = CHANGES.fullmatch(file.name)
        if found and found[1] not in mirrors:
            raise Failure(BAD_INPUT, f"{file} waits, and was taken by the catalogue of before: put that back as {SQL} for one `whview folder night --commit`")


# ---- tables


def current(home: Home) -> int | None:
    """The number of the current version, or None before the first."""
    return named(home.inner) if home.inner.is_dir() else None


def in_version(home: Home) -> set[str]:
    """The base tables of the current version."""
    number = current(home)
    data = place(home.inner, number) / "data" if number is not None else None
    return {file.stem for file in data.glob("*.csv")} if data is not None and data.is_dir() else set()


def table_kept_as(home: Home, mirror: str) -> str:
    """The table of which the current version has a mirror of this name; the name itself where that is not noted."""
    number = current(home)
    former = said_by(home.inner, place(home.inner, number) / CATALOGUE) if number is not None else None
    return next((each.name for each in former.tables if each.mirror == mirror), mirror) if former else mirror


def fill(home: Home, said: Said) -> list[str]:
    """Turns tables that the current version does not have, from it where it has them otherwise, or from the files of data/. Answers the tables of it that
    are kept no more."""
    there, data = in_version(home), home.inner / "data"
    data.mkdir(exist_ok=True)
    mirrors = {each.mirror for each in said.tables}
    # What a catalogue of before wanted, of which no night was kept, is of no table any more.
    for file in data.glob("*.csv"):
        if file.stem not in mirrors:
            file.unlink()
    for table in said.tables:
        if table.mirror not in there:
            fill_one(home, table, data)
    return sorted(there - mirrors)


def fill_one(home: Home, table: SaidTable, data: Path) -> None:
    """One of them."""
    source, number = home.folder / "data" / f"{table.name}.csv", current(home)
    before = ShownTables(home.inner, number) if number is not None and said_by(home.inner, place(home.inner, number) / CATALOGUE) else None
    if before is not None and table.name in before.tables:
        source = data / f".{table.name}.before"
        write(source, [each.name for each in table.columns], former_rows(before, table))
        turn(source, table, f"the table {table.name} as it was kept", data / f"{table.mirror}.csv")
        source.unlink()
        return
    if not source.is_file():
        raise Failure(BAD_INPUT, f"there is no {source} with the table {table.name}, or with its header alone")
    turn(source, table, str(source), data / f"{table.mirror}.csv")


def former_rows(before: ShownTables, table: SaidTable) -> Iterator[list[str]]:
    """The rows of a table as a version has it, as this one's columns are written; a column that is new is NULL."""
    former, old = before.tables[table.name], [each.name for each in before.tables[table.name].columns]
    for row in before.rows_of_table(former):
        by_name = dict(zip(old, zip(row, former.columns)))
        yield [cell_of(*by_name[each.name], table.null) if each.name in by_name else table.null for each in table.columns]
