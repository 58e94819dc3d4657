"""A first catalogue of tables: which columns lead from one to another, views that follow them, and summaries."""

from __future__ import annotations

from collections.abc import Collection, Iterator, Mapping, Sequence
from itertools import permutations
from typing import TYPE_CHECKING, NamedTuple, TypeAlias

from ..catalogue.formulas import MOST_COLUMNS
from ..catalogue.from_toml import MOST_CHILDREN, MOST_VIEWS
from ..catalogue.views import Kind
from .apart import why_apart
from .exports import free
from .sums import why_not

if TYPE_CHECKING:
    from .exports import Column, Export

# Names that say nothing of what they number, so that a key of this name leads to no other one.
GENERAL = ("id", "key", "no", "nr", "number", "code", "name", "date", "type", "status")
# Of how many different values, of a hundred, the other table has to have a row.
AGREE = 90
# Below how many different values a text is worth grouping by, and how many sums a first summary has.
FEW, MOST_SUMS = 200, 8


class Placed(NamedTuple):
    """A column with its table."""

    table: Export
    column: Column


# Columns by the names of their tables and their own: those that lead to a key, and keys that others lead to.
Leading: TypeAlias = Collection[tuple[str, str]]


class Way(NamedTuple):
    """That a column of one table has values of another's key."""

    table: Export
    column: Column
    other: Export
    key: Column

    @property
    def pair(self) -> str:
        return f'["{self.table.name}.{self.column.name}", "{self.other.name}.{self.key.name}"]'

    @property
    def lost(self) -> int:
        """How many rows have a value that the other table lacks, or none, and so join with no row."""
        return sum(1 for cell in self.column.cells if cell not in self.key.values)


def singular(name: str) -> str:
    """The name of one of what a table has."""
    if name.endswith("ies"):
        return name[:-3] + "y"
    return name[:-1] if name.endswith("s") else name


def names_agree(column: Column, other: Export, key: Column) -> bool:
    """Whether a column's name says that it has values of this key: it has the key's name, or that of what the other table has."""
    one = singular(other.name)
    return column.name in (key.name, one, f"{one}_{key.name}", f"{other.name}_{key.name}", f"{one}{key.name}")


def values_agree(column: Column, key: Column) -> bool:
    """Whether nearly each value of a column, but for empty cells, is one of this key."""
    values = column.values - {""}
    return column.kind == key.kind and bool(values) and 100 * len(values & key.values) >= AGREE * len(values)


def ways(tables: Sequence[Export]) -> list[Way]:
    """The ways from each table to others, one at most to each, and none back."""
    found: list[Way] = []
    for table, other in permutations(tables, 2):
        if not any(way.table is other and way.other is table for way in found):
            found += candidates(table, other)[:1]
    return found


def candidates(table: Export, other: Export) -> list[Way]:
    """The columns of a table that have values of a key of another one, those first that are named for it."""
    pairs = [(column, key) for key in other.columns if key.is_key for column in table.columns]
    fit = [(column, key) for column, key in pairs if names_agree(column, other, key) and values_agree(column, key)]
    fit = [(column, key) for column, key in fit if not (column.is_key and column.name == key.name and key.name in GENERAL)]
    fit.sort(key=lambda pair: pair[0].name == pair[1].name and pair[1].name in GENERAL)
    return [Way(table, column, other, key) for column, key in fit]


def unjoined(tables: Sequence[Export]) -> list[str]:
    """What is to be told of columns that are named as if they led to another table, and do not, once of two tables that no way joins."""
    joined = [{way.table.name, way.other.name} for way in ways(tables)]
    told: dict[frozenset[str], str] = {}
    for table, other in permutations(tables, 2):
        both = frozenset((table.name, other.name))
        if both not in joined and both not in told:
            told |= {both: text for text in list(filter(None, map(why_apart, named_alike(table, other))))[:1]}
    return list(told.values())


def named_alike(table: Export, other: Export) -> list[Way]:
    """The columns of a table that are named for a key of another, as if they were ways."""
    pairs = [(column, key) for key in other.columns if key.is_key for column in table.columns if names_agree(column, other, key)]
    return [Way(table, column, other, key) for column, key in pairs if column.name != key.name or key.name not in GENERAL]


def followed(table: Export, known: Sequence[Way]) -> list[Way]:
    """The ways that lead from a table on, each to a table that was not reached before, as many as a view can be over."""
    reached = [table]
    taken: list[Way] = []
    for at in reached:
        for way in (way for way in known if way.table is at):
            if way.other not in reached and len(reached) < MOST_CHILDREN:
                reached.append(way.other)
                taken.append(way)
    return taken


def kept_columns(table: Export, taken: Sequence[Way]) -> dict[str, Placed]:
    """The columns of a joined view: those of all its tables, but for the keys that others lead to, each name once."""
    keys = {(way.other.name, way.key.name) for way in taken}
    found: dict[str, Placed] = {}
    placed = (Placed(each, column) for each in [table, *(way.other for way in taken)] for column in each.columns)
    for each, column in placed:
        if (each.name, column.name) not in keys:
            name = column.name if column.name not in found else f"{each.name}_{column.name}"[:64]
            found.setdefault(name, Placed(each, column))
    return dict(list(found.items())[:MOST_COLUMNS])


class Joined(NamedTuple):
    """A view over a table and those that its columns lead to."""

    name: str
    table: Export
    taken: list[Way]

    @property
    def columns(self) -> dict[str, Placed]:
        return kept_columns(self.table, self.taken)

    def lines(self) -> Iterator[str]:
        """The view as TOML, with what it leaves out."""
        others = ", ".join(way.other.name for way in self.taken)
        yield f"# A row of {self.table.name} with what its columns lead to in {others}."
        for way in self.taken:
            if way.lost:
                yield f"# Of {way.table.name} {way.lost} rows have no row of {way.other.name}, and are not in it."
        yield from ("[[view]]", f'name = "{self.name}"')
        over = ", ".join(f'"{each.name}"' for each in [self.table, *(way.other for way in self.taken)])
        yield f"over = [{over}]"
        yield f"join = [{', '.join(way.pair for way in self.taken)}]"
        yield "keep = ["
        yield from (f'  ["{name}", "{table.name}.{column.name}"],' for name, (table, column) in self.columns.items())
        yield "]"


class Summary(NamedTuple):
    """What a joined view, or a table, comes to by one of its texts; and the numbers that are not added up, each with the cause."""

    name: str
    over: str
    group: str
    sums: list[str]
    left: dict[str, str]

    def lines(self) -> Iterator[str]:
        """The view as TOML."""
        count = free("rows", [self.group, *self.sums])
        yield f"# What {self.over} comes to by {self.group}."
        yield from (f"# {name} is not added up: {why}." for name, why in self.left.items())
        yield from ("[[view]]", f'name = "{self.name}"', f'over = ["{self.over}"]')
        yield f'group = [["{self.group}", "{self.over}.{self.group}"]]'
        yield f'count = "{count}"'
        if self.sums:
            pairs = (f'["{name}", "{self.over}.{name}"]' for name in self.sums)
            yield f"sum = [{', '.join(pairs)}]"


# A view of a first catalogue.
Proposed: TypeAlias = Joined | Summary


class Source(NamedTuple):
    """What a summary is over: a view with its columns, the table whose rows it has, and the ways that lead on from that."""

    name: str
    columns: Mapping[str, Placed]
    facts: Export
    ways: list[Way]


def summary_of(source: Source, leading: Leading, taken: Collection[str]) -> Summary | None:
    """A summary by the text with fewest values, over the numbers that are neither keys nor lead to one; None without such a text."""
    texts = [(len(column.values), name) for name, (_, column) in source.columns.items() if is_group(column)]
    if not texts:
        return None
    group = min(texts)[1]
    numbers = {name: at for name, at in source.columns.items() if at.column.kind == Kind.INT and is_measure(*at, leading)}
    left = {name: why_not(*at, source) for name, at in numbers.items()}
    sums = [name for name in numbers if not left[name]][:MOST_SUMS]
    return Summary(free(f"{source.name}_by_{group}"[:60], taken), source.name, group, sums, {name: why for name, why in left.items() if why})


def is_group(column: Column) -> bool:
    """Whether a column is a text by which rows come together."""
    return column.kind == Kind.TEXT and 1 < len(column.values) <= FEW and not column.is_key


def is_measure(table: Export, column: Column, leading: Leading) -> bool:
    """Whether a column of numbers is one to add up: no key, none that leads to one, none that is named for one, and no date."""
    is_named = column.name in GENERAL or column.name.endswith(("_id", "_no", "_nr")) or column.name == singular(table.name)
    return not is_named and (table.name, column.name) not in leading and not column.is_date


def joined_views(tables: Sequence[Export], known: Sequence[Way], names: list[str]) -> list[Joined]:
    """A view for each table that leads to others, unless a view before it has all of it; tables that nothing leads to come first."""
    reached = {way.other.name for way in known}
    found: list[Joined] = []
    covered: set[str] = set()
    for table in sorted(tables, key=lambda each: each.name in reached):
        taken = followed(table, known)
        if taken and table.name not in covered:
            found.append(Joined(free(f"{table.name}_joined"[:60], names), table, taken))
            names.append(found[-1].name)
            covered |= {table.name, *(way.other.name for way in taken)}
    return found


def proposed(tables: Sequence[Export]) -> list[Proposed]:
    """The derived views of a first catalogue, in the order in which they stand in it."""
    known, names = ways(tables), [table.name for table in tables]
    leading = {(way.table.name, way.column.name) for way in known} | {(way.other.name, way.key.name) for way in known}
    ones = {singular(table.name) for table in tables}
    leading |= {(table.name, column.name) for table in tables for column in table.columns if column.name in ones}
    return with_summaries(tables, joined_views(tables, known, names), names, leading)


def with_summaries(tables: Sequence[Export], joined: Sequence[Joined], taken: list[str], leading: Leading) -> list[Proposed]:
    """The joined views, and of each a summary; where no table leads to another, summaries of the tables."""
    sources = [Source(view.name, view.columns, view.table, view.taken) for view in joined]
    own = [Source(table.name, {column.name: Placed(table, column) for column in table.columns}, table, []) for table in tables]
    found: list[Proposed] = list(joined)
    for source in sources or own:
        summary = summary_of(source, leading, taken)
        if summary:
            taken.append(summary.name)
            found.append(summary)
    return found[: MOST_VIEWS - len(tables)]


def catalogue_text(tables: Sequence[Export], views: Sequence[Proposed]) -> str:
    """The catalogue as TOML: the tables with what is to be known of their columns, and the views over them."""
    lines = ["# Made by whview folder init: a first catalogue, to be changed as it is wanted."]
    for table in tables:
        lines.append("")
        lines += [f"# {column.note}." for column in table.columns if column.note]
        columns = ", ".join(column.written for column in table.columns)
        lines += ["[[view]]", f'name = "{table.name}"', f"columns = [{columns}]"]
    lines += [""] * bool(tables) + [f"# {text[:1].upper()}{text[1:]}." for text in unjoined(tables)]
    for view in views:
        lines += ["", *view.lines()]
    return "\n".join(lines) + "\n"
