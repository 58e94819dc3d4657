"""Which numbers of a first summary make no sense when they are added up, and why."""

from __future__ import annotations

from typing import TYPE_CHECKING

if TYPE_CHECKING:
    from .exports import Column, Export
    from .proposals import Source

# Words of a name that say so: a number of one piece, a share, or one that tells when or how far.
OF_ONE = {"price", "rate", "percent", "pct", "ratio", "share", "factor", "average", "avg", "mean", "per", "unit", "each", "unitprice"}
OF_ONE |= {"year", "quarter", "month", "week", "day", "hour", "age", "rank", "level", "version", "latitude", "longitude", "lat", "lon", "zip"}
# How many rows there have to be for each key before it is told that a number goes with the key.
ROWS_A_KEY = 2


def why_not(table: Export, column: Column, source: Source) -> str:
    """Why a number is not worth adding up, or an empty text: it is not of the table whose rows are counted, it is named for one piece or
    a share, or goes with a key, as a price goes with an article.
    """
    if table is not source.facts:
        return f"it is of {table.name}, a row of which stands beside many of {source.facts.name}"
    words = OF_ONE & set(column.name.split("_"))
    if words:
        return f"by its name it is a {sorted(words)[0]}, of which a sum says nothing"
    way = next((way for way in source.ways if way.table is table and goes_with(column, way.column)), None)
    return f"each {way.column.name} has one value of it, as an article has one price" if way else ""


def goes_with(column: Column, key: Column) -> bool:
    """Whether the rows of each of several keys have one value of a column, which has several."""
    is_told = 1 < len(key.values) <= len(key.cells) // ROWS_A_KEY and len(column.values) > 1
    return is_told and len(set(zip(key.cells, column.cells))) == len(key.values)
