"""Names that are words of SQL: those that PostgreSQL or SQLite takes for parts of a statement, where they are not in quotes."""

from __future__ import annotations

import re

RESERVED = frozenset(
    """
    add all alter analyse analyze and any array as asc asymmetric authorization autoincrement between binary both case cast check collate collation column commit
    concurrently constraint create cross current_catalog current_date current_role current_schema current_time current_timestamp current_user default deferrable
    delete desc distinct do drop else end escape except exists false fetch for foreign freeze from full grant group having if ilike in index initially inner insert
    intersect into is isnull join lateral leading left like limit localtime localtimestamp natural not nothing notnull null offset on only or order outer overlaps
    placing primary references returning right select session_user set similar some symmetric table tablesample then to trailing transaction true union unique
    update user using values variadic verbose when where window with
    """.split()
)
# Texts and names in quotes, which stay; and what stands behind a point or an AS, which is a name, or the type of a cast.
PIECE = re.compile(r"'(?:[^']|'')*'|\"(?:[^\"]|\"\")*\"|(?P<before>\.|\bAS )(?P<word>[a-z_]+)\b")


def in_quotes(name: str) -> str:
    """A name, in quotes where it is a word of SQL."""
    return f'"{name}"' if name in RESERVED else name


def names_in_quotes(said: str) -> str:
    """SQL as PostgreSQL's parser prints it, with the names in quotes that SQLite takes for words."""
    return PIECE.sub(lambda piece: piece[0] if piece["word"] is None else piece["before"] + in_quotes(piece["word"]), said)
