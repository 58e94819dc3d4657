"""An expression that the parser has printed, as the tokens of which scripts are made."""

from __future__ import annotations

import re
from collections.abc import Callable

from ..sql.tokens import MARKS, Sql, Unfit, joined, name, number, sql, text, word

PIECE = re.compile(
    r"(?P<blank>\s+)|(?P<text>'(?:[^']|'')*')|(?P<name>\"(?:[^\"]|\"\")*\")|(?P<part>[0-9]*\.[0-9]+(?:[eE][+-]?[0-9]+)?|[0-9]+[eE][+-]?[0-9]+)|(?P<number>[0-9]+)"
    r"|(?P<word>[A-Za-z_][A-Za-z0-9_$]*)|(?P<mark>::|\|\||<=|>=|<>|!=|[^\w\s'\"().,;:\[\]]+|[().,:\[\]])"
)
# What operators that scripts have no mark for are called by.
FUNCTIONS = {
    "~~": "LIKE", "!~~": "NOT LIKE", "~~*": "ILIKE", "!~~*": "NOT ILIKE",
}


def as_numeric(said: Sql) -> Sql:
    """A number with a point, as PostgreSQL has it."""
    return sql("{said}::numeric", said=said)


def as_real(said: Sql) -> Sql:
    """The same as SQLite has it."""
    return sql("CAST({said} AS REAL)", said=said)


def tokens(said: str, pointed: Callable[[Sql], Sql] = as_numeric) -> Sql:
    """The tokens of an expression. `pointed` makes a number of a text that has a point, or is beyond 64 bits."""
    found, at = list[Sql](), 0
    while at < len(said):
        piece = PIECE.match(said, at)
        if piece is None:
            raise Unfit(f"{said!r} has {said[at]!r}, of which no script is made")
        at = piece.end()
        found += token(str(piece.lastgroup), piece[0], pointed)
    return joined(found, None)


def token(kind: str, said: str, pointed: Callable[[Sql], Sql]) -> list[Sql]:
    """A token of a kind."""
    match kind:
        case "blank":
            return []
        case "text":
            return [text(said[1:-1].replace("''", "'"))]
        case "name":
            return [name(said[1:-1].replace('""', '"'))]
        case "part":
            return [pointed(text(said))]
        case "number":
            return [number(int(said))] if int(said) < 2**63 else [pointed(text(said))]
        case "word":
            return [word(said)]
    return mark(said)


def mark(said: str) -> list[Sql]:
    """A mark, or the words for an operator."""
    said = "<>" if said == "!=" else said
    if said in MARKS or len(said) == 1 and said in "().,[]":
        return [word(said)]
    if said in FUNCTIONS:
        # The operator by its words, which the parser reads as the same.
        return [word(each) for each in FUNCTIONS[said].split()]
    raise Unfit(f"the operator {said} has no mark in scripts")
