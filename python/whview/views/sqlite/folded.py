"""Names as SQLite takes them, which does not look at the case of letters: in a tree all are in small letters. Names in brackets or grave accents are in quotes."""

from __future__ import annotations

import re

from .. import tree
from ..captured import small
from ..tree import Node

# What stands in a text of SQL as it is, and names as other systems quote them.
PIECE = re.compile(r"'(?:[^']|'')*'|\"(?:[^\"]|\"\")*\"|--[^\n]*|/\*.*?\*/|\[([^\]\"]*)\]|`([^`\"]*)`", re.DOTALL)
NAMES = {"RangeVar": ("relname", "schemaname"), "Alias": ("aliasname",), "ResTarget": ("name",), "CommonTableExpr": ("ctename",)}
LISTS = {"ColumnRef": "fields", "Alias": "colnames", "JoinExpr": "usingClause", "CommonTableExpr": "aliascolnames"}


def in_quotes(text: str) -> str:
    """A text with all quoted names in the quotes of the standard; it is as long as it was, so that places stay."""
    def change(piece: re.Match[str]) -> str:
        found = piece[1] if piece[1] is not None else piece[2]
        return piece[0] if found is None else f'"{found}"'
    return PIECE.sub(change, text)


def folded(statement: Node) -> Node:
    """A query with all names in small letters."""
    def change(node: Node) -> Node | None:
        kind = tree.kind(node)
        if kind not in NAMES and kind not in LISTS:
            return None
        made = tree.below_changed(node, change)
        values: dict[str, Node] = {slot: small(said) for slot in NAMES.get(kind, ()) if isinstance(said := getattr(made, slot, None), str)}
        listed = LISTS.get(kind)
        if listed and getattr(made, listed, None):
            values[listed] = tuple(tree.with_values(each, {"sval": small(each.sval)}) if tree.kind(each) == "String" else each for each in getattr(made, listed))
        return tree.with_values(made, values)
    return tree.changed(statement, change)
