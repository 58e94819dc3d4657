"""Queries that stand in a FROM without a name, and functions that are called as types are, which SQLite takes and the parser does not: the queries get names,
and the functions quotes. Places are told in the text as it was."""

from __future__ import annotations

import re
from dataclasses import dataclass

from .. import tree
from ..tree import Node

PIECE = re.compile(r"'(?:[^']|'')*'|\"(?:[^\"]|\"\")*\"|(?P<comment>--[^\n]*|/\*.*?\*/)|\w+|\S", re.DOTALL)
# What begins a query, what stands before an item of a FROM, what ends a FROM, and what stands behind an item that has no name.
BEGIN, BEFORE = frozenset(("select", "with", "values")), frozenset(("from", "join", ",", "("))
ENDS = frozenset("select where group having order limit window union except intersect".split())
BEHIND = ENDS | frozenset(("join", "left", "right", "full", "inner", "outer", "cross", "natural", "on", "using", ",", ")", ";", ""))


@dataclass(slots=True)
class Level:
    """What stands within a pair of parentheses: whether it is a query in a FROM, and whether items of a FROM come at this place."""

    is_item: bool
    is_from: bool


# What the parser takes for a type where parentheses stand behind it.
TYPES = ("time", "timestamp")


class Named:
    """A text of SQL with a name for each such query, and quotes for each such function."""

    def __init__(self, text: str) -> None:
        self.pieces = [piece for piece in PIECE.finditer(text) if piece["comment"] is None]
        self.words = [*(piece[0].lower() for piece in self.pieces), ""]
        self.name = next(name for at in range(1, 999) if (name := f"unnamed{at}") not in text.lower())
        self.inserted = sorted([*((end, f" AS {self.name}_{at}") for at, end in enumerate(self.unnamed(), 1)), *((place, '"') for place in self.called())])
        parts, begin = list[str](), 0
        for end, said in self.inserted:
            parts += [text[begin:end], said]
            begin = end
        self.text = "".join([*parts, text[begin:]])

    def unnamed(self) -> list[int]:
        """Where such queries end."""
        levels, found = [Level(False, False)], list[int]()
        for at, word in enumerate(self.words[:-1]):
            before, behind = self.words[at - 1] if at else "", self.words[at + 1]
            if word == "(":
                is_place = levels[-1].is_from and before in BEFORE and (before, self.words[at - 2]) != ("from", "distinct")
                levels.append(Level(is_place and behind in BEGIN, is_place and behind not in BEGIN))
            elif word == ")" and len(levels) > 1:
                found += [self.pieces[at].end()] if levels.pop().is_item and behind in BEHIND else []
            elif word in ENDS or word == "from" and before != "distinct":
                levels[-1].is_from = word == "from"
        return found

    def called(self) -> list[int]:
        """Where the names of such functions begin and end."""
        found = [piece for at, piece in enumerate(self.pieces) if self.words[at] in TYPES and self.words[at + 1] == "(" and (at == 0 or self.words[at - 1] != "as")]
        return [place for piece in found for place in piece.span()]

    def place(self, place: int) -> int:
        """Where something stands in the text as it was, in letters."""
        more = 0
        for end, said in self.inserted:
            more += len(said) if place - more > end else 0
        return place - more if place >= 0 else place

    def placed(self, statement: Node) -> Node:
        """A tree whose places are those of the text as it was."""
        def change(node: Node) -> Node | None:
            made = tree.below_changed(node, change)
            return tree.with_values(made, {"location": self.place(made.location)}) if isinstance(getattr(made, "location", None), int) else made
        return tree.changed(statement, change) if self.inserted else statement
