"""Catalogues without a fault, read as views."""

import tomllib
from collections.abc import Callable, Mapping
from typing import Any, TypeAlias

from .views import Formula, Kind, Place, Text, View

# A text in a formula, or the number that stands for it.
Texts: TypeAlias = Callable[[str], Formula]
# A table or a formula as TOML has it. What stands in it has been judged before.
Table: TypeAlias = Mapping[str, Any]
Given: TypeAlias = object


def views_of(text: str, number: Texts = Text) -> list[View]:
    """The views of a catalogue's text. A text in a formula stands for itself, or for the number that it is given."""
    reader = Reader(number)
    for table in tomllib.loads(text)["view"]:
        reader.views.append(reader.view(table))
    return reader.views


class Reader:
    """Reads one view after another."""

    def __init__(self, number: Texts) -> None:
        self.views: list[View] = []
        self.number = number

    def view(self, table: Table) -> View:
        if "over" not in table:
            columns = [column.partition(":") for column in table["columns"]]
            return View(table["name"], [(name, kind or Kind.INT) for name, _, kind in columns])
        over = [[view.name for view in self.views].index(name) for name in table["over"]]
        combined = [(f"{self.views[u].name}.{name}", kind) for u in over for name, kind in self.views[u].columns]
        places, kinds = {name: Place(place) for place, (name, _) in enumerate(combined)}, dict(combined)
        join = [(places[left], places[right]) for left, right in table.get("join", [])]
        where = self.formula(table.get("where", True), places)
        keep = [self.formula(kept, places) for _, kept in table["keep"]] if "keep" in table else None
        group = [places[reference] for _, reference in table.get("group", [])]
        sums = [self.formula(summed, places) for _, summed in table.get("sum", [])]
        shown = [(name, self.kind(kept, kinds)) for name, kept in table["keep" if "keep" in table else "group"]]
        if keep is None:
            shown += [(name, Kind.INT) for name in [table["count"], *(name for name, _ in table.get("sum", []))]]
        return View(table["name"], shown, over, join, where, keep, group, sums)

    def kind(self, kept: Given, kinds: Mapping[str, Kind]) -> Kind:
        """The kind of a kept column or a group."""
        return Kind.TEXT if isinstance(kept, dict) else kinds[kept] if isinstance(kept, str) else Kind.INT

    def formula(self, given: Given, places: Mapping[str, Place]) -> Formula:
        match given:
            case {"text": str(text)}:
                return self.number(text)
            case str():
                return places[given]
            case [str(sign), *members]:
                return [sign, *(self.formula(member, places) for member in members)]
            case int():
                return given
        raise TypeError(f"{given!r} is no formula")
