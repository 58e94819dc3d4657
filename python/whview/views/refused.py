"""Why a view is not taken: which part of it, where that stands, the cause, and what to write instead."""

from __future__ import annotations

from dataclasses import dataclass


@dataclass(frozen=True, slots=True)
class Spot:
    """A line and a column, from 1, of a view's text as the database prints it."""

    view: str
    line: int
    column: int


class Refused(Exception):
    """A part that cannot be kept, with its place in letters behind the beginning of its view's text, or -1 where that is not known."""

    def __init__(self, part: str, cause: str, instead: str, location: int = -1) -> None:
        super().__init__(f"{part} cannot be kept: {cause}; {instead}")
        self.part, self.cause, self.instead, self.location = part, cause, instead, location
        self.spot: Spot | None = None

    def located(self, view: str, text: str) -> Refused:
        """The same with its line and column, if no inner view had it."""
        if self.spot is None:
            before = text[: max(self.location, 0)]
            self.spot = Spot(view, before.count("\n") + 1, len(before) - before.rfind("\n"))
        return self

    def told(self) -> str:
        """A line for whoever reads it."""
        where = f"{self.spot.view}, line {self.spot.line}, column {self.spot.column}: " if self.spot else ""
        return f"{where}{self}"
