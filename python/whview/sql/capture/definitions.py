"""By what definitions derived views are filled, and which of them are filled anew."""

from __future__ import annotations

from collections.abc import Iterable, Mapping
from hashlib import sha256
from typing import Protocol

from ..comments import Sized
from ..dialect import Dialect
from ..steps import Expression, Steps
from ..tables import Catalogued, Tables


class Planned(Catalogued, Sized, Protocol):
    """A catalogue with its sizes, where they are known, by which the work of a night's steps is noted, and its strategy."""

    @property
    def names(self) -> Mapping[str, int]: ...

    def correct(self) -> list[Expression]: ...


def told_unopened(said: str) -> str:
    return f"view {said} was not filled by the definition that the catalogue has: run whview sql open --live"


def definitions(tables: Tables[Dialect]) -> dict[int, str]:
    """The numbers of the derived views, each with a digest of its definition."""
    return {v: sha256("\n".join(tables.words.definition(v)).encode()).hexdigest() for v in tables.steps.derived()}


def filled_anew(steps: Steps, chosen: Iterable[int] | None = None) -> list[int]:
    """The derived views that are filled where these are, or all: these themselves, and those over them."""
    if chosen is None:
        return steps.derived()
    found = set(chosen)
    for v in steps.derived():
        found |= {v} if found.intersection(steps.views[v].over) else set()
    return sorted(found.intersection(steps.derived()))
