"""A night over tables of one's own, what a script of it is, and of what parts one is made."""

from __future__ import annotations

from collections.abc import Iterable, Mapping, Sequence
from dataclasses import dataclass, field
from typing import TYPE_CHECKING, Protocol, TypeVar

from .dialect import Dialect
from .tokens import Sql

if TYPE_CHECKING:
    from .engine import Engine
    from .steps import Expression, Steps
    from .stepwise import Comment
    from .tables import Catalogued


@dataclass(frozen=True, slots=True)
class Night:
    """What is carried out: a catalogue over tables of one's own. `plain` has the base views whose tables have no column of counts, `keyed` of base views
    the places of a key that is said."""

    catalogue: Catalogued
    plain: frozenset[int] = frozenset()
    keyed: Mapping[int, Sequence[int]] = field(default_factory=dict)


class Script(Protocol):
    """The statements over the tables of a catalogue."""

    @property
    def dialect(self) -> Dialect: ...
    @property
    def steps(self) -> Steps: ...

    def creation(self) -> list[Sql]:
        """What makes the tables and indexes that do not pass with a night."""

    def open(self, comment: Comment) -> list[Sql]:
        """What fills the derived views from scratch."""

    def night(self, strategy: Iterable[Expression], comment: Comment) -> list[Sql]:
        """What carries out the changes by a strategy."""


E_contra = TypeVar("E_contra", bound="Engine", contravariant=True)


class Parts(Protocol[E_contra]):
    """Of what the scripts of an engine are made; a trial hands in others."""

    def script(self, night: Night, engine: E_contra) -> Script:
        """The script of a night."""
