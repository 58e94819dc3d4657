"""The one way to a script: what is carried out, and by which engine."""

from __future__ import annotations

from typing import Any, TypeVar

from .engine import Engine
from .engines.registry import ENGINES
from .night import Night, Parts, Script

E = TypeVar("E", bound=Engine)


def parts_of(engine: Engine) -> Parts[Any]:
    """Of what the scripts of an engine are made."""
    return ENGINES[engine.engine].parts()


def carry(night: Night, engine: E, parts: Parts[E] | None = None) -> Script:
    """The script of a night over tables of one's own; a trial hands in other parts than the engine's."""
    return (parts or parts_of(engine)).script(night, engine)
