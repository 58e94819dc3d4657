"""What the commands are given of an engine: a class of these functions, in a module of its own, which the registry names."""

from __future__ import annotations

from abc import ABC, abstractmethod
from argparse import Namespace
from typing import Any, ClassVar

from ..capture.live import Live
from ..catalogue import Catalogue
from ..night import Parts, Script
from ..tokens import Unfit


class EngineEntry(ABC):
    """An engine: how it is named in words and in sentences, its scripts over tables of one's own, and what captures tables there, if anything does."""

    name: ClassVar[str]
    said: ClassVar[str]
    live: ClassVar[type[Live[Any]] | None] = None

    @abstractmethod
    def script(self, catalogue: Catalogue, words: Namespace) -> Script:
        """The script that is asked for; words of another engine are refused."""

    @abstractmethod
    def failing(self, told: str) -> list[str]:
        """The lines of a script that raises, and does nothing else."""

    def parts(self) -> Parts[Any]:
        """Of what its scripts over tables of one's own are made, where a trial may hand in others."""
        raise Unfit(f"the scripts of {self.said} are made in one piece")
