"""`plan`: a plan of least work for a folder, on standard output; from where its sizes are, on standard error."""

from __future__ import annotations

from typing import TYPE_CHECKING

from ..finding import warn
from ..status import DONE, Status
from .folder import sound
from .planning import planned

if TYPE_CHECKING:
    from .command import Words


def run(words: Words) -> Status:
    found = planned(sound(words.folder), words, words.through)
    warn([f"sizes {found.sizes.source}"])
    print(found.plan, end="")
    return DONE
