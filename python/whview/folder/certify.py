"""`certify`: judges the folder's plan.txt, or a plan that is made for it; by which sizes, it says on standard error."""

from __future__ import annotations

from typing import TYPE_CHECKING

from ..finding import warn
from ..status import DONE, Status
from .folder import sound
from .planning import certified, planned
from .sizes import sizes_text

if TYPE_CHECKING:
    from .command import Words


def run(words: Words) -> Status:
    folder = sound(words.folder)
    file = folder.path / "plan.txt"
    if file.is_file():
        plan, sizes = file.read_bytes().decode(errors="replace"), sizes_text(folder, words)
    else:
        plan, sizes = planned(folder, words)
    warn([f"sizes {sizes.source}"])
    print(certified(folder, words, plan, sizes.text, words.through))
    return DONE
