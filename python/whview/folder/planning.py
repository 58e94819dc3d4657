"""Plans of a folder: made by the program, certified by it, and their strategies."""

from __future__ import annotations

from collections.abc import Sequence
from typing import TYPE_CHECKING, NamedTuple, Protocol

from .. import program
from ..bundle import part
from .sizes import GivenText, sizes_text

if TYPE_CHECKING:
    from ..catalogue.from_toml import Catalogue
    from .command import Words
    from .folder import Folder


class Catalogued(Protocol):
    """What has a catalogue: a folder, or a night of it."""

    @property
    def catalogue(self) -> Catalogue: ...


class Planned(NamedTuple):
    """The text of a plan, and the sizes that it was made by."""

    plan: str
    sizes: GivenText


def parts(of: Catalogued, sizes: str, **more: str) -> bytes:
    """The bundle of the catalogue, the sizes and other parts."""
    catalogue = part("catalogue", of.catalogue.content)
    return b"".join([catalogue, part("sizes", sizes.encode()), *(part(name, text.encode()) for name, text in more.items())])


def planned(folder: Folder, words: Words, options: Sequence[str] = ()) -> Planned:
    """A plan of least work, as the program makes it."""
    sizes = sizes_text(folder, words)
    return Planned(program.answer(words.program, "plan", parts(folder, sizes.text), options).decode(), sizes)


def certified(of: Catalogued, words: Words, plan: str, sizes: str, options: Sequence[str] = ()) -> str:
    """What the program says of a plan."""
    return program.answer(words.program, "certify", parts(of, sizes, plan=plan), options).decode().strip()


def strategy_of(plan: str) -> str:
    """The strategy in a plan."""
    return "".join(f"{line}\n" for line in plan.splitlines() if line.startswith(("comp ", "inst ")))
