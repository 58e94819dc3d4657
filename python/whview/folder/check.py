"""`check`: judges the folder's strategy.txt. Without sizes.csv and a report of these views its work is not known, and it is judged all the
same."""

from __future__ import annotations

from typing import TYPE_CHECKING

from .. import program
from ..finding import Failure
from ..status import BAD_INPUT, DONE, REFUSED, Status
from .folder import sound
from .planning import parts
from .sizes import Size, given_text, sized, told_before, weighed
from .strategy import FILE, Strategy

if TYPE_CHECKING:
    from .command import Words
    from .folder import Folder


def strategy_of(folder: Folder) -> str:
    """The text of strategy.txt, which has no fault and breaks no rule."""
    file = folder.path / FILE
    if not file.is_file():
        told = f"there is no {FILE} in {folder.path}; a night makes its own plan then, which `whview folder plan {folder.path}` prints"
        raise Failure(BAD_INPUT, told)
    text = file.read_bytes().decode(errors="replace")
    strategy = Strategy(text, folder.views)
    if strategy.findings:
        raise Failure(BAD_INPUT, *strategy.findings)
    broken = strategy.broken()
    if broken:
        raise Failure(REFUSED, broken)
    return text


def run(words: Words) -> Status:
    folder = sound(words.folder)
    given, told = given_text(folder), told_before(folder)
    text = strategy_of(folder)
    known = given if told is None or given is not None else sized(told)
    sizes = sized({view.name: Size(0, 0, 0) for view in folder.views}) if known is None else weighed(known, folder, words)
    lines = program.answer(words.program, "check", parts(folder, sizes, strategy=text), words.through).decode().splitlines()
    print("\n".join(lines if given is not None or told else lines[:1]))
    return DONE
