"""What a stopped night has left, told from what is there; the next night finishes or undoes it."""

from __future__ import annotations

from pathlib import Path
from typing import TYPE_CHECKING

from ..disk import remove, sync
from ..finding import Failure, of_system
from ..status import BAD_INPUT
from .claim import put_back
from .copied import judge_copy
from .gate import Gate
from .identity import identity_of
from .puts import settled
from .seen import PART as SEEN_PART
from .versions import GONE, PART, TURNED, VERSIONS, ending, named, newest, point, turn

if TYPE_CHECKING:
    from .identity import Identity

FINISHED = "a night that was stopped is finished"
UNDONE = "a night that was stopped is undone; its changes lie in changes/ again"


def is_behind(folder: Path, identity: Identity | None = None) -> bool:
    """Whether a version that counts is newer than the one that `current` names."""
    return newest(folder, identity) != named(folder)


def is_stopped(folder: Path) -> bool:
    """Whether a night was begun and is neither finished nor undone."""
    return is_behind(folder) or bool(ending(folder, PART))


def told(folder: Path) -> str:
    """That a night was stopped, and what sees to it."""
    return f"a night was stopped in {folder}; `whview folder night {folder} --commit` finishes or undoes it"


def unremoved(scrap: Path) -> list[str]:
    """Removes what nobody reads any more. Where that cannot be, as of another owner's, nights go on; what is told of it."""
    try:
        remove(scrap)
    except OSError as error:
        return [f"{scrap} is not wanted any more, and cannot be removed: {of_system(error)}"]
    return []


def finish(folder: Path, number: int) -> None:
    """Has `current` be a night's version that was decided."""
    # What most nights do not need is imported where it is needed.
    from .aside import lay

    sync(folder / VERSIONS)
    lay(folder, number)
    point(folder, number)
    turn(folder)
    remove(folder / "new")


def settle(folder: Path, turns: bool = True, adopts: bool = False) -> list[str]:
    """Finishes a night that was decided, where `current` may be turned, undoes one that was not, and says so."""
    said: list[str] = []
    identity = identity_of(folder)
    number = newest(folder, identity)
    is_late = number != named(folder)
    if is_late and not turns:
        raise Failure(BAD_INPUT, told(folder))
    judge_copy(folder, identity, adopts)
    remove(folder / TURNED)
    for scrap in [*ending(folder, GONE, identity), folder / "new.part", folder / "new.old", folder / "versions.part", folder / SEEN_PART]:
        said += unremoved(scrap)
    if is_late and number is not None:
        finish(folder, number)
        said.append(FINISHED)
    for part in ending(folder, PART, identity):
        with Gate(folder):
            put_back(folder, part)
        said.append(UNDONE)
    return said + settled(folder)
