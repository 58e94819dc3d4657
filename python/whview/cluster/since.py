"""`changes`: what base tables changed since a version, as files of a night's changes. A warehouse that was restored from a backup of that
version catches up by one night with them, however many nights and folds came since.

Contents are linear in slots. So it is what the slots add up to that the newest version alone lists, less what those do that the older one
alone lists; and the prints of both say whether all of it is there. Files get their names when all are known to be right.
"""

from __future__ import annotations

from typing import TYPE_CHECKING

from .. import disk
from ..catalogue.parts import line
from ..finding import Failure
from ..sql.slots import HASHES, NO_SLOT
from ..sql.tokens import joined, number
from . import standing
from .backup import judge_free, pinned
from .reading import Session
from .status import REFUSED
from .streaming import cells_of
from .versions import WHOLE, Stage

if TYPE_CHECKING:
    from collections.abc import Iterable, Iterator
    from pathlib import Path

    from .versions import Version
    from .warehouse import Warehouse

# So a file's name ends that is not whole yet, of which no night is made.
NEW = ".new"


def changes(warehouse: Warehouse, folder: Path, seq: int) -> Version:
    """Writes what changed since a version into a folder that is not there yet, or is empty. Answers the newest version, up to which that is."""
    judge_free(folder)
    older = Session(warehouse, seq)
    if older.version.stage == Stage.CREATED:
        raise Failure(REFUSED, f"whview cluster: version {seq} has no tables yet: `backup` keeps a later one whole")
    with pinned(warehouse, older.version):
        newest = Session(warehouse)
        found = Since(older.version, newest.version, warehouse)
        folder.mkdir(parents=True, exist_ok=True)
        files = [path for v in warehouse.steps.base() if (path := found.written(v, folder))]
        found.judge()
        for session in (older, newest):
            session.of_all = True
            session.end()
    for path in files:
        disk.sync(path)
        path.rename(path.with_suffix(""))
    disk.sync(folder)
    return newest.version


class Since:
    """What comes between two versions, of which the older one may list slots that were folded since."""

    def __init__(self, older: Version, newest: Version, warehouse: Warehouse) -> None:
        self.older, self.newest, self.warehouse = older, newest, warehouse
        self.gone, self.come = ({*one.slots} - {*other.slots} for one, other in ((older, newest), (newest, older)))

    def written(self, v: int, folder: Path) -> Path | None:
        """The file of a view's changes; None where it has none."""
        view = self.warehouse.catalogue.views[v]
        path, rows = folder / f"{view.name}.csv{NEW}", self.rows(v)
        first = next(rows, None)
        if first is None:
            return None
        header = line(["#", *(name for name, _ in view.columns)])
        disk.write(path, (said.encode() for said in (header, first, *rows)))
        return path

    def rows(self, v: int) -> Iterator[str]:
        """The rows of a view that come and leave, as lines of a file."""
        warehouse = self.warehouse
        gone, come = (joined(map(number, sorted(each | {NO_SLOT}))) for each in (self.gone, self.come))
        said = warehouse.plain.between(v, come, gone).said
        for read in warehouse.servers.first.lines(warehouse.written(said)):
            *cells, count = cells_of(read)
            yield line([count, *cells])

    def judge(self) -> None:
        """Refuses slots whose rows are not by what the prints of the newest version differ from those of the older one."""
        warehouse, bases = self.warehouse, [*self.warehouse.steps.base()]
        had, has = (self.printed(bases, each) for each in (self.gone, self.come))
        for own, server in enumerate(warehouse.servers.all):
            for v in bases:
                one, other, more, less = (standing.of_view(warehouse, each, own, v) for each in (self.newest.prints, self.older.prints, has, had))
                if any((one[at] - other[at] - more[at] + less[at]) % WHOLE for at in range(len(HASHES))):
                    told = f"{warehouse.catalogue.views[v].name} on {server} has other rows than the versions say"
                    raise Failure(REFUSED, f"whview cluster: version {self.newest.seq} or {self.older.seq} is not whole: {told}; `check` tells what is lost")

    def printed(self, bases: list[int], slots: Iterable[int]) -> list[int]:
        return standing.printed(self.warehouse, bases, sorted({*slots, NO_SLOT}))
