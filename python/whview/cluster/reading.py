"""`read` and `versions`: a session reads one version to its end, or is told that it is gone."""

from __future__ import annotations

from typing import TYPE_CHECKING

from ..finding import Failure
from . import standing
from .servers import Lost, Servers
from .status import REFUSED
from .streaming import record_of

if TYPE_CHECKING:
    from collections.abc import Iterator

    from ..catalogue.views import Row
    from .versions import Version
    from .warehouse import Warehouse


def version(warehouse: Warehouse, seq: int | None = None) -> Version:
    """The row of a version, or of the newest."""
    if seq is None:
        return warehouse.versions.newest()
    found = warehouse.versions.genuine(seq)
    if found is None:
        newest = warehouse.versions.newest().seq
        was = "is gone: it was swept" if seq < newest else f"is none: {newest} is the newest"
        raise Failure(REFUSED, f"whview cluster: version {seq} {was}")
    return found


class Session:
    """Reads a version. What it was given is told sound, or not, at the end."""

    def __init__(self, warehouse: Warehouse, seq: int | None = None) -> None:
        self.warehouse, self.version = warehouse, version(warehouse, seq)
        self.of_all = False
        if warehouse.copies:
            # The rows of a version have been put in when it is made, and may be on their way to the servers that are asked.
            standing.judge(warehouse, self.version, standing.asked(warehouse), self.judge_kept)

    def rows(self, v: int) -> list[tuple[Row, int]]:
        """The rows of a view, sorted, each with its count behind it."""
        script = self.warehouse.script(self.version.slots)
        self.of_all |= script.is_shared(v)
        made = script.contents(v)
        found = self.warehouse.versions.asked(made.said)
        kinds, is_summary = script.kinds(v), script.shape.is_summary(v)
        rows: list[tuple[Row, int]] = []
        for row in found:
            cells: Row = tuple(int(cell) if kind == "int" else cell for cell, kind in zip(row, kinds))
            rows.append((cells, 1 if is_summary else int(row[-1])))
        return rows

    def end(self) -> None:
        """Looks whether all of the version is there, on the servers that were read; and then whether it is still the one that was read,
        without which rows may have gone meanwhile."""
        servers = self.warehouse.servers if self.of_all else Servers([self.warehouse.servers.first])
        standing.judge(self.warehouse, self.version, standing.asked(self.warehouse, servers), self.judge_kept)
        self.judge_kept()

    def judge_kept(self) -> None:
        if self.warehouse.versions.row(self.version.seq) != self.version:
            raise Failure(REFUSED, f"whview cluster: version {self.version.seq} is gone: it was swept while it was read")

    def read(self, v: int) -> list[tuple[Row, int]]:
        """A view's rows, all of this version."""
        rows = self.rows(v)
        self.judge(v, sum(count for _, count in rows))
        return rows

    def streamed(self, v: int) -> Iterator[str]:
        """The same, row by row as they come, as records of a file. It ends with an error where they are not all of this version."""
        script, has = self.warehouse.script(self.version.slots), 0
        self.of_all |= script.is_shared(v)
        width, is_summary = len(script.kinds(v)), script.shape.is_summary(v)
        for said in self.warehouse.servers.first.lines(self.warehouse.written(script.contents(v).said)):
            found = record_of(said, width, is_summary)
            if found is None:
                raise Lost(f"{self.warehouse.servers.first}: an answer that is not whole: {said[-120:].decode(errors='replace')!r}")
            has += found[1]
            yield found[0]
        self.judge(v, has)

    def judge(self, v: int, has: int) -> None:
        """Refuses rows of a view, so many, that are not those of the version."""
        self.end()
        had = self.version.totals[v]
        if had != has:
            name = self.warehouse.catalogue.views[v].name
            told = f"{name} has {has} rows in version {self.version.seq}, which says {had}: somebody changed its tables by hand"
            raise Failure(REFUSED, f"whview cluster: {told}")
