"""`backup` and `restore`: a version in files, and a warehouse that begins with it, on as many servers or on others.

While it is copied the version is pinned, so that no sweep takes it away. Of each view there is a file for each server that has a part of it,
or one; the manifest, which has their digests and the version's prints, comes last, so that what was cut off is no backup. A restore puts
the files into slots, each into one of its own, since in a file each row stands once. Rows of a base table are shared out anew. Those of
derived views count wherever they lie. So the number of servers may be another one; the prints of all of them together stay the same.
"""

from __future__ import annotations

import hashlib
import json
from collections.abc import Iterator
from contextlib import contextmanager
from dataclasses import asdict, dataclass
from pathlib import Path
from typing import TYPE_CHECKING, Any

from .. import disk
from ..finding import Failure
from . import checking, standing
from .making import loadable
from .pouring import Pouring
from .reading import Session
from .status import BAD_INPUT, FAILED, REFUSED
from .versions import WHOLE, Purpose, Stage, stage_of
from .warehouse import digest

if TYPE_CHECKING:
    from collections.abc import Sequence

    from ..sql.slots import Slot
    from .servers import Server
    from .versions import Version
    from .warehouse import Warehouse

MANIFEST, FORM, PIECE = "manifest.json", 1, 2**20


@dataclass(frozen=True, slots=True)
class Part:
    """A file of a backup: of which view and which server, how many rows it has, and a digest of its bytes."""

    file: str
    view: str
    server: int
    rows: int
    sha256: str


@dataclass(frozen=True, slots=True)
class Manifest:
    """What a backup has: of which version of which catalogue, and what it holds. `prints` has of each view those of all servers together."""

    form: int
    catalogue: str
    database: str
    version: int
    stage: str
    at: int
    changes: str
    totals: list[int]
    gross: list[int]
    prints: list[list[int]]
    parts: list[Part]


# ---- out


@contextmanager
def pinned(warehouse: Warehouse, version: Version) -> Iterator[None]:
    """While it lasts no sweep takes a version away."""
    pin = warehouse.versions.pin(version.seq)
    try:
        yield
    finally:
        warehouse.versions.dropped("p", pin)


def backup(warehouse: Warehouse, folder: Path, seq: int | None = None) -> Manifest:
    """Writes a version into a folder that is not there yet, or is empty."""
    judge_free(folder)
    session = Session(warehouse, seq)
    if session.version.stage == Stage.CREATED:
        raise Failure(REFUSED, f"whview cluster: version {session.version.seq} has no tables yet: there is nothing to keep")
    with pinned(warehouse, session.version):
        if wrong := checking.faults(session):
            raise Failure(REFUSED, *(f"whview cluster: {fault}" for fault in wrong))
        folder.mkdir(parents=True, exist_ok=True)
        manifest = manifest_of(session, list(parts(session, folder)))
        session.of_all = True
        session.end()
    end(folder, manifest)
    return manifest


def judge_free(folder: Path) -> None:
    """Refuses a folder that has something."""
    if folder.exists() and (not folder.is_dir() or any(folder.iterdir())):
        raise Failure(REFUSED, f"whview cluster: {folder} is there already, and not empty")


def end(folder: Path, manifest: Manifest) -> None:
    """The manifest, when all else is on the disk."""
    disk.keep(folder)
    new = folder / f"{MANIFEST}.new"
    disk.write(new, [json.dumps(asdict(manifest), indent=1).encode()])
    disk.sync(new)
    new.rename(folder / MANIFEST)
    disk.sync(folder)


def parts(session: Session, folder: Path) -> Iterator[Part]:
    """Writes the files of all views."""
    servers, script = session.warehouse.servers, session.warehouse.plain
    for v in range(len(session.warehouse.catalogue.views)):
        for own, server in enumerate(servers.all if script.is_shared(v) else servers.all[:1]):
            yield written(session, folder, v, own, server)


def written(session: Session, folder: Path, v: int, own: int, server: Server) -> Part:
    """Writes what a server has of a view."""
    warehouse, name = session.warehouse, session.warehouse.catalogue.views[v].name
    script, told, rows = warehouse.script(session.version.slots), hashlib.sha256(), 0
    path = folder / f"{name}.{own}.tsv"

    def pieces() -> Iterator[bytes]:
        nonlocal rows
        for said in server.lines(warehouse.written(script.summed_up(v))):
            rows += 1
            told.update(said)
            yield said

    disk.write(path, pieces())
    (there,), = server.asked(warehouse.written(script.counted_up(v)))
    if int(there) != rows:
        raise Failure(FAILED, f"whview cluster: {rows} rows of {name} came from {server}, and it has {there}: an answer that is not whole")
    return Part(path.name, name, own, rows, told.hexdigest())


def manifest_of(session: Session, found: list[Part]) -> Manifest:
    """What is kept of a version."""
    warehouse, version = session.warehouse, session.version
    prints = [together(warehouse, version.prints, v) for v in range(len(warehouse.catalogue.views))]
    return Manifest(
        FORM, digest(warehouse.catalogue), warehouse.dialect.schema, version.seq, version.stage, version.at, version.changes, list(version.totals),
        list(version.gross), prints, found,
    )  # fmt: skip


def together(warehouse: Warehouse, prints: Sequence[int], v: int) -> list[int]:
    """The prints of a view's rows: those of all servers that have a part of it, or of one."""
    servers = range(len(warehouse.servers) if warehouse.plain.is_shared(v) else 1)
    return [sum(column) % WHOLE for column in zip(*(standing.of_view(warehouse, prints, own, v) for own in servers))]


# ---- in


def manifest_in(warehouse: Warehouse, folder: Path) -> Manifest:
    """The manifest of a backup whose files are all as they were written."""
    path = folder / MANIFEST
    if not path.is_file():
        raise Failure(BAD_INPUT, f"{path}: there is no such file: this is no backup, or one that was cut off")
    try:
        read: dict[str, Any] = json.loads(path.read_bytes())
        read["parts"] = [Part(**each) for each in read["parts"]]
        found = Manifest(**read)
        stage_of(found.stage)
    except (ValueError, TypeError, KeyError) as error:
        raise Failure(BAD_INPUT, f"{path}: this is no manifest of a backup ({error})") from error
    if found.form != FORM:
        raise Failure(BAD_INPUT, f"{path}: this backup has the form {found.form}, and {FORM} is read")
    if found.catalogue != digest(warehouse.catalogue):
        raise Failure(BAD_INPUT, f"{path}: this is a backup of another catalogue")
    for part in found.parts:
        judge_file(folder / part.file, part)
    return found


def judge_file(path: Path, part: Part) -> None:
    """Refuses a file that is other than it was written."""
    if Path(part.file).name != part.file or not path.is_file():
        raise Failure(BAD_INPUT, f"{path}: there is no such file of this backup")
    told = hashlib.sha256()
    with path.open("rb") as opened:
        while piece := opened.read(PIECE):
            told.update(piece)
    if told.hexdigest() != part.sha256:
        raise Failure(BAD_INPUT, f"{path}: this file is not as it was written")


def restore(warehouse: Warehouse, folder: Path) -> Version:
    """Makes the first version with contents, by a backup."""
    versions, base, manifest = warehouse.versions, loadable(warehouse), manifest_in(warehouse, folder)
    slots = [versions.attempt(base.night, Purpose.NIGHT, base.generation) for _ in range(1 + max((part.server for part in manifest.parts), default=0))]
    put(warehouse, manifest, folder, slots)
    prints = [0] * (standing.per_server(warehouse) * len(warehouse.servers))
    for slot in slots:
        sealed = standing.sealed(warehouse, base, slot, range(len(warehouse.catalogue.views)))
        prints = [(had + more) % WHOLE for had, more in zip(prints, sealed)]
    for v, view in enumerate(warehouse.catalogue.views):
        if manifest.prints[v] != together(warehouse, prints, v):
            versions.judge_night(base)
            raise Failure(FAILED, f"whview cluster: what stands of {view.name} is not what the backup has; nothing is changed, `give-up`")
    return versions.commit_as(base, base._replace(
        night=base.night + 1, stage=stage_of(manifest.stage), how="restore", slots=(*base.slots, *(slot.number for slot in slots)),
        totals=tuple(manifest.totals), gross=tuple(manifest.gross), changes=manifest.changes, prints=tuple(prints),
    ))  # fmt: skip


def put(warehouse: Warehouse, manifest: Manifest, folder: Path, slots: Sequence[Slot]) -> None:
    """Puts the files in, each into its server's slot: rows of a base table are shared out, those of a derived view have a server's place."""
    names, servers = warehouse.catalogue.names, warehouse.servers.all
    for part in manifest.parts:
        v, pouring = names[part.view], Pouring(warehouse, slots[part.server])
        is_shared, is_base = warehouse.plain.is_shared(v), not warehouse.catalogue.views[v].over
        for server in [servers[part.server % len(servers)]] if is_shared and not is_base else servers[:1] if is_shared else servers:
            with (folder / part.file).open("rb") as lines:
                pouring.pour(v, lines, server, is_shared and is_base)
