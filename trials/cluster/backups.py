"""Backups and what is restored from them: on as many servers and on others, beside nights and sweeps, cut off and spoilt. A scenario is
given servers, and answers what came otherwise, in a list."""

import itertools
import json
from pathlib import Path
from tempfile import TemporaryDirectory
from unittest.mock import patch

from whview.cluster import backup, checking, keeping, making, nights
from whview.cluster.command import changes_of
from whview.cluster.keeping import Sweep
from whview.cluster.reading import Session
from whview.cluster.servers import Server
from whview.cluster.warehouse import Warehouse

from trials.cluster.inputs import Folder, done, one_line
from trials.cluster.scenarios import SHARES, KeepingSome, ends
from trials.cluster.small_warehouse import AT_ONCE, STRATEGY, Small
from trials.servers.clickhouse import NAME

NUMBERS = itertools.count()


def with_nights(servers):
    """A warehouse with a fold and nights behind its opening, of which rows cancel too."""
    small = Small(servers, SHARES)
    small.night({(number, 100 + number): 1 for number in range(1, 9)}, {(number, "yew"): 1 for number in range(1, 5)})
    keeping.fold(small.warehouse)
    small.night({(2, 7): -1, (1, 101): -1, (6, 6): 2}, {(6, "oak"): 1})
    return small


def made(small, servers):
    """A warehouse like it on these servers, in which there is nothing yet."""
    found = Warehouse(small.catalogue, servers, f"restored{next(NUMBERS)}", SHARES if len(servers) > 1 else (), NAME)
    making.create(found)
    return found


def goes_on(small, warehouse, what):
    """The contents of a warehouse, which is the small one from here on, and what a check, nights and a fold of it tell."""
    small.warehouse = warehouse
    wrong = small.differs(None, what) + [f"{what}: {told}" for told in checking.faults(Session(warehouse))]
    small.night({(3, 33 + next(NUMBERS)): 1, (6, 6): -1}, {(3, "elm"): 2, (3, "oak"): -1})
    wrong += small.differs(None, f"{what}, and a night")
    _, told = small.night({(99, 1): -1})
    wrong += [] if told == "refused absent a" else [f"{what}: a night is {told}"]
    keeping.fold(warehouse)
    small.night({(6, 6): 1}, {(3, "oak"): 1})
    return wrong + small.differs(None, f"{what}, a night, a fold and a night")


def on_as_many(servers):
    """A version of before is restored with its contents, and nights go on from there; what came since is not in it."""
    small = with_nights(servers)
    with TemporaryDirectory() as path:
        folder = Path(path) / "kept"
        backup.backup(small.warehouse, folder, small.versions.newest().seq)
        now = {v: rows.copy() for v, rows in small.tables.items()}
        small.night({(5, 55): 1})
        small.tables = now
        warehouse = made(small, servers)
        backup.restore(warehouse, folder)
        return goes_on(small, warehouse, "restored")


def on_others(servers):
    """The same on one server and from one on several."""
    small, wrong = with_nights(servers), []
    with TemporaryDirectory() as path:
        for at, number in enumerate((1, len(servers), 1)):
            folder = Path(path) / str(at)
            backup.backup(small.warehouse, folder)
            warehouse = made(small, servers[:number])
            backup.restore(warehouse, folder)
            wrong += goes_on(small, warehouse, f"on {number}")
    return wrong


def caught_up(servers):
    """What was restored on fewer servers catches up with nights and folds since by one night of what changed, a second time too, and goes on."""
    small, wrong = with_nights(servers), []
    with TemporaryDirectory() as path:
        old = Folder(path, servers, small.database)
        backup.backup(small.warehouse, old.path / "kept")
        warehouse = made(small, servers[:1])
        backup.restore(warehouse, old.path / "kept")
        for number in range(2):
            seq = small.versions.newest().seq
            small.night({(2, 8): 1 - 2 * number, (7, 70 + number): 3}, {(3, "oak"): 1, (6, f'{number}"\n,\t'): 2})
            keeping.fold(small.warehouse)
            small.night({(6, 6): -1, (8, 80 + number): 1})
            wrong += done(old.told("changes", "--version", seq, "--to", old.path / f"since{number}/changes"), "changes")
            nights.night(warehouse, changes_of(warehouse, old.path / f"since{number}").rows, STRATEGY)
            wrong += as_by(small, warehouse, f"caught up {number + 1} times")
        wrong += one_line(old.told("changes", "--version", seq, "--to", old.path / "since0"), 1, "not empty")
        wrong += one_line(old.told("changes", "--to", old.path / "other"), 2, "wants --version")
        Sweep(small.warehouse, AT_ONCE).run()
        wrong += one_line(old.told("changes", "--version", seq, "--to", old.path / "other"), 1, "is gone")
    return wrong + goes_on(small, warehouse, "caught up")


def as_by(small, warehouse, what):
    """What a warehouse holds otherwise than the small one."""
    kept, small.warehouse = small.warehouse, warehouse
    try:
        return small.differs(None, what)
    finally:
        small.warehouse = kept


def changed_by_hand(servers):
    """What changed is not told where rows were lost, and no file is left that a night would read."""
    small = with_nights(servers)
    seq = small.versions.newest().seq
    small.night({(number, 200): 1 for number in range(1, 9)})
    last, newest = small.servers[-1], small.versions.newest()
    last.carried(f'ALTER TABLE "{small.database}"."a~{newest.generation}" DROP PARTITION {newest.slots[-1]}')
    last.carried(f'INSERT INTO "{small.database}"."a~{newest.generation}" ("~c1", "~c2", "#", "~s") VALUES (1, 77, 1, {newest.slots[-1]})')
    with TemporaryDirectory() as path:
        folder = Folder(path, servers, small.database)
        wrong = one_line(folder.told("changes", "--version", seq, "--to", folder.path / "since/changes"), 1, "a on", "other rows")
        left = [each.name for each in (folder.path / "since/changes").iterdir() if each.name.endswith(".csv")]
    return wrong + ([f"{left} are left"] if left else [])


def beside_sweeps(servers):
    """While a backup is made others work, fold and sweep: its version stays, and what is restored is that version."""
    small = with_nights(servers)
    before = {v: rows.copy() for v, rows in small.tables.items()}
    written, wrong = backup.written, []

    def others(*given):
        keeping.fold(small.warehouse)
        small.night({(7, 700 + next(NUMBERS)): 1})
        Sweep(small.warehouse, AT_ONCE).run()
        return written(*given)

    with TemporaryDirectory() as path, patch.object(backup, "written", others):
        backup.backup(small.warehouse, Path(path) / "kept")
        Sweep(small.warehouse, AT_ONCE).run()
        wrong += [] if len(small.versions.numbers("v")) == 1 else ["a backup left its version pinned"]
        small.tables = before
        warehouse = made(small, servers)
        backup.restore(warehouse, Path(path) / "kept")
    return wrong + goes_on(small, warehouse, "restored from beside sweeps")


def spoilt(servers):
    """A backup that was cut off, lacks a file or has another one is not restored, and leaves the warehouse as it was; nor is one made of what
    is not whole."""
    small, wrong = with_nights(servers), []
    warehouse = made(small, servers)
    with TemporaryDirectory() as path:
        folder = Path(path) / "kept"
        backup.backup(small.warehouse, folder)
        wrong += ends(lambda: backup.backup(small.warehouse, folder), "not empty")
        manifest = (folder / backup.MANIFEST).read_bytes()
        part = folder / next(each["file"] for each in json.loads(manifest)["parts"] if each["rows"] > 1)
        content = part.read_bytes()
        for spoil in (content[:-1], content.replace(b"\t1", b"\t2", 1), b"", None):
            part.unlink(missing_ok=True)
            part.write_bytes(spoil) if spoil is not None else None
            wrong += ends(lambda: backup.restore(warehouse, folder), part.name)
        part.write_bytes(content)
        (folder / backup.MANIFEST).unlink()
        wrong += ends(lambda: backup.restore(warehouse, folder), "cut off")
        (folder / backup.MANIFEST).write_bytes(manifest.replace(b'"catalogue": "', b'"catalogue": "x'))
        wrong += ends(lambda: backup.restore(warehouse, folder), "another catalogue")
        (folder / backup.MANIFEST).write_bytes(manifest)
        backup.restore(warehouse, folder)
        small.servers[-1].carried(f'TRUNCATE TABLE "{small.database}"."a~{small.versions.newest().generation}"')
        wrong += ends(lambda: backup.backup(small.client(), Path(path) / "lost"), "a on") + ends(lambda: backup.restore(warehouse, folder), "already")
    return wrong + goes_on(small, warehouse, "restored at last")


def kept_back(servers):
    """A restore some of whose rows do not come is told so, and begun again it is whole."""
    small, wrong = with_nights(servers), []
    with TemporaryDirectory() as path:
        folder = Path(path) / "kept"
        backup.backup(small.warehouse, folder)
        warehouse = made(small, servers)
        for table in ("a~0~all", "b~0~all", "j~0", "~marks~0"):
            found = [KeepingSome(server.address) for server in servers]
            for server in found:
                server.learn()
                server.into = f'"{table}"'
            client = Warehouse(small.catalogue, found, warehouse.dialect.schema, SHARES, NAME)
            wrong += [f"{table}: {told}" for told in ends(lambda client=client: backup.restore(client, folder), "keeps")]
            nights.give_up(warehouse)
        backup.restore(warehouse, folder)
    return wrong + goes_on(small, warehouse, "restored at last")


def by_command(servers):
    """The commands, and a pin of a backup that came to no end."""
    small = with_nights(servers)
    with TemporaryDirectory() as path:
        folder, to = Folder(path, servers, small.database), Path(path) / "kept"
        wrong = one_line(folder.told("backup"), 2, "wants --to PATH") + done(folder.told("backup", "--to", to), "backup")
        other = [word if word != small.database else f"restored{next(NUMBERS)}" for word in folder.words("create", more=["--shard", "a:k", "--shard", "b:t"])]
        folder.database = other[other.index("--database") + 1]
        wrong += done(folder.told("create", more=[word for each in SHARES for word in ("--shard", each)]), "create")
        wrong += done(folder.told("restore", "--from", to), "restore") + one_line(folder.told("restore", "--from", to), 1, "already")
        with patch.object(Server, "lines", lambda *_: (_ for _ in ()).throw(KeyboardInterrupt)), patch.object(type(small.versions), "dropped", lambda *_: None):
            folder.told("backup", "--to", Path(path) / "cut")
        status, _, out = folder.told("status")
        wrong += [] if status == 1 and "`unpin`" in out else [f"with a pin that was left: {status}, {out}"]
        wrong += done(folder.told("unpin"), "unpin") + done(folder.told("status"), "status")
    return wrong


BACKUPS = [on_as_many, on_others, caught_up, changed_by_hand, beside_sweeps, spoilt, kept_back, by_command]
