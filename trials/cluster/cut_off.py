"""What DROPs and CREATEs leave that were cut off: tables are made again, with all rows, and versions that were going are gone. A scenario is
given servers as processes, and answers what came otherwise, in a list."""

import shutil
import time
from contextlib import contextmanager
from unittest.mock import patch

from whview.cluster import keeping
from whview.cluster.keeping import Sweep
from whview.cluster.servers import Server

from trials.cluster import small_warehouse
from trials.cluster.replicated import Many
from trials.cluster.scenarios import SHARES
from trials.cluster.small_warehouse import AT_ONCE, Small

# So long it is waited for a server that fetches rows, and for ZooKeeper to notice that one is gone.
PATIENCE = 300


@contextmanager
def down(process):
    """While it lasts a server is killed, and its files can be changed. They are given as its folders of what it knows, and of what it has."""
    process.kill()
    yield process.folder / "data" / "metadata", process.folder / "data" / "data"
    process.start().wait()


def as_in_a_folder(name):
    """A table's name as that of its files."""
    return name.replace("~", "%7E")


def forgotten(process, database, table, keeps_folder):
    """A server that was killed in a DROP when it had forgotten a table: ZooKeeper has it still, and so has its folder, or not."""
    with down(process) as (known, had):
        (known / database / f"{as_in_a_folder(table)}.sql").unlink()
        if not keeps_folder:
            shutil.rmtree(had / database / as_in_a_folder(table))


def folder_left(process, database, table):
    """A server that was killed in a DROP when ZooKeeper had it no longer: its folder is left."""
    folder = process.folder / "data" / "data" / database / as_in_a_folder(table)
    kept = process.folder / "kept"
    shutil.copytree(folder, kept)
    Server(process.address).carried(f'DROP TABLE "{database}"."{table}"')
    shutil.rmtree(folder, ignore_errors=True)
    kept.rename(folder)


def tables_made_again(processes):
    """However far a DROP came, the server is asked again, with all rows of the table."""
    tried, victim = Many(processes), processes.all[1]
    tried.night(tried.small.changes({(1, 6): 1, (2, 8): 1}, {(2, "elm"): 1}))
    database, wrong = tried.small.database, []
    cases = {
        "a table that was forgotten": lambda: forgotten(victim, database, "b~0", True),
        "a table that was forgotten, without its folder": lambda: forgotten(victim, database, "b~0", False),
        "the folder of a table": lambda: folder_left(victim, database, "b~0"),
    }
    for what, leave in cases.items():
        leave()
        wrong += [] if is_asked(tried, victim) else [f"{what} is left, and {victim.address} is never asked again"]
        wrong += tried.differs(f"where {what} is left", [victim]) + tried.faults(f"where {what} is left")
        if wrong:
            break
    return wrong


def is_asked(tried, victim):
    """Whether a server is asked again, when it has fetched all rows."""
    end = time.monotonic() + PATIENCE
    while str(tried.replicas([victim]).chosen().servers.first) != victim.address:
        if time.monotonic() > end:
            return False
        time.sleep(0.2)
    return True


def versions_that_were_going(processes):
    """A version whose removal was cut off is gone, and the next sweep takes away what is left of it: where the client was killed in it, and where
    the server was."""
    tried, wrong = Many(processes), []
    for what, is_forgotten in (("the client", False), ("the server", True)):
        tried.night(tried.small.changes({(1, 6): 1}))
        with patch.object(Server, "carried", but_drops(Server.carried)):
            going = min(tried.replicas().chosen().versions.numbers("v"))
            tried.replicas().chosen().versions.dropped("v", going)
        if is_forgotten:
            removed_by_half(tried, going)
        versions = tried.replicas().chosen().versions
        wrong += [] if versions.row(going) is None else [f"version {going} is read though it goes, where {what} was killed"]
        wrong += [] if going in versions.numbers("v") else [f"of version {going} nothing was left"]
        tried.replicas().tried(lambda warehouse: Sweep(warehouse, 10**6).run())
        left = tried.replicas().chosen().versions.numbers("v")
        wrong += [f"version {going} is left behind a sweep, where {what} was killed: {left}"] if going in left else []
        wrong += tried.differs(f"behind a removal in which {what} was killed")
    return wrong


def but_drops(carried):
    """What carries statements out, but for the DROP of a table by which something is taken away."""
    return lambda server, said, *given, **more: None if said.startswith("DROP") and '"~y' in said else carried(server, said, *given, **more)


def removed_by_half(tried, going):
    """Has the server that has a table for taking a version away forget it, as one does that is killed in its DROP. ZooKeeper notices that a server
    is gone when it has heard nothing of it for a while."""
    for process in tried.processes.all:
        said = f"SELECT name FROM system.tables WHERE database = '{tried.small.database}' AND name LIKE '~y%'"
        for table, in Server(process.address).asked(said):
            forgotten(process, tried.small.database, table, True)
    tried.processes.meet()
    versions, end = tried.replicas().chosen().versions, time.monotonic() + PATIENCE
    path = f"{versions.at('v', going)}/replicas"
    while time.monotonic() < end and any(["is_active"] in versions.below(f"{path}/{each}", "name") for each, in versions.below(path, "name")):
        time.sleep(0.2)


def made_anew(processes):
    """A warehouse is made again under the name of one whose DROP DATABASE was cut off on each server, and goes through a fold."""
    small = Small(processes.servers(), SHARES)
    small.night({(1, 6): 1}, {(2, "elm"): 1})
    keeping.fold(small.warehouse)
    for process in processes.all:
        with down(process) as (known, _):
            shutil.rmtree(known / small.database)
            (known / f"{small.database}.sql").unlink(missing_ok=True)
    with patch.object(small_warehouse, "NUMBERS", iter([int(small.database.removeprefix("small"))])):
        again = Small(processes.servers(), SHARES)
    again.night({(1, 7): 1}, {(3, "yew"): 1})
    keeping.fold(again.warehouse)
    for _ in range(2):
        Sweep(again.warehouse, AT_ONCE).run()
    return again.differs(None, "a warehouse that was made where one was dropped by half")


CUT_OFF = [tables_made_again, versions_that_were_going]
CUT_OFF_ALONE = [made_anew]
