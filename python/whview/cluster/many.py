"""The commands of `whview cluster` on a warehouse with replicas: with which servers each is carried out."""

from __future__ import annotations

from typing import TYPE_CHECKING

from ..finding import Failure
from ..sql.tokens import name, sql
from . import checking, leftovers, standing
from .generations import generation_of
from .reading import Session
from .repairing import Repair, server_named
from .replicas import Replicas, judge_count, take_view
from .servers import Lost, Told
from .status import REFUSED

if TYPE_CHECKING:
    from collections.abc import Callable, Sequence

    from .servers import Server
    from .versions import Version
    from .warehouse import Warehouse


# What puts files into a folder, where nothing may be left of a first try.
OF_FOLDERS = ("backup", "changes")
# What ZooKeeper alone is asked for, by any server.
OF_ZOOKEEPER = ("versions", "give-up", "unpin", "status")


def replicas_of(found: Warehouse, said: int | None) -> Replicas | None:
    """The servers of a warehouse with replicas, by how many of each shard were said or by what the first of the servers tells that answers; None
    where there are none."""
    servers, count = found.servers.all, said or 1
    if said is None and len(servers) > 1:
        count = next(filter(None, (told_by(found, server) for server in servers)), 1)
    if said is not None:
        judge_count(len(servers), count)
    if count == 1:
        return None
    return Replicas(found.catalogue, servers, found.dialect.schema, count, found.shards, found.cluster)


def told_by(found: Warehouse, server: Server) -> int | None:
    """How many servers each shard has, as one of them tells, or None where it tells nothing."""
    try:
        made = found.made(server)
    except (Lost, Told, Failure):
        return None
    return made.replicas if made else None


def carried_out(replicas: Replicas, command: str, do: Callable[[Warehouse], int], seq: int | None) -> int:
    """The status of a command."""
    if command == "create":
        return do(replicas.new())
    if command in OF_ZOOKEEPER:
        return replicas.tried(do, replicas.answering_any)
    if command in OF_FOLDERS:
        return do(replicas.chosen(seq))
    return replicas.tried(do, lambda: replicas.chosen(seq, command != "recast"))


def faults(replicas: Replicas, warehouse: Warehouse, seq: int | None) -> list[str]:
    """What each server that answers holds otherwise than a version says, and which one does not answer."""
    told = list[str]()
    for each in replicas.rounds(warehouse):
        told += [fault for fault in checking.faults(Session(each, seq)) if fault not in told]
    copies = warehouse.copies
    return told + [f"{server} does not answer" for server in replicas.servers if copies and server not in copies.living]


def checked(replicas: Replicas, seq: int | None) -> tuple[list[str], int]:
    """What `check` tells of a version, or of the newest, and which one that is."""

    def found(warehouse: Warehouse) -> tuple[list[str], int]:
        number = warehouse.versions.newest().seq if seq is None else seq
        return faults(replicas, warehouse, number), number

    return replicas.tried(found)


def repair(replicas: Replicas, named: Sequence[str]) -> Version:
    """Makes servers whole: one that lost its tables, or has other rows than one of its shard, gets them from that one. Where all servers of a
    shard lost rows, it is done as without replicas, and makes a version; else the newest one is answered."""
    servers = [server for server in replicas.servers if str(server) in server_named(replicas.plain(), named)]
    for server in servers:
        introduce(replicas, server)
    warehouse = replicas.chosen()
    newest = warehouse.versions.newest()
    wrong = {server: differing(replicas, warehouse, newest, server) for server in replicas.servers if warehouse.copies and server in warehouse.copies.living}
    if others := [str(server) for server, views in wrong.items() if views and server not in servers and not is_lost(replicas, wrong, server)]:
        raise Failure(REFUSED, f"whview cluster: {' '.join(others)} lost rows too: name all servers that have to be repaired")
    for server in servers:
        renew(replicas, warehouse, server, [v for v in wrong.get(server, []) if not lost_by_all(replicas, wrong, server, v)])
    speakers = [str(server) for server in warehouse.servers.all if any(lost_by_all(replicas, wrong, server, v) for v in wrong[server])]
    return replicas.tried(lambda found: Repair(found, [*map(str, found.servers.all)]).run()) if speakers else newest


def introduce(replicas: Replicas, server: Server) -> None:
    """Gives a server that has no part of the warehouse the database, the tables and the words by which it is known."""
    found = replicas.answering()
    if any(each is server for each, _ in found):
        return
    made = found[0][1]
    replicas.judge(found)
    warehouse = replicas.of([each for each, _ in found], [each for each, _ in found][:1], made.mark)
    server.carried(warehouse.written(sql("CREATE DATABASE IF NOT EXISTS {schema}", schema=name(warehouse.dialect.schema))))
    replicas.complete(server, [each for each, _ in found])
    words = warehouse.words(replicas.servers.index(server), made.mark)._replace(shards=made.shards, replicas=replicas.replicas)
    take_view(server, warehouse.written(sql("CREATE VIEW {own} AS {words}", own=warehouse.dialect.table("~w"), words=words.literals())))


def differing(replicas: Replicas, warehouse: Warehouse, version: Version, server: Server) -> list[int]:
    """The views of which a server has other rows than a version says."""
    copies = warehouse.copies
    assert copies is not None
    shard = copies.shard(server)
    asked = [server if own == shard else each for own, each in enumerate(warehouse.servers.all)]
    views = range(len(warehouse.catalogue.views))
    found = standing.printed(replicas.of(copies.living, asked, copies.mark).remade(warehouse.tables), views, version.slots)
    return [v for v in views if standing.of_view(warehouse, version.prints, shard, v) != standing.of_view(warehouse, found, shard, v)]


def lost_by_all(replicas: Replicas, wrong: dict[Server, list[int]], server: Server, v: int) -> bool:
    """Whether all servers of a server's shard have other rows of a view."""
    shard = replicas.servers.index(server) // replicas.replicas
    return all(v in views for each, views in wrong.items() if replicas.servers.index(each) // replicas.replicas == shard)


def is_lost(replicas: Replicas, wrong: dict[Server, list[int]], server: Server) -> bool:
    """Whether what a server lacks is lost by its whole shard."""
    return all(lost_by_all(replicas, wrong, server, v) for v in wrong[server])


def renew(replicas: Replicas, warehouse: Warehouse, server: Server, views: Sequence[int]) -> None:
    """Gives a server anew what another one of its shard has of these views: its own tables go, and are made again."""
    if not views or warehouse.copies is None:
        return
    for v in views:
        said = warehouse.plain.said(v)
        # What readers read of the view stays.
        for table in [each for each in standing.tables(warehouse, server) if each.rpartition("~")[0] == said and generation_of(each) is not None]:
            leftovers.drop(server, warehouse.written(warehouse.dialect.table(table)))
    replicas.complete(server, warehouse.copies.living)
    replicas.caught_up(server)
