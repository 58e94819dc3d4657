"""How the servers know each other: each by the same list, in the order in which the command has them.

A server shares rows out, and reads those of all, by a list of its own configuration (remote_servers), which may change at any time. So
each command asks every server which numbers the servers have that stand in its list: the first in it has to be 0, the next one 1, and so on.
"""

from __future__ import annotations

from typing import TYPE_CHECKING

from ..finding import Failure
from ..sql.tokens import joined, number, sql, text
from .servers import Told
from .status import REFUSED

if TYPE_CHECKING:
    from ..sql.tokens import Sql
    from .servers import Rows, Server
    from .warehouse import Warehouse

# Nothing is known by the name of a cluster.
NO_CLUSTER = 170
# One after the other, so that rows come in the order of the list.
IN_ORDER = {"max_threads": "1", "max_distributed_connections": "1"}


def route(cluster: str, own: int) -> str:
    """By which name servers know the one of a number alone, where there are replicas."""
    return f"{cluster}_{own + 1}"


def judge(warehouse: Warehouse, table: Sql, mark: str) -> None:
    """Refuses servers that know others, or the same in another order. The table has of each server its number and the mark."""
    servers = warehouse.servers
    if len(servers) == 1:
        return
    said = warehouse.written(sql("SELECT number, mark FROM {table}", table=table))
    wanted = [(own, mark) for own in range(len(servers))]
    for server, rows in zip(servers.all, servers.each(lambda server: server.asked(said, **({} if server.only_reads else IN_ORDER)))):
        found = [(int(own), its) for own, its in rows]
        # Who only reads can say no settings, and shares nothing out: the order is nothing to them.
        found = sorted(found) if server.only_reads else found
        if found != wanted:
            told = f"{server} reaches {named(warehouse, found, mark)} as {warehouse.cluster}, and not {named(warehouse, wanted, mark)}"
            raise Failure(REFUSED, f"whview cluster: {told}: its remote_servers are others, or in another order")


def judge_routes(warehouse: Warehouse, table: str = "~w") -> None:
    """Refuses servers that know another one by the name of one. Where there are replicas each name of a server has to be that server's, on all
    that answer; the table has of each server its number and the mark."""
    copies = warehouse.copies
    if copies is None or any(server.only_reads for server in copies.living):
        # Who may only read is given no function of tables; what they read judges itself.
        return
    numbers = [copies.all.index(server) for server in copies.living]
    each = [
        sql("SELECT toInt64({own}) AS wanted, number, mark FROM cluster({route}, {schema}, {table})", own=number(own), table=text(table),
            route=text(route(warehouse.cluster, own)), schema=text(warehouse.dialect.schema))
        for own in numbers
    ]
    said = warehouse.written(joined(each, "UNION ALL"))
    for server, rows in zip(copies.living, warehouse.every.each(lambda server: asked_by_routes(warehouse, server, said))):
        found = sorted((int(wanted), int(own), its) for wanted, own, its in rows)
        if found != [(own, own, copies.mark) for own in numbers]:
            wrong = next((own for own in numbers if (own, own, copies.mark) not in found), numbers[0])
            told = f"{server} reaches another server as {route(warehouse.cluster, wrong)} than {copies.all[wrong]}"
            raise Failure(REFUSED, f"whview cluster: {told}: its remote_servers are others; `config` prints right ones")


def asked_by_routes(warehouse: Warehouse, server: Server, said: str) -> Rows:
    """What a server is answered by others, each by the name of one."""
    try:
        return server.asked(said)
    except Told as told:
        if told.code != NO_CLUSTER:
            raise
        names = f"{route(warehouse.cluster, 0)}, {route(warehouse.cluster, 1)} .."
        raise Failure(REFUSED, f"whview cluster: {server} knows no servers as {names} (remote_servers); `config` prints what it has to know") from told


def named(warehouse: Warehouse, found: list[tuple[int, str]], mark: str) -> str:
    """Servers as they are told."""
    known = warehouse.servers.all
    return ", ".join(str(known[own]) if its == mark and own < len(known) else "a stranger" for own, its in found) or "none"
