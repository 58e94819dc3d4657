"""What readers by SQL are given where there are replicas, on every server: `~versions`, and `V~now`, each server's own.

Which version is the newest ZooKeeper says; its row stands on each server in a small view of its own, which is made before the commit. So the
version shows at one moment everywhere, and a server that has no such row raises. `V~now` reads one server of each shard, whichever the engine
chooses; what it reads there raises unless the server has all rows, and brings the marks that say so.
"""

from __future__ import annotations

import hashlib
import time
from typing import TYPE_CHECKING

from ..sql.tokens import joined, sql, text
from .servers import GONE, RAISED, TAKEN, Told

if TYPE_CHECKING:
    from .servers import Server
    from .warehouse import Warehouse

# So long it is waited for rows that are on their way to a server.
ON_THEIR_WAY, PAUSE = 30, 0.1
# What says by which statements a server has its readers' tables, and how such tables' names end.
SHOWN, OF_READERS = "~shown", ("~kept", "~every", "~now")


def show(warehouse: Warehouse, seconds: int = 0) -> None:
    """Has each server that answers have what readers read, by the catalogue and the tables of the newest version. The engine makes no view that
    raises: of a server that has not all rows in so many seconds a later command is waited for."""
    end = time.monotonic() + seconds
    wanted = {said: warehouse.written(made) for v in range(len(warehouse.catalogue.views)) for said, made in warehouse.plain.readers_of(v)}

    def shown(server: Server) -> None:
        while not show_on(warehouse, server, wanted) and time.monotonic() < end:
            time.sleep(PAUSE)

    warehouse.every.each(shown)


def show_on(warehouse: Warehouse, server: Server, wanted: dict[str, str]) -> bool:
    """Makes what is not there or is otherwise, and takes away what nobody wants any more. What says so comes last. Answers whether it could."""
    had, has = known(warehouse, server), {said: digest(made) for said, made in wanted.items()}
    if had == has or server.only_reads:
        return True
    for said in [*had, *wanted]:
        if had.get(said) != has.get(said):
            drop(warehouse, server, said)
    drop(warehouse, server, SHOWN)
    listed = [text(f"{told} {said}") for said, told in has.items()]
    last = sql("CREATE VIEW {shown} AS SELECT [{listed}] AS listed", shown=warehouse.dialect.table(SHOWN), listed=joined(listed))
    for statement in [made for said, made in wanted.items() if had.get(said) != has[said]] + [warehouse.written(last)]:
        try:
            server.carried(statement)
        except Told as told:
            if told.code == RAISED:
                return False
            if told.code != TAKEN:
                raise
    return True


def known(warehouse: Warehouse, server: Server) -> dict[str, str]:
    """The digests of the statements by which a server has its readers' tables."""
    try:
        rows = server.asked(warehouse.written(sql("SELECT listed FROM {shown}", shown=warehouse.dialect.table(SHOWN))))
    except Told as told:
        if told.code in GONE:
            return {}
        raise
    return {said: told for told, _, said in (each.partition(" ") for each in rows[0][0])}


def drop(warehouse: Warehouse, server: Server, said: str) -> None:
    server.carried(warehouse.written(sql("DROP TABLE IF EXISTS {table}", table=warehouse.dialect.table(said))))


def digest(made: str) -> str:
    """By what a statement is known."""
    return hashlib.sha256(made.encode()).hexdigest()[:16]
