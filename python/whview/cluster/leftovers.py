"""What a DROP or a CREATE leaves that was cut off, and how a table is made all the same.

The engine forgets a table first; then ZooKeeper does, where it is replicated, and its folder goes last. Who is killed in between leaves a
folder with parts, or a table of ZooKeeper's that no server has. Neither lets the table be made again. So it is taken up as it is left and
dropped to its end.
"""

from __future__ import annotations

import re
import sys
import time
from typing import TYPE_CHECKING

from ..sql.clickhouse import ClickHouse
from ..sql.tokens import sql, text
from .servers import TAKEN, Lost, Told

if TYPE_CHECKING:
    from .servers import Server

# Codes of a server: there are parts in the folder of a table, and ZooKeeper knows a server's table already.
PARTS_THERE, REPLICA_THERE = 117, 253
LEFT = (PARTS_THERE, REPLICA_THERE)
# A name as it stands in a statement, and what makes a table replicated.
NAME = r'(?:"(?:[^"\\]|\\.)*"|`(?:[^`\\]|\\.)*`|\w+)'
MAKES = re.compile(rf"CREATE TABLE (?:IF NOT EXISTS )?({NAME}\.{NAME})")
REPLICATED = re.compile(r"ENGINE = Replicated(\w+)\('[^']*', '[^']*'(?:, )?")
# So long it is waited until a table can be written to: what is dropped before is forgotten by its server alone.
WRITABLE, PAUSE = 60, 0.2


def made_empty(server: Server, made: str) -> None:
    """Makes a table in which nobody has anything yet. What is left of an earlier one of its name goes before."""
    try:
        server.carried(made)
    except Told as told:
        if told.code not in LEFT:
            raise
        clear(server, made)
        server.carried(made)


def taken_up(server: Server, made: str) -> None:
    """Makes a table with the rows that are left of it on the server."""
    try:
        server.carried(made)
    except Told as told:
        if told.code in LEFT:
            server.carried(attaching(made))
        elif told.code != TAKEN:
            raise


def clear(server: Server, made: str) -> None:
    """Takes away what is left of a table, by the statement that makes it. Where ZooKeeper does not know it any more, its folder is taken up as that
    of a table which is not replicated."""
    try:
        server.carried(attaching(made))
    except Told as told:
        if told.code == TAKEN or alone(made) == made:
            raise
        server.carried(attaching(alone(made)))
    found = MAKES.match(made)
    assert found is not None
    print(f"whview cluster: {server}: what was left of an earlier table {found[1]} is taken away", file=sys.stderr)
    drop(server, found[1])


def attaching(made: str) -> str:
    """What takes a table up that its folder, or ZooKeeper, has."""
    return MAKES.sub(r"ATTACH TABLE \1", made, count=1)


def alone(made: str) -> str:
    """The same table where it is not replicated."""
    return REPLICATED.sub(r"ENGINE = \1(", made, count=1)


def drop(server: Server, table: str) -> None:
    """Drops a table when it can be written to. A server forgets one that cannot, though ZooKeeper does not."""
    end = time.monotonic() + WRITABLE
    while is_read_only(server, table):
        if time.monotonic() > end:
            raise Lost(f"{server}: {table} cannot be written to yet")
        time.sleep(PAUSE)
    server.carried(f"DROP TABLE IF EXISTS {table}")


def is_read_only(server: Server, table: str) -> bool:
    """Whether a replicated table has no session of ZooKeeper's."""
    schema, named = map(unquoted, re.findall(NAME, table))
    said = sql("SELECT is_readonly FROM system.replicas WHERE database = {schema} AND table = {table}", schema=text(schema), table=text(named))
    return any(int(found) for found, in server.asked(ClickHouse().written([said])[0]))


def unquoted(name: str) -> str:
    """A name without its quotes."""
    return re.sub(r"\\(.)", r"\1", name[1:-1]) if name[0] in '"`' else name
