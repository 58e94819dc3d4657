"""Which release of ClickHouse a server is, and what is done otherwise by it. This is the one place where that is asked; `TRIED` alone was run.

A setting that some releases lack goes to the servers that have it, so it needs no question here. What a release does to tables goes by the kind
of their database: of the kind Atomic, which newer ones make, no DROP and no RENAME waits for those who read, and no one behind it waits either.
"""

from __future__ import annotations

from typing import TYPE_CHECKING

from ..sql.tokens import sql, text

if TYPE_CHECKING:
    from ..sql.clickhouse import ClickHouse
    from .servers import Server

# The release that was run.
TRIED = "18.16"
# What a question about settings has for the release, which no setting is called.
RELEASE = "~release"
QUESTION = f"SELECT name, value FROM system.settings UNION ALL SELECT '{RELEASE}' AS name, version() AS value"
# The kinds of databases in which nobody waits for a table that goes.
WITHOUT_WAITING = ("Atomic", "Replicated")


def is_tried(release: str) -> bool:
    """Whether a release was run; of one that is not known nothing is said."""
    return not release or release == TRIED or release.startswith(f"{TRIED}.")


def untried(server: Server) -> list[str]:
    """What whoever makes a warehouse on a server is told of its release."""
    if is_tried(server.release):
        return []
    return [f"whview cluster: warning: {server} is ClickHouse {server.release}, which was not tried; {TRIED} was"]


def drops_wait(server: Server, dialect: ClickHouse) -> bool:
    """Whether a table that goes, or gets another name, waits for those who read it, and holds up those behind it."""
    said = sql("SELECT engine FROM system.databases WHERE name = {schema}", schema=text(dialect.schema))
    return not any(kind in WITHOUT_WAITING for kind, in server.asked(dialect.written([said])[0]))


def without_paths(server: Server) -> str:
    """What is told where no version can be kept in ZooKeeper: newer releases make a path together with a replica of it, or not at all."""
    told = "makes no path of ZooKeeper's without a replica, in which versions would be kept"
    return f"{server} is ClickHouse {server.release or 'of a release that it does not tell'} and {told}: --replicas is for {TRIED}"
