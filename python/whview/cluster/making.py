"""`create`, `load` and `open`: a warehouse's tables, its base tables, and its views from scratch."""

from __future__ import annotations

import secrets
from typing import TYPE_CHECKING

from ..finding import Failure, warn
from ..sql.slots import NO_SLOT, Slot
from ..sql.tokens import joined, name, number, sql, text
from . import links, readers, releases, standing
from .agreed import NothingStands
from .carrying import Carrying
from .leftovers import made_empty
from .nights import attempted, carried, idle
from .servers import TAKEN, Told
from .status import FAILED, REFUSED
from .streaming import Plain
from .versions import Purpose, Stage, Version

if TYPE_CHECKING:
    from collections.abc import Iterable, Mapping

    from ..catalogue.views import Bag
    from ..sql.clickhouse import ClickHouse
    from ..sql.slots import Statement
    from ..sql.tokens import Sql
    from .nights import Ended
    from .servers import Server
    from .warehouse import Warehouse

# Settings of a table that make its rows safe from a loss of power, also where parts are put together, where the server has them.
DURABLE = ("fsync_after_insert", "fsync_part_directory", "min_rows_to_fsync_after_merge")
MOST_COUNT = 2**63 - 1


def durable(server: Server) -> Sql:
    """The settings of tables that this server has."""
    there = {found for found, in server.asked("SELECT name FROM system.merge_tree_settings")}
    listed = [sql("{setting} = {one}", setting=sql(setting), one=number(1)) for setting in DURABLE if setting in there]
    return sql("SETTINGS {listed}", listed=joined(listed)) if listed else sql("")


def create(warehouse: Warehouse) -> None:
    """Makes the tables on each server; the words and the first version come last, so that what was cut off is no warehouse."""
    servers, dialect = warehouse.every, warehouse.dialect
    servers.each(lambda server: server.learn())
    warn([told for server in servers.all for told in releases.untried(server)])
    for server, made in zip(servers.all, servers.each(warehouse.made)):
        if made:
            told = f"there is a warehouse in {dialect.schema} on {server} already, made by servers {' '.join(made.servers)}"
            raise Failure(REFUSED, f"whview cluster: {told}")
    judge_cluster(warehouse)
    servers.each(lambda server: judge_empty(server, dialect))
    servers.each(lambda server: server.carried(warehouse.written(sql("CREATE DATABASE IF NOT EXISTS {schema}", schema=name(dialect.schema)))))
    settings, mark = durable(servers.first), warehouse.copies.mark if warehouse.copies else secrets.token_hex(8)
    judge_links(warehouse, mark)
    if warehouse.copies:
        warehouse.made_by_all(warehouse.plain.tables_of_generation(settings))
    carry(warehouse, warehouse.plain.create(settings))
    if warehouse.copies:
        carry(warehouse, warehouse.plain.tables_of_rows())
        begin_agreed(warehouse)
        readers.show(warehouse, readers.ON_THEIR_WAY)
    else:
        carry(warehouse, warehouse.plain.tables_of_versions())
        begin(warehouse)
        carry(warehouse, warehouse.plain.views_of_now())
        carry(warehouse, warehouse.plain.tables_of_servers())
    for own in reversed(range(len(servers))):
        kept = sql("CREATE VIEW {own} AS {words}", own=dialect.table("~w"), words=warehouse.words(own, mark).literals())
        made_once(servers.all[own], warehouse.written(kept), dialect)


def carry(warehouse: Warehouse, statements: Iterable[Statement]) -> None:
    """Statements that make tables, one after the other."""
    for made in statements:
        make(warehouse, made)


def make(warehouse: Warehouse, made: Statement) -> None:
    """A statement that makes a table."""
    warehouse.every.of(made.where).each(lambda server: made_once(server, warehouse.written_for(server, made.said), warehouse.dialect))


def made_once(server: Server, said: str, dialect: ClickHouse) -> None:
    """A table that another client has not made meanwhile."""
    try:
        made_empty(server, said)
    except Told as told:
        if told.code == TAKEN:
            raise Failure(FAILED, f"whview cluster: another client makes {dialect.schema} on {server}: {told.text}") from told
        raise


def begin(warehouse: Warehouse) -> None:
    """The first attempt, which has no slot, and the first version."""
    versions, nothing = warehouse.versions, (0,) * len(warehouse.catalogue.views)
    versions.made("a", NO_SLOT, versions.attempt_row(Slot(NO_SLOT), 0, Purpose.CREATE))
    prints = (0,) * (standing.per_server(warehouse) * len(warehouse.servers))
    first = Version(0, 0, Stage.CREATED, "create", (NO_SLOT,), nothing, nothing, (secrets.token_hex(8),), versions.now(), "", prints,
                    definitions=warehouse.definitions, tables=warehouse.tables)
    if not versions.created(first):
        raise Failure(FAILED, f"whview cluster: another client makes {warehouse.dialect.schema}")


def begin_agreed(warehouse: Warehouse) -> None:
    """The same where versions are in ZooKeeper, which a server may not be able to keep there."""
    try:
        begin(warehouse)
    except NothingStands as error:
        raise Failure(REFUSED, f"whview cluster: {releases.without_paths(warehouse.servers.first)}") from error


def judge_empty(server: Server, dialect: ClickHouse) -> None:
    """Refuses a database that has tables and is no warehouse."""
    there = server.asked(dialect.written([sql("SELECT count() FROM system.tables WHERE database = {schema}", schema=text(dialect.schema))])[0])
    if int(there[0][0]):
        cure = f'DROP DATABASE "{dialect.schema}" there if a `create` was cut off, or take another --database'
        raise Failure(REFUSED, f"whview cluster: {dialect.schema} on {server} has {there[0][0]} tables, and is no warehouse: {cure}")


def judge_cluster(warehouse: Warehouse) -> None:
    """The servers have to know each other as one shard each, without replicas."""
    wanted, cluster = len(warehouse.servers), warehouse.cluster
    if wanted == 1 or warehouse.copies:
        return
    question = warehouse.written(sql("SELECT shard_num, replica_num FROM system.clusters WHERE cluster = {cluster}", cluster=text(cluster)))
    for server, rows in zip(warehouse.servers.all, warehouse.servers.each(lambda server: server.asked(question))):
        if sorted((int(shard), int(replica)) for shard, replica in rows) != [(shard, 1) for shard in range(1, wanted + 1)]:
            told = f"{server} knows {len(rows)} servers as {cluster} (remote_servers), and not {wanted} shards of one server each"
            raise Failure(REFUSED, f"whview cluster: {told}; --cluster names another one")


def judge_links(warehouse: Warehouse, mark: str) -> None:
    """Each server has to reach all the others, and no others, in their order."""
    servers, dialect = warehouse.every, warehouse.dialect
    if len(servers) == 1:
        return
    here, cluster = dialect.table("~here"), text(warehouse.cluster)
    for own, server in enumerate(servers.all):
        made = sql("CREATE VIEW {here} AS SELECT toInt64({own}) AS number, {mark} AS mark", here=here, own=number(own), mark=text(mark))
        made_once(server, warehouse.written(made), dialect)
    try:
        if warehouse.copies:
            return links.judge_routes(warehouse, "~here")
        links.judge(warehouse, sql("cluster({cluster}, {schema}, {here})", cluster=cluster, schema=text(dialect.schema), here=text("~here")), mark)
    finally:
        servers.each(lambda each: each.carried(warehouse.written(sql("DROP TABLE IF EXISTS {here}", here=here))))


def loadable(warehouse: Warehouse) -> Version:
    """The newest version, which has no base tables yet."""
    base = idle(warehouse)
    if base.stage != Stage.CREATED:
        raise Failure(REFUSED, f"whview cluster: version {base.seq} has its base tables already; `night` changes them")
    return base


def rows_of(table: Bag | Plain) -> int:
    """How many rows a table has, counted."""
    return table.rows if isinstance(table, Plain) else sum(table.values())


def load(warehouse: Warehouse, tables: Mapping[int, Bag | Plain]) -> Version:
    """Puts the base tables in, each row with its count; a file of plain cells a piece at a time."""
    versions, base = warehouse.versions, loadable(warehouse)
    totals = [rows_of(tables[v]) if v in tables else 0 for v in range(len(warehouse.catalogue.views))]
    for view, total in zip(warehouse.catalogue.views, totals):
        if total > MOST_COUNT:
            raise Failure(REFUSED, f"whview cluster: {view.name} has {total} rows, counted; 2^63 - 1 are the most")
    slot = attempted(warehouse, base, Purpose.NIGHT)
    carrying = Carrying(warehouse, base, slot)
    for v, rows in tables.items():
        if isinstance(rows, Plain):
            carrying.send(v, rows.batches())
        else:
            carrying.filled(v, list(rows.items()))
    carrying.judge_sent()
    prints = standing.sealed(warehouse, base, slot, sorted(tables))
    return versions.commit(base, slot, base.night + 1, Stage.LOADED, "load", totals, totals, prints=prints)


def open_views(warehouse: Warehouse) -> Ended:
    """Computes all views from scratch."""
    base = idle(warehouse)
    if base.stage != Stage.LOADED:
        told = "has its views already" if base.stage == Stage.OPENED else "has no base tables: `load` puts them in"
        raise Failure(REFUSED, f"whview cluster: version {base.seq} {told}")
    return carried(warehouse, base, None, warehouse.steps.opening(), "open")
