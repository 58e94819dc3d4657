"""Warehouses whose shards have several servers each: which of them are asked, and what goes on where one fails.

For each command one server of each shard is chosen that answers and has all that was put in; the others get the rows through ZooKeeper. What
puts rows in waits until all servers of the shard have them that answer. Where a server fails in the middle, others are chosen, and the
command begins anew, in a slot of its own: nothing is sent twice, and what was cut off is in no version.
"""

from __future__ import annotations

import re
import secrets
import time
from typing import TYPE_CHECKING, TypeVar

from ..finding import Failure
from ..sql.clickhouse import ClickHouse
from ..sql.tokens import sql, text
from . import links, readers, standing
from .agreed import GONE_ROW, KEEPER, REMOVED, AgreedVersions
from .leftovers import made_empty, taken_up
from .readers import OF_READERS, SHOWN
from .servers import GONE, TAKEN, Lost, Server, Told
from .status import BAD_WORDS, FAILED
from .warehouse import Copies, Made, Warehouse

if TYPE_CHECKING:
    from collections.abc import Callable, Iterator, Sequence

    from ..sql.catalogue import Catalogue

# What a server tells where another one failed it, or ZooKeeper did, or the rows of an INSERT did not come to all in time: a table that is
# read only or has no leader, too few servers, an answer of ZooKeeper's, a server that could not be reached or broke off. A table may go by a
# sweep just when it is found.
FAILING = (*GONE, 3, 32, 33, 101, 159, 198, 209, 210, 225, 236, 242, 244, 254, 279, 285, 286, 289, 319, 394, KEEPER)
# How the names begin of tables that go, and of what a server has of itself.
KEPT_ALONE = (standing.ASIDE, REMOVED, GONE_ROW, "~w", SHOWN)
# How long an INSERT waits for the other servers of its shard; longer where a command begins anew, since the rows may be many.
QUORUM, LONGEST_QUORUM = 20, 1800
# So long it is waited for a server that has all, and so long goes on what begins anew.
PATIENCE, PAUSE = 120, 0.3
# How long a server that is looked for may take to answer at all.
SOON = 5
T = TypeVar("T")


class Replicas:
    """The servers of a warehouse in their order, of which so many in a row are a shard."""

    def __init__(self, catalogue: Catalogue, servers: Sequence[Server], database: str, replicas: int, shards: Sequence[str] = (),
                 cluster: str | None = None) -> None:
        judge_count(len(servers), replicas)
        self.catalogue, self.servers, self.database, self.replicas = catalogue, tuple(servers), database, replicas
        self.shards, self.cluster = tuple(shards), cluster
        # The marks of attempts that were left since a server failed in them, and those of all.
        self.mine, self.tries = dict[int, str](), 0
        # The servers that are asked first, where they have all.
        self.preferred: Sequence[Server] = ()

    def of(self, living: Sequence[Server], asked: Sequence[Server], mark: str) -> Warehouse:
        """The warehouse with those that answer and those that are asked."""
        copies = Copies(self.servers, self.replicas, tuple(living), tuple(asked), mark)
        found = Warehouse(self.catalogue, asked, self.database, self.shards, self.cluster, copies=copies)
        found.versions.mine, found.versions.left = self.mine, frozenset(self.mine.values())
        return found

    def new(self) -> Warehouse:
        """The warehouse that is about to be made, for which all servers have to answer."""
        return self.of(self.servers, self.servers[:: self.replicas], secrets.token_hex(8))

    # ---- who answers, and has all

    def answering(self) -> list[tuple[Server, Made]]:
        """The servers that answer and have a part of the warehouse, with the words by which it was made."""
        plain = self.plain()

        def there(server: Server) -> Made | None:
            try:
                server.settings.pop("insert_quorum", None)
                soon(server, server.learn)
                return plain.made(server)
            except (Lost, Told):
                return None

        found = [(server, made) for server, made in zip(self.servers, plain.every.each(there)) if made]
        if not found:
            raise Lost(f"none of the servers {' '.join(map(str, self.servers))} answers that has a part of {self.database}")
        return found

    def chosen(self, seq: int | None = None, is_judged: bool = True) -> Warehouse:
        """The warehouse with one server of each shard that has all; it is waited for that. `is_judged` where it has to be of the catalogue."""
        end = time.monotonic() + PATIENCE
        while True:
            found = self.answering()
            self.judge(found)
            living, mark = self.completed([server for server, _ in found]), found[0][1].mark
            asked, missing = self.best(living)
            if not missing:
                warehouse = self.of(living, asked, mark)
                links.judge_routes(warehouse)
                self.set_quorum(warehouse)
                return self.by_catalogue(warehouse, seq) if is_judged else warehouse
            if time.monotonic() > end:
                raise Failure(FAILED, *(f"whview cluster: {each}" for each in missing))
            time.sleep(PAUSE)

    def answering_any(self) -> Warehouse:
        """The warehouse with any servers that answer, for what is in ZooKeeper alone."""
        found = self.answering()
        self.judge(found)
        living = [server for server, _ in found]
        of_shards = [self.of_shard(shard) for shard in range(len(self.servers) // self.replicas)]
        asked = [next((server for server in own if server in living), own[0]) for own in of_shards]
        return self.of(living, asked, found[0][1].mark)

    def rounds(self, warehouse: Warehouse) -> Iterator[Warehouse]:
        """The same warehouse with other servers asked, until each that answers was."""
        copies = warehouse.copies
        assert copies is not None
        living = [copies.of_shard(shard) for shard in range(len(warehouse.servers))]
        for place in range(max(map(len, living))):
            asked = [own[place % len(own)] for own in living]
            yield self.of(copies.living, asked, copies.mark).remade(warehouse.tables)

    def by_catalogue(self, warehouse: Warehouse, seq: int | None) -> Warehouse:
        """The same with the tables of a version, or of the newest. A server that comes back gets what readers read there."""
        newest = warehouse.versions.highest()
        version = (warehouse.versions.row(seq) if seq is not None else None) or newest
        warehouse.versions.judge(version)
        if isinstance(warehouse.versions, AgreedVersions):
            warehouse.versions.show(newest)
        if newest.definitions == warehouse.definitions:
            readers.show(warehouse.remade(newest.tables))
        return warehouse.remade(version.tables)

    def judge(self, found: Sequence[tuple[Server, Made]]) -> None:
        """Refuses servers that were made parts of a warehouse by other words. What is shared out is what they say, where nobody said it."""
        first = found[0][1]
        self.shards = self.shards or first.shards
        plain = self.plain()
        for server, made in found:
            plain.compare(server, made, plain.words(self.servers.index(server), first.mark)._replace(replicas=self.replicas))

    def of_shard(self, shard: int) -> tuple[Server, ...]:
        """The servers of a shard, those first that are asked first."""
        own = self.servers[shard * self.replicas : (shard + 1) * self.replicas]
        return tuple(sorted(own, key=lambda server: server not in self.preferred))

    def completed(self, living: Sequence[Server]) -> list[Server]:
        """Those servers that have all tables now."""
        return [server for server in living if self.is_completed(server, living)]

    def is_completed(self, server: Server, living: Sequence[Server]) -> bool:
        """Whether a server has all tables now that others of its shard have."""
        try:
            self.complete(server, living)
        except (Lost, Told):
            return False
        return True

    def best(self, living: Sequence[Server]) -> tuple[list[Server], list[str]]:
        """One server of each shard that has all that was put in, and what is missing."""
        asked, missing = list[Server](), list[str]()
        for shard in range(len(self.servers) // self.replicas):
            own = self.of_shard(shard)
            behind = {server: self.behind(server) for server in own if server in living}
            whole = [server for server in own if behind.get(server) == []]
            if whole:
                asked.append(whole[0])
            else:
                told = "; ".join(f"{server} has yet to get rows of {tables[0]}" for server, tables in behind.items() if tables) or "none answers"
                missing.append(f"no server of shard {shard + 1}, {' '.join(map(str, own))}, has all that was put in: {told}")
        return asked, missing

    def behind(self, server: Server) -> list[str]:
        """The tables of a server that have not all rows; what it tells instead, where it fails."""
        try:
            return standing.lag(server, ClickHouse(self.database))
        except (Lost, Told) as error:
            return [f"({error})"]

    def set_quorum(self, warehouse: Warehouse) -> None:
        """Has what puts rows in wait for all servers of the shard that answer."""
        seconds = min(QUORUM * 2**self.tries, LONGEST_QUORUM)
        for shard, server in enumerate(warehouse.servers.all):
            living = len(warehouse.copies.of_shard(shard)) if warehouse.copies else 1
            if living > 1 and not server.only_reads:
                server.settings["insert_quorum"], server.settings["insert_quorum_timeout"] = living, 1000 * seconds

    def caught_up(self, server: Server) -> None:
        """Waits until a server has all rows."""
        end = time.monotonic() + PATIENCE
        while behind := self.behind(server):
            if time.monotonic() > end:
                raise Failure(FAILED, f"whview cluster: {server} has yet to get rows of {behind[0]}")
            time.sleep(PAUSE)

    def plain(self) -> Warehouse:
        """The warehouse as if each server were a shard, for its words."""
        return Warehouse(self.catalogue, self.servers, self.database, self.shards, self.cluster)

    # ---- tables of one that comes back

    def complete(self, server: Server, living: Sequence[Server]) -> None:
        """Gives a server the tables that others of its shard have, and it has not: it did not answer when they were made."""
        if server.only_reads:
            return
        shard = self.servers.index(server) // self.replicas
        peers = [each for each in living if self.servers.index(each) // self.replicas == shard and each is not server]
        has = {said.removeprefix(standing.ASIDE) for said, _ in tables_of(server, self.database)}
        for peer in peers:
            lacking = [(said, made) for said, made in tables_of(peer, self.database) if said not in has and is_given(said)]
            late = standing.lag(peer, ClickHouse(self.database)) if lacking else []
            for said, made in sorted(lacking, key=lambda each: place_of(each[1])):
                take(server, self.numbered(made, peer, server), said not in late)
                has.add(said)

    def numbered(self, made: str, peer: Server, server: Server) -> str:
        """The statement that made a table on one server, for another one of its shard."""
        old, new = (str(self.servers.index(each)) for each in (peer, server))
        return re.sub(rf"(ENGINE = Replicated\w+\('[^']*', )'{old}'", rf"\g<1>'{new}'", made, count=1)

    # ---- what goes on where a server fails

    def tried(self, do: Callable[[Warehouse], T], choose: Callable[[], Warehouse] | None = None) -> T:
        """What is answered by a command with servers that are chosen, and anew with others where one of them fails."""
        end = time.monotonic() + PATIENCE
        while True:
            try:
                return do((choose or self.chosen)())
            except (Lost, Told) as error:
                if isinstance(error, Told) and error.code not in FAILING or time.monotonic() > end:
                    raise
            self.tries += 1
            time.sleep(PAUSE)


def judge_count(servers: int, replicas: int) -> None:
    """Refuses servers that are no shards of so many each."""
    if replicas < 1 or servers % replicas:
        raise Failure(BAD_WORDS, f"whview cluster: {servers} servers are no shards of {replicas} each (--replicas)")


def soon(server: Server, do: Callable[[], T]) -> T:
    """What a server answers, where it answers soon."""
    seconds, server.seconds = server.seconds, min(SOON, server.seconds)
    try:
        return do()
    finally:
        server.seconds = seconds


def tables_of(server: Server, database: str) -> list[tuple[str, str]]:
    """The tables of a database with the statements that make them."""
    said = sql("SELECT name, create_table_query FROM system.tables WHERE database = {schema}", schema=text(database))
    rows = server.asked(ClickHouse(database).written([said])[0])
    return [(found, made) for found, made in rows]


def is_given(said: str) -> bool:
    """Whether a server that lacks a table gets it from another one. What readers read is made by the catalogue."""
    return not said.startswith(KEPT_ALONE) and not said.endswith(OF_READERS)


def place_of(made: str) -> int:
    """What reads other tables comes behind them."""
    return 2 if made.startswith("CREATE VIEW") else 1 if "ENGINE = Replicated" not in made else 0


def take(server: Server, made: str, is_whole: bool) -> None:
    """Makes a table on a server that another client may just have made there. What is left of one of its name goes, where another server of the
    shard has all rows, `is_whole`: of a DROP that was cut off there may be less than ZooKeeper knows. Else it is what there is."""
    try:
        (made_empty if is_whole else taken_up)(server, made)
    except Told as told:
        if told.code != TAKEN:
            raise


def take_view(server: Server, made: str) -> None:
    """Makes a view on a server that may have it."""
    try:
        server.carried(made)
    except Told as told:
        if told.code != TAKEN:
            raise
