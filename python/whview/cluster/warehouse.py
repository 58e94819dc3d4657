"""A warehouse on servers: by which words it was made, and its versions."""

from __future__ import annotations

import hashlib
from collections.abc import Sequence
from concurrent.futures import ThreadPoolExecutor
from pathlib import Path
from typing import TYPE_CHECKING, Any, NamedTuple

from ..finding import Failure
from ..folder.packing import file_part
from ..sql.catalogue import Catalogue
from ..sql.clickhouse import ClickHouse
from ..sql.slots import OF_SERVER, OF_SHARD, Replication, Slots, split_of
from ..sql.tokens import Sql, Unfit, number, sql, text
from . import links
from .agreed import AgreedVersions
from .leftovers import made_empty
from .servers import GONE, TAKEN, Servers, Told
from .status import BAD_INPUT, BAD_WORDS, REFUSED
from .versions import Versions, texts

if TYPE_CHECKING:
    from collections.abc import Iterable

    from ..sql.slots import Slot, Statement
    from .servers import Server

NO_DATABASE, NO_COLUMN = 81, 47
# So many tables are made at a time.
AT_ONCE = 16
# The form of a warehouse's tables; the first one had no marks, and columns by the user's names, the second one no generations, and the third
# one nothing that says how many servers a shard has. With replicas the fourth one had nothing for readers by SQL.
FORM, FORM_OF_REPLICAS = 4, 5
# What a view's definition says that has columns of its own, and one that is over others.
COLUMNS, VIEW = "columns", "view"
OTHER_FORM = "was made by another version of whview, whose tables have another form: load it anew, under another --database"
FILES = ("catalogue.toml", "sizes.csv", "plan.txt", "strategy.txt")


def catalogue_of(folder: Path) -> Catalogue:
    """The catalogue of a folder, and its strategy where it has one."""
    if not (folder / "catalogue.toml").is_file():
        raise Failure(BAD_INPUT, f"{folder / 'catalogue.toml'}:1:1: there is no catalogue.toml in this folder")
    try:
        return Catalogue(b"".join(each for name in FILES for each in file_part(folder / name)).decode())
    except Unfit as told:
        raise Failure(BAD_INPUT, f"{folder}: {told}") from told
    except (ValueError, KeyError, IndexError, TypeError, RecursionError) as fault:
        raise Failure(BAD_INPUT, f"{folder} cannot be read ({fault!r}): `whview folder lint` names the fault") from fault


class Made(NamedTuple):
    """The words that a warehouse was made by, as one server keeps them: the servers, what is shared out, the name by which servers know each
    other, which server this is, a mark of the warehouse, how many servers a shard has, and the form of its tables. The catalogue is each
    version's."""

    servers: tuple[str, ...]
    shards: tuple[str, ...]
    cluster: str
    number: int
    mark: str
    replicas: int = 1
    form: int = FORM

    def literals(self) -> Sql:
        """The words as a question that answers them. An array of literals has one at least, which of none shared out is an empty text."""
        return sql(
            "SELECT [{servers}] AS servers, [{shards}] AS shards, {cluster} AS cluster, toInt64({number}) AS number,"
            " {mark} AS mark, toInt64({replicas}) AS replicas, toInt64({form}) AS form",
            servers=texts(self.servers), shards=texts(self.shards or [""]), cluster=text(self.cluster),
            number=number(self.number), mark=text(self.mark), replicas=number(self.replicas), form=number(self.form),
        )  # fmt: skip

    @classmethod
    def of(cls, row: Sequence[Any]) -> Made:
        """The words by a row of a server's answer."""
        servers, shards, cluster, own, mark, replicas, form = row
        return cls(tuple(servers), tuple(filter(None, shards)), cluster, int(own), mark, int(replicas), int(form))


class Copies(NamedTuple):
    """The servers of a warehouse with replicas: all of them in their order, of which so many in a row are a shard; those that answer; those
    that are asked, one of each shard; and the mark of the warehouse."""

    all: tuple[Server, ...]
    replicas: int
    living: tuple[Server, ...]
    asked: tuple[Server, ...]
    mark: str

    def shard(self, server: Server) -> int:
        """The number of a server's shard."""
        return self.all.index(server) // self.replicas

    def of_shard(self, shard: int) -> list[Server]:
        """The servers of a shard that answer."""
        return [server for server in self.living if self.shard(server) == shard]

    @property
    def path(self) -> str:
        """Where ZooKeeper has what is the warehouse's."""
        return f"/whview/{self.mark}"

    def replication(self, cluster: str) -> Replication:
        """What statements have to know of it."""
        only_reads = any(server.only_reads for server in self.asked)
        return Replication(self.path, tuple(links.route(cluster, self.all.index(server)) for server in self.asked), self.replicas, only_reads)


def form_of(replicas: int) -> int:
    """The form of a warehouse's tables, of which each shard has so many servers."""
    return FORM if replicas == 1 else FORM_OF_REPLICAS


def digest(catalogue: Catalogue) -> str:
    """What a catalogue says, however its text is laid out."""
    return hashlib.sha256(catalogue.words.catalogue()).hexdigest()


def definitions_of(catalogue: Catalogue) -> tuple[str, ...]:
    """By what each view of a catalogue is known: its name, whether it is one with columns or defined over others, and a digest of that, and
    of what they are."""
    found = list[str]()
    for v, view in enumerate(catalogue.views):
        own = [*catalogue.words.definition(v), *(found[u] for u in view.over)] if view.over else [f"{column} {kind}" for column, kind in view.columns]
        told = hashlib.sha256("\n".join(own).encode()).hexdigest()[:16]
        found.append(f"{view.name} {VIEW if view.over else COLUMNS} {told}")
    return tuple(found)


class Warehouse:
    """A catalogue, its servers, and what is shared out; `versions` are on the first server. `tables` are the names of the views' tables, which
    are theirs where nothing else is said. Where there are replicas `servers` has those that are asked, and ZooKeeper the versions."""

    def __init__(self, catalogue: Catalogue, servers: Sequence[Server], database: str, shards: Sequence[str] = (), cluster: str | None = None,
                 tables: Sequence[str] = (), copies: Copies | None = None) -> None:
        self.copies = copies
        self.catalogue, self.servers, self.shards, self.cluster = catalogue, Servers(servers), tuple(sorted(shards)), cluster or database
        self.dialect = ClickHouse(database, self.cluster)
        try:
            self.split = split_of(catalogue, self.shards)
        except Unfit as told:
            raise Failure(BAD_WORDS, f"whview cluster: {told}") from told
        self.definitions, self.tables = definitions_of(catalogue), tuple(tables) or tuple(view.name for view in catalogue.views)
        self.versions = self.kept_versions()
        self.plain = self.script()
        self.steps = self.plain.steps

    def kept_versions(self) -> Versions:
        """The versions, where they are kept."""
        first, copies = self.servers.first, self.copies
        if copies is None:
            return Versions(first, self.dialect, self.definitions)
        return AgreedVersions(first, self.dialect, self.definitions, copies.living, copies.path)

    def remade(self, tables: Sequence[str] = (), shards: Sequence[str] | None = None) -> Warehouse:
        """The same with these tables, and what is shared out."""
        shared = self.shards if shards is None else shards
        found = Warehouse(self.catalogue, self.servers.all, self.dialect.schema, shared, self.cluster, tables, self.copies)
        found.versions.mine, found.versions.left = self.versions.mine, self.versions.left
        return found

    @property
    def every(self) -> Servers:
        """All servers that have tables, as far as they answer."""
        return self.servers if self.copies is None else Servers(self.copies.living)

    def script(self, slots: Sequence[int] | None = None, slot: Slot | None = None, netted: bool = False, rows: Sequence[int] = ()) -> Slots:
        """The statements over these slots."""
        replication = self.copies.replication(self.cluster) if self.copies else None
        found = Slots(self.catalogue, self.dialect, self.split, slots, slot, len(self.servers), netted, rows, replication)
        found.called.update(enumerate(self.tables))
        found.definitions = self.definitions
        return found

    def written(self, said: Sql) -> str:
        return self.dialect.written([said])[0]

    def token(self, slot: int, step: str) -> str:
        """What a statement is known by that puts rows into a slot in a step."""
        return f"{self.dialect.schema} slot {slot}: {step}"

    def carried(self, made: Statement, token: str = "") -> None:
        """A statement on the servers that it is for."""
        said = self.written(made.said)
        self.servers.of(made.where).each(lambda server: server.carried(said, token=token))

    def made_by_all(self, statements: Iterable[Statement]) -> None:
        """Statements that make tables, one after the other, on all servers; what is there stays. Replicated tables do not need each other, and
        take their time: they are made side by side."""
        listed = [*statements]
        with ThreadPoolExecutor(AT_ONCE) as pool:
            for several in [listed] if self.copies else [[each] for each in listed]:
                jobs = [pool.submit(self.made_on, server, made.said) for made in several for server in self.every.all]
                for job in jobs:
                    job.result()

    def made_on(self, server: Server, said: Sql) -> None:
        """Makes something on a server, which may have it already."""
        try:
            made_empty(server, self.written_for(server, said))
        except Told as told:
            if told.code != TAKEN:
                raise

    def written_for(self, server: Server, said: Sql) -> str:
        """What makes a table on a server, which a replicated table knows by its number."""
        written = self.written(said)
        if self.copies is None:
            return written
        return written.replace(OF_SHARD, str(self.copies.shard(server))).replace(OF_SERVER, str(self.copies.all.index(server)))

    # ---- by which words it was made

    def words(self, own: int, mark: str = "") -> Made:
        """The words that the server of this number keeps."""
        copies = self.copies
        addresses = tuple(map(str, copies.all if copies else self.servers.all))
        replicas = copies.replicas if copies else 1
        return Made(addresses, self.shards, self.cluster, own, mark, replicas, form_of(replicas))

    def made(self, server: Server) -> Made | None:
        """The words that a server keeps, or None."""
        columns = ", ".join(Made._fields)
        try:
            rows = server.asked(self.written(sql("SELECT {columns} FROM {own}", columns=sql(columns), own=self.dialect.table("~w"))))
        except Told as told:
            if told.code in (*GONE, NO_DATABASE):
                return None
            if told.code == NO_COLUMN:
                raise Failure(REFUSED, f"whview cluster: {self.dialect.schema} on {server} {OTHER_FORM}") from told
            raise
        made = Made.of(rows[0])
        if made.form != form_of(made.replicas):
            raise Failure(REFUSED, f"whview cluster: {self.dialect.schema} on {server} {OTHER_FORM}")
        return made

    def judged(self, first_alone: bool = False, seq: int | None = None) -> Warehouse:
        """The same with what is shared out, which it may leave out, and the tables that a version has, or the newest; refuses a warehouse that
        is not there or was made by other words. Where the first server alone is asked, it says what all of them were made by."""
        first = self.judged_words(first_alone)
        version = (self.versions.row(seq) if seq is not None else None) or self.versions.highest()
        self.versions.judge(version)
        return self.remade(version.tables, first.shards)

    def judged_words(self, first_alone: bool = False) -> Made:
        """The words by which the warehouse was made, which are those of the command."""
        asked = Servers(self.servers.all[:1]) if first_alone else self.servers
        asked.each(lambda server: server.learn())
        kept = [self.there(server, made) for server, made in zip(asked.all, asked.each(self.made))]
        first = kept[0]
        for own, (server, made) in enumerate(zip(asked.all, kept)):
            self.compare(server, made, self.words(own, first.mark)._replace(shards=self.shards or first.shards))
        if not first_alone:
            links.judge(self, self.plain.all_servers(), first.mark)
        return first

    def there(self, server: Server, made: Made | None) -> Made:
        """The words that a server keeps, where it keeps any."""
        if made is None:
            raise Failure(REFUSED, f"whview cluster: there is no warehouse in {self.dialect.schema} on {server}: `create` makes it")
        return made

    def compare(self, server: Server, made: Made, wanted: Made) -> None:
        """Refuses a server that was made a part of a warehouse by other words."""
        told = [
            differing("servers", made.servers, wanted.servers),
            differing("--shard", made.shards, wanted.shards),
            differing("--cluster", made.cluster, wanted.cluster),
            differing("an order of servers", made.number, wanted.number),
            differing("--replicas", made.replicas, wanted.replicas),
        ]
        if first := next(filter(None, told), None):
            cure = "; `readdress` if they are the same ones" if first.startswith("servers") and len(made.servers) == len(wanted.servers) else ""
            raise Failure(BAD_WORDS, f"whview cluster: {self.dialect.schema} on {server} was made by {first}{cure}")
        if made.mark != wanted.mark:
            raise Failure(BAD_WORDS, f"whview cluster: {server} has a part of another warehouse in {self.dialect.schema} than {self.servers.first}")


def differing(what: str, had: tuple[str, ...] | str | int, has: tuple[str, ...] | str | int) -> str:
    """By what a warehouse was made otherwise, or nothing."""
    return f"{what} {listed(had)}, and not {listed(has)}" if had != has else ""


def listed(said: tuple[str, ...] | str | int) -> str:
    """Words as they are told."""
    return (" ".join(said) or "none") if isinstance(said, tuple) else str(said)
