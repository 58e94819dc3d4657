"""Versions and attempts of a warehouse with replicas: in ZooKeeper, so that no server has them alone.

What ZooKeeper has of a replicated table are its columns, and whoever makes the table at a path first says which. So each version, attempt and
pin is such a path, and its row stands in the columns' defaults: who comes second with another row is refused. The statement names a replica
that cannot be, so that the path is made and no server gets a table of it. Whatever a server answers to it, what stands in ZooKeeper then
says whose the name is; and any server can be asked.
"""

from __future__ import annotations

import re
import secrets
import time
from contextlib import suppress
from functools import partial
from typing import TYPE_CHECKING, Any, NamedTuple, TypeVar

from ..finding import Failure
from ..sql.tokens import name, sql, text
from .servers import GONE, TAKEN, Lost, Servers, Told
from .status import FAILED
from .versions import MANY, TRIES, Versions

if TYPE_CHECKING:
    from collections.abc import Callable, Sequence

    from ..sql.clickhouse import ClickHouse
    from ..sql.tokens import Sql
    from .servers import Rows, Server
    from .versions import Version

# Codes of a server: what ZooKeeper says, of which a node that is not there is one; a table has other columns there.
KEEPER, OTHER_COLUMNS = 999, 122
# A table that has no session of ZooKeeper's, or no path there.
READ_ONLY = 242
# A server is asked nothing for so many seconds behind an error that says that it lost its session.
PAUSE = 0.1
# A replica that cannot be made, since no path leads to it.
NOWHERE = "no/where"
# What there are paths of: versions, attempts, versions that were taken away, and pins.
LETTERS = "vaxp"
# What a replica has while a server has a table of it.
IN_USE = "is_active"
# The tables by which paths are made and taken away. The second ones are there for a moment, or were left by one who was killed.
MADE, REMOVED = "~z", "~y"
# The row of a version on a server, and how the name of one begins that was taken away.
ROW, GONE_ROW = re.compile("~v([0-9]+)~[0-9a-f]+"), "~x"
PAYLOAD = re.compile(r"DEFAULT\W+([0-9a-f]+)")
TEXT = re.compile(r"'(?:[^'\\]|\\.)*'", re.DOTALL)
T = TypeVar("T")


class NothingStands(Lost):
    """However often it was asked for, no path was made."""


class Node(NamedTuple):
    """A path in ZooKeeper: when it was made, by a number and by the clock."""

    number: int
    at: int


class Standing(NamedTuple):
    """What stands at a path: its row, and whether it goes. Nothing but what takes a path away makes a replica of it, and a server that is killed
    meanwhile leaves that. So it is gone from then on, and a sweep takes the rest away."""

    row: str
    goes: bool


class AgreedVersions(Versions):
    """The versions and attempts below a path of ZooKeeper, by whichever of the servers answers; `server` is the one that reads rows."""

    def __init__(self, server: Server, dialect: ClickHouse, definitions: tuple[str, ...], servers: Sequence[Server], path: str) -> None:
        super().__init__(server, dialect, definitions)
        self.servers, self.path = list(servers), path
        # The rows that were read, by what they are of and when that was made.
        self.known: dict[tuple[str, int, int], str] = {}

    # ---- whichever server answers

    def by_any(self, do: Callable[[Server], T]) -> T:
        """What `do` makes of the first server that can be asked; one that cannot comes last from then on."""
        lost: Exception | None = None
        for _ in range(TRIES):
            for server in [*self.servers]:
                try:
                    return do(server)
                except Lost as error:
                    lost = error
                except Told as told:
                    if told.code != KEEPER or "No node" in told.text:
                        raise
                    lost = told
                self.servers.remove(server)
                self.servers.append(server)
            time.sleep(PAUSE)
        raise lost or Failure(FAILED, "whview cluster: there is no server")

    def any_asked(self, said: Sql | str) -> Rows:
        """The rows of a question that any server can answer."""
        written = said if isinstance(said, str) else self.written(said)
        return self.by_any(lambda server: server.asked(written))

    def now(self) -> int:
        return int(self.any_asked(sql("SELECT toUInt32(now()) AS at"))[0][0])

    # ---- what stands in ZooKeeper

    def at(self, letter: str, seq: int | None = None) -> str:
        """The path of what a letter is of, or of one of these."""
        return f"{self.path}/{letter}" if seq is None else f"{self.path}/{letter}/{seq}"

    def nodes(self, letter: str) -> dict[int, Node]:
        """What there is of a letter, by its numbers."""
        rows = self.below(self.at(letter), "name, czxid, toUInt32(ctime), numChildren")
        # Who is killed as the last of a path goes may leave its name, which has nothing below it.
        return {int(said): Node(int(number), int(at)) for said, number, at, below in rows if said.isdigit() and int(below)}

    def payload(self, letter: str, seq: int) -> str | None:
        """The row of one, as a question that answers it, or None where it is not there."""
        found = self.stands(letter, seq)
        return found.row if found and not found.goes else None

    def stands(self, letter: str, seq: int) -> Standing | None:
        """What stands at the path of one, or None where nothing does."""
        there = {named: (value, int(below)) for named, value, below in self.below(self.at(letter, seq), "name, value, numChildren")}
        found = PAYLOAD.search(there["columns"][0]) if "columns" in there else None
        return Standing(judged(bytes.fromhex(found[1]).decode()), there.get("replicas", ("", 0))[1] > 0) if found else None

    def below(self, path: str, columns: str) -> Rows:
        """What ZooKeeper has below a path, or nothing where that is not there."""
        try:
            return self.any_asked(sql("SELECT {columns} FROM system.zookeeper WHERE path = {path}", columns=sql(columns), path=text(path)))
        except Told as told:
            if told.code == KEEPER and "No node" in told.text:
                return []
            raise

    def payloads(self, letter: str) -> dict[int, str]:
        """The rows of all of a letter at one moment: none has come meanwhile."""
        for _ in range(MANY):
            nodes = self.nodes(letter)
            for seq, node in nodes.items():
                if (letter, seq, node.number) not in self.known and (found := self.payload(letter, seq)) is not None:
                    self.known[letter, seq, node.number] = found
            if nodes == self.nodes(letter):
                there = {seq: self.known.get((letter, seq, node.number)) for seq, node in sorted(nodes.items())}
                return {seq: said for seq, said in there.items() if said is not None}
        raise Failure(FAILED, "whview cluster: versions come and go faster than they can be read")

    def numbers(self, letter: str) -> list[int]:
        return sorted(self.nodes(letter))

    def cells(self, letter: str, seq: int, columns: str) -> Sequence[Any] | None:
        found = self.payload(letter, seq)
        return self.any_asked(f"SELECT {columns} FROM ({found})")[0] if found else None

    def merged(self, template: str, **parts: Sql) -> Rows:
        """A question about all attempts or versions, whose rows go with it. The attempts are read first."""
        said = self.written(sql(template, attempts=self.dialect.numbered("a"), versions=self.dialect.numbered("v"), **parts))
        for letter in "av":
            table = self.written(self.dialect.numbered(letter))
            if table in said:
                said = said.replace(table, f"({' UNION ALL '.join(self.payloads(letter).values())})")
        return self.any_asked(said)

    def changed(self) -> dict[str, int]:
        return {f"~{letter}{seq}": node.at for letter in "vx" for seq, node in self.nodes(letter).items()}

    # ---- what is made, and taken away

    def made(self, letter: str, seq: int, row: Sql) -> bool:
        """Whether the name is this row's. What a server answers is not asked for, since a path may stand though none came."""
        said = self.written(row)
        for _ in range(MANY):
            self.by_any(lambda server: self.sent(server, MADE, letter, seq, said, NOWHERE))
            found = self.payload(letter, seq)
            if found is not None:
                return found == said
            time.sleep(PAUSE)
        raise NothingStands(f"{self.server}: nothing stands at {self.at(letter, seq)}")

    def sent(self, server: Server, table: str, letter: str, seq: int, said: str, replica: str, how: str = "CREATE") -> bool:
        """Sends what makes a path with a row, and a replica of it, or takes that up. Answers whether that is there."""
        made = sql(
            "{how} TABLE {table} ({row} String DEFAULT {said}) ENGINE = ReplicatedMergeTree({path}, {replica}) ORDER BY tuple()",
            how=sql(how), table=self.dialect.table(table), row=name("row"), said=text(said.encode().hex()), path=text(self.at(letter, seq)), replica=text(replica),
        )
        try:
            server.carried(self.written(made))
        except Told as told:
            if told.code not in (KEEPER, OTHER_COLUMNS, TAKEN) or (told.code == KEEPER and "No node" not in told.text and "exists" not in told.text):
                raise
            return False
        return True

    def dropped(self, letter: str, seq: int) -> None:
        """Takes a path away: with its only replica, which is made for that."""
        found = self.stands(letter, seq)
        if found is None:
            return
        table, kept = f"{REMOVED}{secrets.token_hex(6)}", found.row

        def removed(server: Server) -> None:
            if self.sent(server, table, letter, seq, kept, table[1:]):
                self.drop(server, table)

        self.by_any(removed)

    def drop(self, server: Server, table: str) -> None:
        """Drops the table of a replica. Where another server took its path away, this one forgets it, which it tells as an error."""
        try:
            server.carried(self.written(sql("DROP TABLE IF EXISTS {table}", table=self.dialect.table(table))))
        except Told as told:
            if told.code != READ_ONLY:
                raise

    def taken_away(self, seq: int) -> None:
        """What a version was stands by another letter, x, before it is taken away."""
        row = self.payload("v", seq)
        if row is None:
            return
        self.dropped("x", seq)
        kept = row
        self.by_any(lambda server: self.sent(server, MADE, "x", seq, kept, NOWHERE))
        self.dropped("v", seq)

    # ---- rows of versions on the servers, by which readers know them

    def created(self, made: Version) -> bool:
        """Whether a version could be made. Each server that answers has its row before, and those of others that wanted the same number lose theirs
        behind it."""
        own = row_name(made)
        Servers([*self.servers]).each(lambda server: self.give_row(server, made))
        done = super().created(made)
        with suppress(Told, Lost):
            Servers([*self.servers]).each(lambda server: self.keep_rows(server, lambda seq, said: seq != made.seq or (said == own) == done))
        return done

    def give_row(self, server: Server, version: Version) -> None:
        """Makes the row of a version on a server, which may have it."""
        own = self.dialect.table(row_name(version))
        self.tried(server, self.written(sql("CREATE VIEW {own} AS {row}", own=own, row=version.literals())))

    def show(self, newest: Version) -> None:
        """Has each server that answers have the row of the newest version, and no other one for its number, of one who was killed."""
        own = row_name(newest)

        def shown(server: Server) -> None:
            if not server.only_reads:
                if own not in self.tables(server):
                    self.give_row(server, newest)
                self.keep_rows(server, lambda seq, said: seq != newest.seq or said == own)

        Servers([*self.servers]).each(shown)

    def tried(self, server: Server, said: str) -> None:
        """What somebody may have done already."""
        try:
            server.carried(said)
        except Told as told:
            if told.code not in (*GONE, TAKEN):
                raise

    def keep_rows(self, server: Server, is_kept: Callable[[int, str], bool]) -> None:
        """Has the rows of versions on a server that are not kept have another name, since somebody may be about to read them."""
        for said in self.tables(server):
            found = ROW.fullmatch(said)
            if found and not is_kept(int(found[1]), said):
                aside = self.dialect.table(f"{GONE_ROW}{said[2:]}")
                self.tried(server, self.written(sql("RENAME TABLE {row} TO {aside}", row=self.dialect.table(said), aside=aside)))

    def clear_rows(self) -> None:
        """Drops the rows that have another name, and gives one to those of versions that are gone. One that is to come may be made just now."""
        rows = {seq: row for seq in self.numbers("v") if (row := self.row(seq))}
        kept, last = {row_name(row) for row in rows.values()}, max(rows)

        def cleared(server: Server) -> None:
            for said in self.tables(server):
                if said.startswith(GONE_ROW):
                    self.drop(server, said)
            self.keep_rows(server, lambda seq, said: said in kept or seq > last)

        Servers([*self.servers]).each(cleared)

    def tables(self, server: Server) -> list[str]:
        """The names of a server's tables."""
        question = sql("SELECT name FROM system.tables WHERE database = {schema}", schema=text(self.dialect.schema))
        return [said for said, in server.asked(self.written(question))]

    # ---- what is left of what was cut off

    def clear(self) -> None:
        """Ends what one who was killed has left of taking something away: the tables that servers have for it, and then paths that go, with the
        replicas of tables that no server has any more."""
        self.clear_rows()
        for server in [*self.servers]:
            for said in self.tables(server):
                if said.startswith(REMOVED):
                    self.drop(server, said)
        for letter in LETTERS:
            for seq in self.nodes(letter):
                found = self.stands(letter, seq)
                if found and found.goes:
                    self.finish(letter, seq, found.row)

    def finish(self, letter: str, seq: int, row: str) -> None:
        """Takes up the replicas of a path that are nobody's, and drops them. One that is in use is another client's, or was until a moment ago."""
        path = f"{self.at(letter, seq)}/replicas"
        for replica, in self.below(path, "name"):
            if IN_USE not in {said for said, in self.below(f"{path}/{replica}", "name")}:
                self.by_any(partial(self.taken_up, letter=letter, seq=seq, row=row, replica=replica))

    def taken_up(self, server: Server, letter: str, seq: int, row: str, replica: str) -> None:
        """Has a server take a replica up as a table of its own, and drop it. Of one that is gone but for its name no server can be made."""
        table = f"{REMOVED}{secrets.token_hex(6)}"
        if self.sent(server, table, letter, seq, row, replica, "ATTACH"):
            self.drop(server, table)


def row_name(version: Version) -> str:
    """By what name a server has the row of a version."""
    return f"~v{version.seq}~{version.lineage[0]}"


def judged(said: str) -> str:
    """A row as a question, which reads no tables."""
    if not said.startswith("SELECT ") or re.search(r"\b(?:FROM|UNION)\b|;", TEXT.sub("", said), re.IGNORECASE):
        raise Failure(FAILED, f"whview cluster: {said[:60]!r} stands in ZooKeeper, which is no row of a version")
    return said
