"""What the nights of PostgreSQL know of a slot of logical replication, from which tables are captured in the place of triggers: its name, the table that
says how far it was read, and what a night asks of it."""

from __future__ import annotations

import re
from collections.abc import Callable, Sequence
from hashlib import sha256
from typing import TYPE_CHECKING, TypeVar

from ..postgresql import SETTINGS
from ..tokens import END_OF_STATEMENT, Sql, Unfit, body, joined, number, sql, statements, text, word

if TYPE_CHECKING:
    from .database import Rows
    from .live import Database
    from .merge import MergeScript

LOG, FORMER, FUNCTIONS = "~log", "~former", {"cells": "~cells", "take": "~take", "read": "~read", "move": "~move"}
PLUGIN = "test_decoding"
PLAIN = re.compile(r"[a-z0-9_]{1,40}")
# How long, in steps of so many milliseconds, the end of what was committed without waiting is waited for, before a check reads the log.
FLUSHED, PAUSE = 60, 50
# So often the log is asked anew beside nights that move it.
TRIES = 8
GONE = "the replication slot %s is gone, of which this database's changes were read: run whview sql capture"
LOST = "the replication slot %s was invalidated, and its changes are lost (max_slot_wal_keep_size): run whview sql capture"
MOVED = "the replication slot %s was moved by somebody else than a night, and changes may be lost: run whview sql capture"
OTHER = "the tables of the nights are from another server than this, whose log has other changes: run whview sql capture"
UNFILLED = "table %s is not captured as it was: it was not filled beside the log; run whview sql capture"

T = TypeVar("T")


def slot_part(schema: str) -> str:
    """What a slot's name has of a schema's."""
    return schema if PLAIN.fullmatch(schema) else re.sub("[^a-z0-9_]", "_", schema.lower())[:24] + "_" + sha256(schema.encode()).hexdigest()[:8]


class Log:
    """What is asked of the log, whether or not this schema's tables are captured from it."""

    def __init__(self, script: MergeScript) -> None:
        self.script, self.dialect = script, script.dialect
        self.table, self.former = script.tables.own(LOG), script.tables.own(FORMER)

    def function(self, said: str) -> Sql:
        """A function by the word for it."""
        return self.dialect.table(self.script.tables.prefix + FUNCTIONS[said])

    def written(self, said: Sql) -> Sql:
        """What is written for tokens, as a text."""
        return text(self.dialect.written([said])[0])

    def is_there(self) -> Sql:
        """A test of whether tables are captured from the log."""
        return sql("to_regclass({table}) IS NOT NULL", table=self.written(self.table))

    def is_used(self, database: Database) -> bool:
        """The same, asked of a database."""
        return bool(database.rows(sql("SELECT to_json({test})", test=self.is_there()))[0][0])

    def slot(self) -> Sql:
        """The name of the slot: that of a database by its number, which stays where it gets another name."""
        return sql("concat({own}, (SELECT b.oid FROM pg_database AS b WHERE b.datname = current_database()), {schema})::name", own=text("whview_"),
                   schema=text("_" + slot_part(self.dialect.schema)))

    def slots(self, test: Sql = sql("TRUE")) -> Sql:
        """The slot as the server has it, if it is this schema's."""
        return sql("FROM pg_replication_slots AS s WHERE s.slot_name = {slot} AND s.database = current_database() AND s.plugin = {plugin} AND {test}",
                   slot=self.slot(), plugin=text(PLUGIN), test=test)

    # ---- what a check asks

    def beside_nights(self, ask: Callable[[], T]) -> T:
        """The answer of what asks the log in one snapshot: a night that ends between the snapshot and the look at the log has moved that, and it is asked
        anew."""
        for _ in range(TRIES - 1):
            try:
                return ask()
            except Unfit as fault:
                if MOVED.partition("%s")[2] not in str(fault):
                    raise
        return ask()

    def noted(self, is_kept: bool) -> list[Sql]:
        """What this snapshot sees of the log becomes changes, which stay where rows are put right; what the next night reads is what it does not see."""
        kept = [sql("UPDATE {table} SET since = pg_current_snapshot()::text", table=self.table)] if is_kept else []
        return [self.taken(False), *kept]

    def waiting(self, database: Database, queries: Sequence[Sql]) -> list[Rows]:
        """The answers of queries for what waits, with what waits in the log."""
        begin = sql("BEGIN ISOLATION LEVEL REPEATABLE READ READ WRITE{end}", end=END_OF_STATEMENT)
        return self.beside_nights(lambda: database.rolled_back([begin, self.dialect.block([self.taken(False)])], queries))

    # ---- what a night asks

    def taken(self, is_night: bool = True) -> Sql:
        """The changes that are committed become those of the tables of changes; for a check those alone that its snapshot sees."""
        return sql("PERFORM {take}({is_night})", take=self.function("take"), is_night=word("TRUE" if is_night else "FALSE"))

    def taken_by_night(self) -> list[Sql]:
        """The same, where tables are captured from the log."""
        return self.dialect.only_where(self.is_there(), [self.taken()])

    def flushed_before(self) -> Sql:
        """Before a night begins, what was committed without waiting for the disk is brought there by a commit that waits: only what is there is read."""
        made = [
            sql("IF current_setting({key}) = {off} THEN PERFORM set_config({key}, {local}, TRUE){end} END IF", key=text("synchronous_commit"), off=text("off"),
                local=text("local"), end=END_OF_STATEMENT),
            sql("PERFORM pg_logical_emit_message(TRUE, {said}, {none})", said=text("whview"), none=text("")),
        ]
        return self.beside(made)

    def beside(self, made: list[Sql]) -> Sql:
        """Statements beside a night where tables are captured from the log; where they are not nothing else is asked."""
        kept = [*SETTINGS[:1], *self.dialect.owner.taken_on(), *made]
        program = sql("\nDECLARE finding pg_catalog.text{end}\nBEGIN\n  IF pg_catalog.to_regclass({table}) IS NOT NULL THEN {kept}\n  END IF{end}\nEND{end}",
                      table=self.written(self.table), kept=statements(kept, 2), end=END_OF_STATEMENT)
        return sql("DO {program}{end}", program=body(program), end=END_OF_STATEMENT)

    def moved(self) -> Sql:
        """After a night the slot keeps no more than what no night has taken. A night that is killed before this is followed by one that knows by the table
        how far the log was read."""
        least = sql("(SELECT min(o.taken) FROM {table} AS o)", table=self.table)
        return self.beside([sql("PERFORM {move}({least})", move=self.function("move"), least=least)])

    def holes(self) -> Sql:
        """A query for what keeps the log from being read, or NULL."""
        is_lost = sql("s.wal_status = {lost}", lost=text("lost"))
        is_moved = sql("s.confirmed_flush_lsn > (SELECT min(o.taken) FROM {table} AS o)", table=self.table)
        unfilled = sql("SELECT format({told}, o.view) FROM {table} AS o WHERE o.since IS NULL ORDER BY o.view LIMIT 1", told=text(UNFILLED), table=self.table)
        strange = sql("SELECT {told} WHERE EXISTS (SELECT 1 FROM {table} AS o WHERE o.server <> {server})", told=text(OTHER), table=self.table, server=self.server())
        queries = [
            sql("SELECT {told} WHERE NOT EXISTS (SELECT 1 {slots})", told=self.told(GONE), slots=self.slots()),
            sql("SELECT {told} {slots}", told=self.told(LOST), slots=self.slots(is_lost)),
            unfilled,
            strange,
            sql("SELECT {told} {slots}", told=self.told(MOVED), slots=self.slots(is_moved)),
        ]
        return sql("SELECT coalesce({queries})", queries=joined([sql("({query})", query=query) for query in queries]))

    def told(self, said: str) -> Sql:
        """A sentence about the slot."""
        return sql("format({told}, {slot})", told=text(said), slot=self.slot())

    def server(self) -> Sql:
        """The number of the server whose log it is."""
        return sql("(pg_control_system()).system_identifier")

    def flushed(self) -> list[Sql]:
        """A wait for what was committed without waiting for the disk: only what is there is read of the log. What is not committed may never be there."""
        wait = sql("PERFORM pg_sleep({pause} / 1000.0)", pause=number(PAUSE))
        return [
            sql("seen := pg_current_wal_insert_lsn()"),
            sql("tries := 0"),
            sql("WHILE pg_current_wal_flush_lsn() < seen AND tries < {most} LOOP tries := tries + 1{end} {wait}{end} END LOOP", most=number(FLUSHED),
                wait=wait, end=END_OF_STATEMENT),
        ]

    # ---- what stands

    def kept(self) -> Sql:
        """A query for how many bytes of the server's log the slot keeps, and how the server calls that."""
        now = sql("CASE WHEN pg_is_in_recovery() THEN pg_last_wal_replay_lsn() ELSE pg_current_wal_lsn() END")
        return sql("SELECT json_build_array(coalesce(pg_wal_lsn_diff({now}, s.restart_lsn), 0)::bigint, s.wal_status) {slots}", now=now, slots=self.slots())
