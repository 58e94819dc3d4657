"""What the log does not tell of a captured table, found out by the night that follows: partitions that come, leave or are emptied alone, rows that are
written anew or while no log of them was kept, and names that were others for a while. That night compares the whole table with its mirror.

Of tables whose rows are told whole, an event trigger has the log tell the rows of new partitions so, too."""

from __future__ import annotations

from collections.abc import Mapping
from typing import TYPE_CHECKING

from ..tokens import END_OF_STATEMENT, Sql, joined, sql, statements, text
from .captured import ATTRIBUTES, BELOW, FILE
from .log_standing import STAMP
from .parting import CHANGED, NEW, UNNOTED, Parting
from .triggers import PARTING, WAITED

if TYPE_CHECKING:
    from .from_log import FromLog
    from .sources import Source

# Whether a part of a captured table is otherwise than it was noted, whatever was done to it meanwhile.
DIFFERS = (
    "(EXISTS (SELECT 1 FROM {noted} AS o WHERE o.view = {view} AND (NOT EXISTS (SELECT 1 FROM " + BELOW + " WHERE b.relation = o.part) OR o.file <> "
    + FILE.replace("{part}", "o.part") + " OR o.attributes <> " + ATTRIBUTES.replace("{part}", "o.part") + " OR o.triggers IS DISTINCT FROM "
    + STAMP.replace("{part}", "o.part") + ")) OR EXISTS (SELECT 1 FROM " + BELOW + " WHERE {unnoted}))"
)
# The parts of captured tables that came by this transaction, below a table in parts whose rows are told whole. One that is published with a list of its columns
# stays as it is, since its UPDATEs would fail.
TOLD_KEYED = (
    "SELECT b.relation FROM {below} AS b JOIN pg_class AS k ON k.oid = b.relation WHERE k.relkind = {ordinary} AND k.relreplident <> {whole} AND NOT EXISTS"
    " (SELECT 1 FROM pg_publication_rel AS r WHERE r.prrelid = b.relation AND r.prattrs IS NOT NULL)"
)
ROOTS = "SELECT k.oid, FALSE FROM pg_class AS k JOIN pg_namespace AS s ON s.oid = k.relnamespace WHERE k.relkind = {parted} AND k.relreplident = {whole} AND ({named})"
PLACED = "s.nspname = {schema} AND k.relname = {table}"


class LogParting(Parting):
    """The statements about parts of tables that are captured from the log."""

    captures: FromLog

    # ---- what a night does

    def noting(self, v: int, source: Source) -> list[Sql]:
        """The function by which a night compares a table, which nobody else may call."""
        return self.made(v, source)

    def program(self, v: int, source: Source) -> Sql:
        """What that function does."""
        return sql("\n#variable_conflict use_column\nBEGIN{compared}\n  RETURN NULL{end}\nEND{end}", compared=statements(self.compared(v, source), 1),
                   end=END_OF_STATEMENT)

    def compared(self, v: int, source: Source) -> list[Sql]:
        """By the night's snapshot the changes become what differs, and the log is taken from that snapshot on. What is read has to be the files that this
        snapshot sees: rows that are written anew by ALTER TABLE would seem to be gone."""
        below = self.captures.query(v, BELOW)
        rewritten = sql("EXISTS (SELECT 1 FROM {below} JOIN pg_class AS k ON k.oid = b.relation WHERE k.relfilenode <> coalesce(pg_relation_filenode(k.oid), 0))", below=below)
        return [
            self.dialect.where(self.renamed(v, source), sql("RETURN NULL")),
            sql("PERFORM set_config({key}, {waited}, TRUE)", key=text("lock_timeout"), waited=text(WAITED)),
            sql("LOCK TABLE {source} IN ACCESS SHARE MODE", source=source.said),
            self.dialect.where(rewritten, self.dialect.raised(text(CHANGED % source.table))),
            self.dialect.where(self.unfit(v, source), sql("RETURN NULL")),
            sql("DELETE FROM {changes}", changes=self.script.tables.table(v, "~changes")),
            self.captures.difference(v, source),
            self.captures.query(v, "DELETE FROM {noted} AS n WHERE n.view = {view}"),
            self.captures.parts_noted(v),
            *self.captures.since(v),
        ]

    def unfit(self, v: int, source: Source) -> Sql:
        """Nor is a table compared of which a part is foreign, whose changes are in another server's log."""
        foreign = self.captures.query(v, "EXISTS (SELECT 1 FROM " + BELOW + " JOIN pg_class AS k ON k.oid = b.relation WHERE k.relkind = {foreign})")
        return sql("{unfit} OR {foreign}", unfit=super().unfit(v, source), foreign=foreign)

    # ---- the event trigger

    def watched(self, sources: Mapping[int, Source]) -> list[Sql]:
        """The event trigger, where a table in parts is told whole; else none."""
        return self.of_another(self.watching()) if any(source.is_parted and not source.is_identified for source in sources.values()) else []

    def watcher_program(self) -> Sql:
        """What comes below such a table is told whole from its first row on. What fails never fails the command."""
        named = joined([sql(PLACED, schema=text(each.schema), table=text(each.table)) for each in self.captures.read_tables], "OR")
        roots = sql(ROOTS, named=named, whole=text("f"), **self.captures.texts)
        below = sql(NEW, roots=roots, going=text("in progress"), **self.captures.texts)
        wanted = sql(TOLD_KEYED, below=below, whole=text("f"), **self.captures.texts)
        whole = sql("EXECUTE concat({alter}, part, {full})", alter=text("ALTER TABLE ONLY "), full=text(" REPLICA IDENTITY FULL"))
        return sql(
            "\n#variable_conflict use_column\nDECLARE part regclass{end}\n  own bigint{end}\nBEGIN\n  IF current_setting({busy}, TRUE) = {on} THEN RETURN{end} END IF{end}\n"
            "  BEGIN\n  PERFORM set_config({busy}, {on}, TRUE){end}\n  own := pg_current_xact_id()::text::bigint{end}\n  FOR part IN {wanted} LOOP {made}{end}\n  END LOOP{end}\n"
            "  PERFORM set_config({busy}, {none}, TRUE){end}\n  EXCEPTION WHEN query_canceled OR OTHERS THEN\n"
            "  RAISE WARNING USING MESSAGE = concat({told}, SQLERRM){end}\n  END{end}\nEND{end}",
            busy=text(PARTING), on=text("on"), none=text(""), wanted=wanted, made=whole, told=text(UNNOTED), end=END_OF_STATEMENT,
        )
