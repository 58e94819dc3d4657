"""Drawn nights by the scripts of live tables, against the program: the same rows in all tables, and the same refusals."""

from collections import Counter
from unittest import mock

from trials.drawn.scripts import Carried, Night
from trials.drawn.shrunk import smallest
from trials.drawn.views import chance
from trials.servers.engines import SCHEMA, PostgreSQLEngine
from whview.sql import digests
from whview.sql.capture.postgresql import CAPTURED, COLUMNS, JUDGED, PARTS, TORN, LivePostgreSQL
from whview.sql.capture.merge import MergeParts, MergeScript
from whview.sql.tokens import END_OF_STATEMENT, sql


class DrawnScript(MergeScript):
    """Scripts over a drawn catalogue, whose changes nobody captures."""

    def __init__(self, catalogue, dialect, _=()):
        catalogue.content, catalogue.sizes = catalogue.words.catalogue().partition(b"\n")[2].decode(), None
        # A drawn number is as large as it is, and stands for nothing else.
        super().__init__(catalogue, LivePostgreSQL(dialect.schema), MergeParts(computed_with=lambda _: {}))
        self.captures.whole = list

    def creation(self):
        *made, committed = super().creation()
        tables = [*self.history.listed_tables(), (JUDGED, sql("print text NOT NULL")), (PARTS, sql("part oid")), (TORN, sql("view text, why text")),
                  (COLUMNS, sql("view text, name text, type text"))]
        tables.append((CAPTURED, sql("view text, source regclass")))
        own = [sql("CREATE TABLE {table} ({columns}){end}", table=self.tables.own(said), columns=columns, end=END_OF_STATEMENT) for said, columns in tables]
        return [*made, *own, committed]


class DrawnNight(Night):
    """A night whose base views all have counts, as mirrors do."""

    def draw(self, source):
        super().draw(source)
        self.plain = set()


def drawn_mistakes(server, started, count, seed):
    """What the scripts of the smallest of so many drawn nights do otherwise than the program, and how the nights ended."""
    ends, engine = Counter(), PostgreSQLEngine(server, LivePostgreSQL(SCHEMA))

    def mistakes(source):
        # In every other night each text is a long one, which stands in indexes by its digest.
        longest = 1 if chance(source, 0.5) else digests.LONG
        night = DrawnNight(source, started)
        if night.told_before:
            return []
        with mock.patch.object(digests, "LONG", longest):
            told = Carried(night, engine, DrawnScript).mistake()
        ends["wrong" if told else (night.told or "carried out").split(" ")[0]] += 1
        return [f"texts longer than {longest} are long: {told[:600]}\nof\n{night.bundle(night.changes).decode()}"] if told else []

    return smallest(mistakes, count, f"{seed} live"), ends
