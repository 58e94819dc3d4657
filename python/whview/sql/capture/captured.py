"""What all statements about captured tables of PostgreSQL have in common: the tables where it is noted what is captured, and queries about these."""

from __future__ import annotations

from typing import TYPE_CHECKING, ClassVar

from ..tokens import Sql, name, sql, text
from .fitting import Fitting
from .log import Log

if TYPE_CHECKING:
    from .merge import MergeScript
    from .parting import Parting

CAPTURED, COLUMNS, PARTS, TORN = "~captured", "~columns", "~parts", "~torn"
# A source, its partitions and its heirs, as b. Whatever has no rows of its own is not truncated by itself.
BELOW = (
    "(WITH RECURSIVE below (root, relation) AS (SELECT c.source::oid, c.source::oid FROM {state} AS c WHERE c.view = {view} UNION SELECT b.root,"
    " i.inhrelid FROM below AS b JOIN pg_inherits AS i ON i.inhparent = b.relation) SELECT * FROM below) AS b"
)
# What tells of a part p of a source whether its triggers are as they were made, where its rows lie, and whether its columns are as they were.
TRIGGERS = "ARRAY(SELECT t.xmin FROM pg_trigger AS t WHERE t.tgrelid = {part} AND t.tgfoid = to_regprocedure({function}) ORDER BY t.oid)::text"
FILE = "coalesce(pg_relation_filenode({part}), 0)"
ATTRIBUTES = (
    "ARRAY(SELECT a.xmin FROM pg_attribute AS a JOIN {columns} AS k ON k.name = a.attname WHERE k.view = {view} AND a.attrelid = {part} AND a.attnum > 0"
    " ORDER BY a.attnum)::text"
)
LETTERS = {"ordinary": "r", "parted": "p", "always": "A", "replica": "R", "foreign": "f", "logged": "p", "domain": "d", "comma": ",", "none": ""}


class CapturedTables:
    """The tables of a script's captures. In `stamp` is what is noted of each part beside its name."""

    stamp: ClassVar[str] = TRIGGERS
    parting: Parting
    state: Sql
    columns: Sql
    parts: Sql
    torn_table: Sql

    def __init__(self, script: MergeScript) -> None:
        self.script, self.dialect, self.fitted, self.log = script, script.dialect, Fitting(script), Log(script)
        own = script.tables.own
        self.state, self.columns, self.parts, self.torn_table = own(CAPTURED), own(COLUMNS), own(PARTS), own(TORN)
        self.texts = {said: text(letter) for said, letter in LETTERS.items()}

    def view(self, v: int) -> Sql:
        """A view's name, as a text."""
        return text(self.script.views[v].name)

    def function(self, v: int) -> Sql:
        """The function of the triggers of a view's table."""
        return self.dialect.table(self.script.tables.said(v, "~capture"))

    def written(self, said: Sql) -> Sql:
        """What is written for tokens, as a text."""
        return text(self.dialect.written([said])[0])

    def schema(self) -> Sql:
        """The name of the nights' schema as it is written, as a text."""
        return self.written(name(self.dialect.schema))

    def query(self, v: int, template: str, **parts: Sql) -> Sql:
        """A query about the source of a view."""
        function = self.written(sql("{function}()", function=self.function(v)))
        own = {"state": self.state, "columns": self.columns, "noted": self.parts, "view": self.view(v), "function": function}
        return sql(template, **own, **self.texts, **parts)

    def unnoted(self, v: int) -> Sql:
        """A test of a part b that nobody noted."""
        return self.query(v, "NOT EXISTS (SELECT 1 FROM {noted} AS n WHERE n.view = {view} AND n.part = b.relation)")

    def parts_noted(self, v: int, only: Sql = sql("")) -> Sql:
        """The parts that a source has are noted, so that one that goes is missed."""
        told = ", ".join(each.replace("{part}", "b.relation") for each in (self.stamp, FILE, ATTRIBUTES))
        return self.query(v, "INSERT INTO {noted} SELECT {view}, b.relation, b.relation::regclass, " + told + " FROM " + BELOW + " WHERE {unnoted} {only}",
                          unnoted=self.unnoted(v), only=only)
