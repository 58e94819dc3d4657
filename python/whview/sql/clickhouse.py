"""ClickHouse 18.16: its names and literals. Numbers wrap at 64 bits, and what was lost is seen beside their Float64."""

from __future__ import annotations

from collections.abc import Callable

from ..catalogue.views import Formula
from .dialect import Dialect
from .formulas import nodes
from .tokens import Sql, Unfit, joined, name, sql, text, word
from .written import Writer

# What two Float64 of one number within 64 bits differ by is far below it, and what was lost is 2^64 at least.
APART = str(2**62)
ESCAPED = {"\\": "\\\\", "\n": "\\n", "\r": "\\r", "\t": "\\t", "\b": "\\b", "\f": "\\f"}


class ClickHouseWriter(Writer):
    """Quotes within quotes have a backslash before them."""

    def quoted(self, said: str, quote: str) -> str:
        return quote + "".join(ESCAPED.get(letter, "\\" + quote if letter == quote else letter) for letter in said) + quote

    def name(self, said: str) -> str:
        return self.quoted(said, '"')

    def text(self, said: str) -> str:
        return self.quoted(said, "'")


class ClickHouse(Dialect):
    """`cluster` is the name by which the servers know each other."""

    engine = "clickhouse"
    own_schema = "whview"
    writer = ClickHouseWriter()
    kinds = {"int": sql("Int64"), "text": sql("String")}
    head = ["-- SLOTS are those of the version before, SLOT is the night's own; ~0 is the last fold's; each: to every server, one: to the first."]

    def __init__(self, schema: str | None = None, cluster: str | None = None) -> None:
        super().__init__(schema)
        self.cluster = cluster

    def judge_table(self, said: str) -> None:
        """A database has all names for its tables; a table's name is that of a folder."""
        if len(said.encode()) > 200:
            raise Unfit(f"the name {said[:60]}.. is too long for a folder's name: give the view a shorter one")

    # ---- literals and expressions

    def text(self, said: str) -> Sql:
        return text(said)

    def whole(self, number: int) -> Sql:
        return sql("toInt64({said})", said=text(str(number)))

    def number(self, number: int) -> Sql:
        return self.whole(number)

    def cell(self, column: Sql) -> Sql:
        return column

    def value_tests(self, formula: Formula, computed: Callable[[Formula], Sql]) -> list[Sql]:
        """That no step leaves 64 bits."""
        test = "abs(toFloat64({left}) {sign} toFloat64({right}) - toFloat64({node})) < toFloat64({apart})"
        return [
            sql(test, left=computed(node[1]), right=computed(node[2]), sign=word(str(node[0])), node=computed(node), apart=text(APART))
            for node in nodes(formula)
        ]

    def kept(self, computed: Sql, tests: list[Sql]) -> Sql:
        return computed

    def summand(self, value: Sql) -> Sql:
        return sql("toDecimal128({value}, 0)", value=value)

    # ---- tables

    def distributed(self, said: str, column: Sql | None) -> Sql:
        """What reads a table of all servers, and shares out what is put in by a column."""
        parts = [text(self.cluster or self.schema), text(self.schema), text(said)]
        key = [sql("cityHash64({column})", column=column)] if column else []
        return sql("Distributed({parts})", parts=joined([*parts, *key]))

    def numbered(self, letter: str) -> Sql:
        """The rows of all views of versions, v, or of attempts, a. It is a table, since who may only read is given no function of tables."""
        return self.table({"v": "~versions", "a": "~attempts"}[letter])

    def numbering(self, letter: str) -> Sql:
        """The kind of such a table."""
        return self.merging(f"^~{letter}[0-9]+$")

    def merging(self, pattern: str) -> Sql:
        """What reads all tables whose names are of a pattern."""
        return sql("Merge({schema}, {pattern})", schema=text(self.schema), pattern=text(pattern))


def alias(kind: str, *numbers: int) -> Sql:
    """A name that no column has."""
    return name("~" + kind + "_".join(map(str, numbers)))
