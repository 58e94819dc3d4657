"""What is asked of rows: that a column has a value, or one before or behind it. Lines that cannot be meant are passed over as bytes; what is
left is compared cell by cell, numbers as numbers and texts by their letters' numbers.
"""

import operator
import re
from collections.abc import Callable, Iterator, Sequence
from typing import Any, NamedTuple

from ..catalogue.views import Kind
from ..finding import Failure, nearest
from ..status import BAD_WORDS
from .blocks import Block, InLines
from .by_lines import is_formed, is_utf_8
from .numbers import number_of
from .reading import Missing, Numbered, Table, value_of

# Two numbers are compared, or two texts, as letters or as bytes; no type says that both are of one kind.
SIGNS: dict[str, Callable[[Any, Any], bool]] = {"=": operator.eq, "!=": operator.ne, "<": operator.lt, "<=": operator.le, ">": operator.gt, ">=": operator.ge}
ASKED = re.compile(r"([^=<>!]*)(>=|<=|!=|=|<|>)(.*)", re.DOTALL)
# What of a text stands in a file as it is, whether the cell has quotes or not.
AS_IT_IS = re.compile(r'[^"\r\n]+')


class Condition(NamedTuple):
    """That a column compares so with a value: the column's place among a record's cells, and its kind."""

    place: int
    kind: Kind
    sign: str
    value: int | str

    def holds(self, record: Sequence[str]) -> bool:
        """Whether it holds for a record. A text in the place of a number is less and more than none."""
        value = value_of(record[self.place], self.kind)
        if type(value) is not type(self.value):
            return self.sign == "!="
        return SIGNS[self.sign](value, self.value)

    @property
    def needle(self) -> bytes:
        """Bytes that stand in each line that is meant, if there are such."""
        if self.sign != "=" or not isinstance(self.value, str):
            return b""
        return max(AS_IT_IS.findall(self.value), key=len, default="").encode()

    def among(self, lines: Sequence[bytes]) -> list[int]:
        """Which of these lines, none of which has quotes, may be meant. Raises where a cell is missing or is no number."""
        cells, compare, value = [line.split(b",", self.place + 1)[self.place] for line in lines], SIGNS[self.sign], self.value
        if isinstance(value, int):
            return [number for number, cell in enumerate(map(int, cells)) if compare(cell, value)]
        text = value.encode()
        return [number for number, cell in enumerate(cells) if compare(cell.removesuffix(b"\r"), text)]


def column_of(table: Table, name: str) -> int:
    """The place of a column among the columns of a table."""
    names = table.columns.names
    if name not in names:
        raise Missing(BAD_WORDS, f"{table.name} has no column {name!r}; it has {', '.join(names)}{nearest(name, names)}")
    return names.index(name)


def judge_pointed(table: Table, name: str, is_ordered: bool = True) -> None:
    """Refuses an order of numbers with a point, which rows have as texts."""
    if is_ordered and name in table.pointed:
        raise Failure(BAD_WORDS, f"{name} has numbers with a point, which are compared here as they are written: ask by `whview folder sql` for less, more or an order")


def condition_of(table: Table, asked: str) -> Condition:
    """The condition that a text such as `day=Monday` or `pieces>=5` means."""
    found = ASKED.fullmatch(asked)
    if not found:
        raise Failure(BAD_WORDS, f"a column and its value are asked for as COLUMN=VALUE, or by !=, <, <=, > or >=, and not as {asked!r}")
    name, sign, value = found.groups()
    column = column_of(table, name)
    kind, place = table.columns.kinds[column], column + table.columns.counted
    judge_pointed(table, name, sign not in ("=", "!="))
    if kind == Kind.INT:
        number = number_of(value)
        if number is None:
            raise Failure(BAD_WORDS, f"{name} is a whole number of 64 bits, and {value[:40]!r} is none")
        return Condition(place, kind, sign, number)
    try:
        value.encode()
    except UnicodeEncodeError:
        raise Failure(BAD_WORDS, f"the value that {name} is to have is not UTF-8") from None
    return Condition(place, kind, sign, value)


# ---- the rows of a block


def standing(content: bytes, needle: bytes) -> Iterator[tuple[int, bytes]]:
    """The lines that have these bytes, each with its number from 0."""
    number, counted, found = 0, 0, content.find(needle)
    while found >= 0:
        start, end = content.rfind(b"\n", 0, found) + 1, content.find(b"\n", found)
        end = len(content) if end < 0 else end
        number, counted = number + content.count(b"\n", counted, start), start
        yield number, content[start:end]
        found = content.find(needle, end)


def is_whole(table: Table, block: InLines) -> bool:
    """Whether the lines of a block are seen to have the header's cells, in UTF-8."""
    if not is_utf_8(block.content):
        return False
    if block.has_quotes:
        return is_formed(block.content, 0, len(table.columns.names), table.columns.counted)
    return block.content.count(b",") == block.count * (table.width - 1)


def candidates(block: InLines, conditions: Sequence[Condition]) -> list[tuple[int, bytes]]:
    """The lines of a block that may be meant, each with its number from 0."""
    needle = max((each.needle for each in conditions), key=len)
    if needle:
        return list(standing(block.content, needle))
    lines = block.lines()
    if block.has_quotes:
        return list(enumerate(lines))
    try:
        return [(number, lines[number]) for number in conditions[0].among(lines)]
    except (ValueError, IndexError):
        return list(enumerate(lines))


def passing(table: Table, block: Block, after: int, conditions: Sequence[Condition]) -> Iterator[Numbered]:
    """The rows of a block behind the first so many for which all conditions hold, each with its number and its count."""
    if not conditions:
        yield from table.rows_of(block, after)
        return
    with table.judging(block):
        for number, record in records_of(table, block, after, conditions):
            if all(map(holds(record), conditions)):
                yield number, table.row(record)


def holds(record: Sequence[str]) -> Callable[[Condition], bool]:
    """Whether a condition holds for this record."""
    return lambda condition: condition.holds(record)


def records_of(table: Table, block: Block, after: int, conditions: Sequence[Condition]) -> Iterator[tuple[int, list[str]]]:
    """The records of a block that may be meant, each with its number; all of the block are judged to be whole."""
    for number, record in meant(table, block, after, conditions) if isinstance(block, InLines) else block.from_row(after):
        table.judge_width(record)
        yield number, record


def meant(table: Table, block: InLines, after: int, conditions: Sequence[Condition]) -> Iterator[tuple[int, list[str]]]:
    """Those of a block in lines."""
    if not is_whole(table, block):
        table.judge(block)
    found = [(block.before + number + 1, line) for number, line in candidates(block, conditions) if block.before + number >= after]
    return zip((number for number, _ in found), block.read([line for _, line in found]))
