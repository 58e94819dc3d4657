"""A page of rows, as it is answered over the net: bounded in rows, in bytes and in time."""

from __future__ import annotations

import json
import time
from collections.abc import Callable, Iterable, Iterator, Sequence
from typing import NamedTuple

from .choosing import Choice
from .forms import Form, ShownRow, object_writer
from .reading import Numbered
from .written import text_of

# How many bytes the rows of a page have at most, those of a page of few rows, and for each row; and how long is searched for them.
MOST_BYTES, FEW_BYTES, A_ROW, DEADLINE = 2**22, 2**16, 2**10, 10
FORMS = (Form.JSON, Form.CSV, Form.LINES)


def bytes_of(limit: int) -> int:
    """How many bytes a page of so many rows has at most; a row alone may have more."""
    return min(max(limit * A_ROW, FEW_BYTES), MOST_BYTES)


class Unfit(Exception):
    """What is asked for takes more room or time than there is."""


class Page(NamedTuple):
    """The body of an answer, and the number of the row behind which the next one begins, if there is one."""

    body: bytes
    following: int | None


def written_by(form: Form, names: Sequence[str]) -> Callable[[ShownRow], bytes]:
    """What writes a row in a form."""
    if form == Form.CSV:
        return lambda row: text_of([row]).encode()
    write, end = object_writer(names), "\n" if form == Form.LINES else ""
    return lambda row: (write(row) + end).encode()


class Filling:
    """A page that takes rows as long as they have room."""

    def __init__(self, choice: Choice, form: Form, limit: int) -> None:
        self.choice, self.form, self.limit = choice, form, limit
        self.names = ["#", *choice.names]
        self.write, self.size, self.most, self.last = written_by(form, self.names), 0, bytes_of(limit), choice.after
        self.rows: list[bytes] = []
        self.following: int | None = None

    def take(self, rows: Iterable[Numbered]) -> bool:
        """Takes rows, and answers whether there is room for more."""
        for number, counted in rows:
            if len(self.rows) == self.limit:
                self.following = self.last
                return False
            count, cells = self.choice.cut(counted)
            if not self.put(number, self.write((count, *cells))):
                return False
        return True

    def put(self, number: int, row: bytes) -> bool:
        """Puts a row, where it has room."""
        if self.rows and self.size + len(row) > self.most:
            self.following = self.last
            return False
        if len(row) > MOST_BYTES:
            raise Unfit(f"row {number} alone has {len(row):,} bytes, and a page has {MOST_BYTES:,} at most; `whview folder read` gives it")
        self.rows.append(row)
        self.size, self.last = self.size + len(row), number
        return True

    def page(self, version: int) -> Page:
        """The page."""
        if self.form == Form.JSON:
            about = {"view": self.choice.table.name, "version": version, "after": self.choice.after, "next": self.following}
            head = json.dumps({**about, "rows": []}, ensure_ascii=False).removesuffix("]}").encode()
            return Page(head + b", ".join(self.rows) + b"]}\n", self.following)
        head = text_of([self.names]).encode() if self.form == Form.CSV else b""
        return Page(head + b"".join(self.rows), self.following)


def in_time(choice: Choice, seconds: float) -> Iterator[Numbered]:
    """All rows that are put in order, as long as there is time."""
    due = time.monotonic() + seconds
    for _, rows in choice.blocks():
        if time.monotonic() > due:
            raise Unfit(f"to put these rows in order takes more than {seconds} seconds; ask for fewer of them by where")
        yield from rows


def page_of(choice: Choice, form: Form, limit: int, version: int, seconds: float, is_near: bool = False) -> Page:
    """The page of these rows. Where their time is over it ends early, with the number of the row behind which to go on."""
    filling, due = Filling(choice, form, limit), time.monotonic() + seconds
    if choice.order is not None:
        filling.take(choice.order.few(in_time(choice, seconds), limit + 1))
        return filling.page(version)
    for block, rows in choice.blocks(is_near):
        if time.monotonic() > due and block.before > choice.after:
            filling.following = block.before
            break
        if not filling.take(rows):
            break
    return filling.page(version)
