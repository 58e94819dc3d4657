"""`unpack`: the tables of an answer, each to FOLDER/NAME.csv.

Where the answer has no tables, as a fault or a refusal has none, no file is made, the answer's own first line is printed, such as
`refused absent NAME`, and the status is 3.
"""

from __future__ import annotations

import sys
from typing import TYPE_CHECKING

from ..bundle import unpack
from ..finding import Failure
from ..status import BAD_INPUT, DONE, Status

if TYPE_CHECKING:
    from .command import Words


def said_instead(answer: bytes) -> str:
    """What an answer without tables says: its first line, or that it is empty."""
    first = answer.partition(b"\n")[0].rstrip(b"\r").decode(errors="replace")
    return first or "whview folder: this answer is empty"


def run(words: Words) -> Status:
    answer = sys.stdin.buffer.read()
    tables = unpack(answer)
    if not tables:
        raise Failure(BAD_INPUT, said_instead(answer))
    words.folder.mkdir(parents=True, exist_ok=True)
    for view, table in tables.items():
        (words.folder / f"{view}.csv").write_bytes(table)
    return DONE
