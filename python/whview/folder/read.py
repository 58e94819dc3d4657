"""`read`: the rows of a view in one version, on standard output.

`--where` takes =, !=, <, <=, > and >=. Numbers compare as numbers, texts by the numbers of their letters. It may stand several times, and all
have to hold. `#` in front is how often a row stands. Parquet goes to a file, where Python has pyarrow.
"""

from __future__ import annotations

import os
import sys
from collections.abc import Callable, Iterable
from contextlib import suppress
from pathlib import Path
from io import TextIOWrapper
from typing import TYPE_CHECKING, BinaryIO

from ..catalogue.views import Kind
from ..disk import link, telling
from ..finding import Failure
from ..status import BAD_WORDS, DONE, Status
from ..streams import drop
from .choosing import Choice, choice_of
from .forms import FORMS, About, Form, form_of, written
from .held import Held
from .parquet import write_parquet
from .reading import Counted, version_tables, whole_number

if TYPE_CHECKING:
    from .command import Words

PART = ".part"
WITHOUT_OUTPUT = f"--format {Form.PARQUET} goes with --output FILE"


def printed(pieces: Iterable[str]) -> None:
    """Prints text in UTF-8. Who reads it may leave before the end."""
    if isinstance(sys.stdout, TextIOWrapper):
        sys.stdout.reconfigure(encoding="utf-8", newline="")
    try:
        sys.stdout.writelines(pieces)
        sys.stdout.flush()
    except BrokenPipeError:
        drop(sys.stdout)


def put_in(output: Path, write: Callable[[BinaryIO], None]) -> None:
    """Has a file be written that there is not: whole, or not at all."""
    if os.path.lexists(output):
        raise Failure(BAD_WORDS, f"{output} is there already; name a file that is not, or move it away")
    part = output.with_name(f".{output.name}.{os.getpid()}{PART}")
    with telling(output):
        try:
            with open(part, "xb") as file:
                write(file)
                file.flush()
                os.fsync(file.fileno())
            if not link(part, output):
                os.rename(part, output)
        finally:
            with suppress(FileNotFoundError):
                part.unlink()


def give(choice: Choice, rows: Iterable[Counted], form: Form, about: About, output: Path | None) -> None:
    """Writes rows, each behind its count, in a form."""
    names, counted = ["#", *choice.names], ((count, *cells) for count, cells in map(choice.cut, rows))
    if form == Form.PARQUET:
        if output is None:
            raise Failure(BAD_WORDS, WITHOUT_OUTPUT)
        put_in(output, lambda file: write_parquet(file, names, [Kind.INT, *choice.kinds], counted))
        return
    pieces = written(form, names, counted, about)
    if output is None:
        printed(pieces)
    else:
        put_in(output, lambda file: file.writelines(piece.encode() for piece in pieces))


def run(words: Words) -> Status:
    version, limit, output = words.option("--version"), words.option("--limit"), words.option("--output")
    number = None if version is None else whole_number(version, "--version", 0, 2**63 - 1)
    most = None if limit is None else whole_number(limit, "--limit", 0, 2**63 - 1)
    form = form_of(words.option("--format", Form.CSV), forms=(*FORMS, Form.PARQUET))
    if form == Form.PARQUET and output is None:
        raise Failure(BAD_WORDS, WITHOUT_OUTPUT)
    with Held(words.folder, number) as held:
        table = version_tables(words.folder, held.number).table(words.operands[1])
        choice = choice_of(table, words.options.get("--where", []), words.option("--order"), words.option("--columns"))
        rows = (counted for _, counted in choice.rows(most))
        give(choice, rows, form, {"view": table.name, "version": held.number}, Path(output) if output else None)
    return DONE
