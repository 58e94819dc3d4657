"""Rows as a Parquet file, by pyarrow, where Python has it."""

from __future__ import annotations

import site
from collections.abc import Iterable, Sequence
from importlib import import_module
from typing import Any, BinaryIO

from ..catalogue.views import Kind
from ..finding import Failure
from ..status import BAD_WORDS
from .forms import Form, ShownRow, batches


def pyarrow(name: str = "pyarrow") -> Any:
    """A module of pyarrow, which says nothing of its types. It lies where the tool does not look for the others, which begin sooner without it."""
    try:
        site.main()
        return import_module(name)
    except ImportError:
        raise Failure(BAD_WORDS, f"--format {Form.PARQUET} needs pyarrow, which this Python has not; csv, json and jsonl need nothing") from None


def write_parquet(file: BinaryIO, names: Sequence[str], kinds: Iterable[Kind], rows: Iterable[ShownRow]) -> None:
    """Writes rows, many at a time, numbers as 64 bits and texts as strings."""
    arrow, parquet = pyarrow(), pyarrow("pyarrow.parquet")
    types = [arrow.int64() if kind == Kind.INT else arrow.string() for kind in kinds]
    schema = arrow.schema(list(zip(names, types)))
    with parquet.ParquetWriter(file, schema) as writer:
        for batch in batches(batches(rows)):
            columns = zip(*(row for part in batch for row in part))
            arrays = [arrow.array(list(column), type=kind) for column, kind in zip(columns, types)]
            writer.write_table(arrow.Table.from_arrays(arrays, schema=schema))
