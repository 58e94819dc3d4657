"""Tables as CSV has them, read as rows with their counts."""

import csv
import io

from whview.catalogue.evaluator import added


def records_of(text, columns=None, told=str):
    """Each row of a table, and how often it stands, which is once where there is no column of counts. All cells are texts but for those
    of columns that are known to be numbers; `told` is what stands for a text."""
    records = filter(None, csv.reader(io.StringIO(text, newline="")))
    is_counted = next(records, [])[:1] == ["#"]
    for record in records:
        count = int(record.pop(0)) if is_counted else 1
        kinds = [kind for _, kind in columns] if columns else ["text"] * len(record)
        yield tuple(int(cell) if kind == "int" else told(cell) for cell, kind in zip(record, kinds)), count


def bag_of(text, columns=None, told=str):
    """The rows of a table, with how often each stands in it."""
    return added(records_of(text, columns, told))


def text_of(path):
    """A file's text, whose line ends are as they are."""
    with path.open(newline="") as file:
        return file.read()
