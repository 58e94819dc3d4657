"""`diff`, from two exports."""

import contextlib
import io
import random
import shutil
import tempfile
from collections import Counter
from pathlib import Path
from types import SimpleNamespace
from unittest import mock

import pytest

from trials.drawn.shrunk import draws
from whview.finding import Failure
from whview.folder import diff
from whview.folder.folder import Folder
from whview.folder.inputs import Source
from whview.folder.records import Records, table_text

from .shop import SHOP, carried_out


def runs(before, after):
    with tempfile.TemporaryDirectory() as room, contextlib.chdir(room):
        for name, text in (("old.csv", before), ("new.csv", after)):
            Path(name).write_bytes(text)
        status, printed, told = carried_out(["diff", "old.csv", "new.csv"])
    return status, printed.encode(errors="surrogateescape"), told.splitlines()


def test_rows_that_come_and_go():
    before = b'id,name\n1,jam\n1,jam\n2,"tea, black"\n3,bread\n'
    after = b"id,name\r\n3,bread\r\n1,jam\r\n4,honey\r\n4,honey\r\n"
    assert runs(before, after) == (0, b'#,id,name\n-1,1,jam\n-1,2,"tea, black"\n2,4,honey\n', [])


def test_an_export_with_counts_beside_one_without():
    before = b'#,id,name\n1,1,jam\n1,2,"tea, black"\n1,3,bread\n'
    after = b"id,name\n3,bread\n1,jam\n1,jam\n4,honey\n"
    changes = b'#,id,name\n1,1,jam\n-1,2,"tea, black"\n1,4,honey\n'
    assert runs(before, after) == (0, changes, [])
    assert runs(before.replace(b"1,3,bread", b"2,3,bread"), after) == (0, changes.replace(b"1,4", b"-1,3,bread\n1,4"), [])
    assert runs(b"#,x\n1,\n1,a\n", b"x\na\n\n") == (0, b"#,x\n-1,\n", [])


def test_a_record_that_is_written_otherwise_is_the_same():
    assert runs(b'x,y\n1,"a"\n', b"x,y\n1,a\n") == (0, b"#,x,y\n", [])


def test_equal_exports_have_the_header_alone_as_their_changes():
    assert runs(b"#,x\n3,7\n", b"x\n7\n7\n7\n") == (0, b"#,x\n", [])


def test_bytes_that_are_not_utf_8_are_kept():
    assert runs(b"x\n", b"x\n\xff\n") == (0, b"#,x\n1,\xff\n", [])


FORMS = {
    "columns in another order": b'name,order_id\n"tea; black",2\nhoney,3\n',
    "semicolons": b'\xef\xbb\xbfOrder ID;Name\r\n2;"tea; black"\r\n3;honey\r\n',
    "bars": b'\nOrder ID|Name\n2|"tea; black"\n3|honey\n',
    "carriage returns": b"Name,Order-ID\rtea; black,2\rhoney,3\r",
    "tabs": b"#\torder_id\tname\n1\t2\ttea; black\n1\t3\thoney\n",
}


@pytest.mark.parametrize("after", FORMS.values(), ids=FORMS)
def test_an_export_of_another_program_is_read_by_the_names_of_its_columns(after):
    before, changes = b'#,order_id,name\n1,1,jam\n1,2,"tea; black"\n', b"#,order_id,name\n-1,1,jam\n1,3,honey\n"
    assert runs(before, after) == (0, changes, [])


def test_a_carriage_return_alone_ends_a_record_and_inside_quotes_is_data():
    changes = b"#,x,y\n1,3,4\n"
    assert runs(b"x,y\n1,2\n", b"x,y\r1,2\n3,4\n") == (0, changes, [])
    assert runs(b"x,y\r1,2\n", b"x,y\n1,2\r3,4\n") == (0, changes, [])
    assert runs(b"\r\nx,y\n1,2\n", b"\nx,y\n\n1,2\r\r3,4\n") == (0, changes, [])
    assert runs(b'x,y\n"a\rb",2\n', b'x,y\n"a\rb",3\n') == (0, b'#,x,y\n-1,"a\rb",2\n1,"a\rb",3\n', [])


def test_quotes_that_are_not_as_they_are_to_be_are_refused():
    cure = "a quote within a cell is written twice, and the cell is put in quotes"
    for text, why in ((b'x,y\n1,"a"b\n', "',' expected after '\"'"), (b'x,y\n1,"a\n2,b\n', "unexpected end of data")):
        told = f"new.csv:2:1: the record that begins here is not CSV: {why}; {cure}"
        assert runs(b"x,y\n", text) == (3, b"", [told])


def test_mistakes():
    told = "new.csv:1:1: the header is x,z, and it was x,y"
    assert runs(b"x,y\n", b"x,z\n") == (3, b"", [told])
    told = "new.csv:3:1: this record has not the header's cells, or no count"
    assert runs(b"x,y\n", b"x,y\n1,2\n1\n") == (3, b"", [told])


def test_the_changes_of_a_night_are_those_between_the_exports_before_and_after_it():
    with tempfile.TemporaryDirectory() as room:
        folder = Folder(shutil.copytree(SHOP, Path(room) / "shop"))
        for view in folder.views[:3]:
            after = table_text(view.columns, folder.rolled(view))
            status, printed, _ = runs((folder.path / f"data/{view.name}.csv").read_bytes(), after)
            (folder.path / f"changes/{view.name}.csv").write_bytes(printed)
            assert (status, Folder(folder.path).rolled(view)) == (0, folder.rolled(view))


COLUMNS = [("x", "text"), ("y", "text")]


TEXTS = ["", "a", " b", "a,b", 'a "q"', '"', "two\nlines", "back\r", "\rfirst", "both\r\n", "\u00e9", "7", "#", "\0"]


ENDS = ["\n", "\r\n", "\r", "\n\n", "\r\r", "\r\n\r\n"]


def cell(source, text):
    """A cell, in quotes where it has to be, or where that is drawn."""
    is_quoted = set(text) & set(',"\r\n') or source.random() < 0.2
    return '"' + text.replace('"', '""') + '"' if is_quoted else text


def export(source, rows):
    """A text with these rows, of drawn line ends."""
    ends = source.choice([["\n"], ["\r\n"], ["\r"], ["\n", "\r"], ENDS])
    counted = source.random() < 0.3
    records = [("#", "x", "y") if counted else ("x", "y")]
    for row, count in rows.items():
        records += [(str(count), *row)] if counted else [row] * count
    written = [",".join(cell(source, text) for text in record) for record in records]
    text = "".join(line + source.choice(ends) for line in written)
    return source.choice(["", "", "\n", "\r"]) + (text if source.random() < 0.8 else text.rstrip("\r\n"))


def rows_of(source):
    drawn = ((source.choice(TEXTS), source.choice(TEXTS)) for _ in range(source.randint(0, 6)))
    return Counter({row: source.choice([1, 1, 2]) for row in drawn})


def changes_of(room, before, after):
    for name, text in (("old.csv", before), ("new.csv", after)):
        (room / name).write_bytes(text.encode())
    with mock.patch("sys.stdout", SimpleNamespace(buffer=io.BytesIO())) as printed:
        diff.run(SimpleNamespace(folders=[room / "old.csv", room / "new.csv"]))
    return printed.buffer.getvalue()


def read(room, content, are_changes):
    (room / "v.csv").write_bytes(content)
    view = SimpleNamespace(name="v", columns=COLUMNS)
    return Records(Source(room / "v.csv", "v.csv"), view, are_changes)


@draws(600)
def test_a_night_of_the_changes_makes_the_rows_of_the_newer_export(tmp_path, source):
    old, new = rows_of(source), rows_of(source)
    before, after = export(source, old), export(source, new)
    changes = read(tmp_path, changes_of(tmp_path, before, after), True)
    assert changes.findings == []
    old.update(changes.rows)
    assert {row: count for row, count in old.items() if count} == new


def test_of_a_spoilt_export_it_gives_the_rows_that_a_night_reads_or_none(tmp_path):
    source, refused = random.Random(31), 0
    for _ in range(600):
        text = export(source, rows_of(source))
        place = source.randrange(len(text) + 1)
        text = text[:place] + source.choice(['"', "\r", "\n", ",", ""]) + text[place + source.choice([0, 1]) :]
        found = read(tmp_path, text.encode(), False)
        try:
            changes = changes_of(tmp_path, "x,y\n", text)
        except Failure:
            refused += 1
            continue
        # A header that is written otherwise is read by its names.
        if not any("has the header" in finding.text for finding in found.findings):
            assert (found.findings, found.rows) == ([], read(tmp_path, changes, True).rows)
    assert refused > 100
