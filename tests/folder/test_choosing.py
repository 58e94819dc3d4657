"""What is asked of rows: conditions, orders, columns and forms, against what sqlite3 or Python say; and tables that are damaged."""

import json
import os
import random
import re
import subprocess
import types
from unittest import mock

import pytest

from whview.folder import choosing, conditions, parquet
from whview.folder.blocks import Damaged
from whview.folder.choosing import choice_of
from whview.folder.conditions import SIGNS
from whview.folder.forms import written
from whview.folder.reading import Table

from .shop import WHVIEW, carried_out
from .tables import CELLS, lines_of


def judge(rows, table):
    """Each sign with numbers and texts that are there and such that are not, alone and two together."""
    values = [("number", str(number)) for number in (-1, 0, 7, 99, "+07", 10**6)] + [("text", text) for text in [*CELLS, "tea", '"', "z"]]
    asked = [f"{name}{sign}{value}" for name, value in values for sign in SIGNS]
    source = random.Random(3)
    for where in [[each] for each in asked] + [source.sample(asked, 2) for _ in range(30)]:
        tests = [re.fullmatch(r"(number|text)(>=|<=|!=|=|<|>)(.*)", each, re.DOTALL).groups() for each in where]
        wanted = [row for row in rows if all(holds(row, *test) for test in tests)]
        for after in (0, 50):
            found = list(choice_of(table, where, after=after).rows())
            assert [cells for _, (_, cells) in found] == [row for row in wanted if rows.index(row) >= after]
            assert [rows[number - 1] for number, _ in found] == [cells for _, (_, cells) in found]


def holds(row, name, sign, value):
    return SIGNS[sign](row[0], int(value)) if name == "number" else SIGNS[sign](row[1], value)


def test_all_signs_over_all_cells(table_of):
    source = random.Random(8)
    for cells, quoted in ((["x", "y", "\u00e4", "tea"], []), (["x", "tea, black", 'a "quote"', ""], CELLS), (CELLS, CELLS)):
        rows = [(number, source.choice(cells)) for number in source.sample(range(-100, 300), 120)]
        judge(rows, table_of(lines_of(rows, quoted)))


def test_numbers_are_compared_as_numbers_and_texts_by_their_letters(table_of):
    table = table_of("#,number,text\n1,9,9\n1,10,10\n1,+011,Z\n1,-2,a\n1,12,\U0001f600\n1,13,\uffee\n")
    given = {asked: [row[0] for _, (_, row) in choice_of(table, [asked]).rows()] for asked in ("number>=10", "text>=9", "number<0", "text>\uffee")}
    assert given == {"number>=10": [10, 11, 12, 13], "text>=9": [9, 11, -2, 12, 13], "number<0": [-2], "text>\uffee": [12]}


def test_a_text_that_no_line_has_takes_no_look_at_cells(table_of):
    rows = [(number, "x, y") for number in range(500)]
    table = table_of(lines_of(rows, ["x, y"]))
    with mock.patch.object(conditions, "value_of", side_effect=AssertionError):
        assert list(choice_of(table, ["text=none"]).rows()) == []


def test_a_text_in_the_place_of_a_number_is_unlike_all_numbers(table_of):
    table = table_of("#,number,text\n1,1,a\n1,n/a,b\n")
    for asked, wanted in (("number=1", ["a"]), ("number!=1", ["b"]), ("number<9", ["a"]), ("number!=9", ["a", "b"])):
        assert [row[1] for _, (_, row) in choice_of(table, [asked]).rows()] == wanted


def test_by_a_column_up_and_down_with_a_limit_and_without(table_of):
    source = random.Random(4)
    rows = [(source.randrange(-9, 9), source.choice(CELLS)) for _ in range(700)]
    table = table_of(lines_of(rows, CELLS))
    for column, name in enumerate(("number", "text")):
        for sign in ("", "-"):
            wanted = sorted(rows, key=lambda row: row[column], reverse=bool(sign))
            for limit, run in ((None, 100), (None, 10**6), (10, 100), (0, 100), (10**6, 100)):
                with mock.patch.object(choosing, "RUN", run):
                    found = [row for _, (_, row) in choice_of(table, order=sign + name).rows(limit)]
                assert found == wanted[:limit]


def test_what_follows_a_row_in_its_order(table_of):
    rows = [(number % 7, f"t{number}") for number in range(100)]
    table = table_of(lines_of(rows, []))
    for order in ("number", "-number"):
        after, found = 0, []
        while page := list(choice_of(table, ["text!=t3"], order, after=after).rows(9)):
            found += [row for _, (_, row) in page]
            after = page[-1][0]
        wanted = sorted((row for row in rows if row[1] != "t3"), key=lambda row: row[0], reverse=order.startswith("-"))
        assert found == wanted
        assert list(choice_of(table, (), order, after=101).rows(9)) == []


def read(shop, *words, status=0):
    ended, printed, told = carried_out(["read", shop.folder, *words])
    assert ended == status
    return told if status else printed


def test_columns_orders_and_forms(kept):
    words = "products", "--where", "price>=450", "--where", "product!=honey", "--order", "-price", "--columns", "price,product"
    assert read(kept, *words) == '#,price,product\n1,800,"tea, black"\n1,475,jam\n'
    lines = [json.loads(line) for line in read(kept, *words, "--format", "jsonl").splitlines()]
    assert lines == [{"#": 1, "price": 800, "product": "tea, black"}, {"#": 1, "price": 475, "product": "jam"}]
    assert json.loads(read(kept, *words, "--format", "json"))["rows"] == lines
    table = "#  price  product\n-  -----  ----------\n1    800  tea, black\n1    475  jam\n"
    assert read(kept, *words, "--format", "table") == table
    assert read(kept, "products", "--columns", "price,price", status=2) == "a column stands twice in 'price,price'\n"
    assert "has no column 'cost'" in read(kept, "products", "--order", "-cost", status=2)


def test_into_a_file_that_is_not_there(kept):
    output = kept.folder.parent / "out.csv"
    assert read(kept, "products", "--output", output) == ""
    assert output.read_text() == (kept.folder / "current/data/products.csv").read_text()
    assert "is there already" in read(kept, "products", "--output", output, status=2)
    assert sorted(path.name for path in output.parent.iterdir() if "out" in path.name) == ["out.csv"]


def test_what_a_terminal_would_obey_is_written_in_numbers():
    assert "".join(written("table", ["a"], [("x\x1b[2Jy\u202ez",)], {})).splitlines()[2] == "x\\u001b[2Jy\\u202ez"


def test_parquet_goes_by_pyarrow_alone(kept):
    assert read(kept, "products", "--format", "parquet", status=2) == "--format parquet goes with --output FILE\n"
    made = []
    writer = mock.MagicMock()
    writer.__enter__.return_value.write_table = made.append
    made_of = types.SimpleNamespace(from_arrays=lambda arrays, schema: (arrays, schema))
    arrow = types.SimpleNamespace(schema=list, int64=lambda: "int64", string=lambda: "string", array=lambda cells, type: (type, cells), Table=made_of)
    with mock.patch.object(parquet, "pyarrow", lambda name="": arrow if not name else mock.MagicMock(ParquetWriter=lambda *_: writer)):
        parquet.write_parquet(None, ["#", "text"], ["int", "text"], [(1, "a"), (2, "b")])
    assert made == [([("int64", [1, 2]), ("string", ["a", "b"])], [("#", "int64"), ("text", "string")])]
    words = [WHVIEW, "folder", "read", kept.folder, "products", "--format", "parquet", "--output", kept.folder.parent / "p.parquet"]
    with mock.patch.dict(os.environ, PYTHONPATH=str(without_pyarrow(kept))):
        told = subprocess.run(words, capture_output=True, text=True)
    assert (told.returncode, "needs pyarrow" in told.stderr, (kept.folder.parent / "p.parquet").exists()) == (2, True, False)


def without_pyarrow(shop):
    """A folder from which pyarrow cannot be imported."""
    room = shop.folder.parent / "room"
    room.mkdir()
    (room / "pyarrow.py").write_text("raise ImportError")
    return room


def test_who_reads_the_beginning_alone_is_told_nothing(kept):
    rows = "".join(f"1,{number},{'x' * 50},1\n" for number in range(20_000))
    file = kept.folder / "current/data/lines.csv"
    os.chmod(file, 0o644)
    file.write_text("#,id,product,pieces\n" + rows)
    for words in (["read", kept.folder, "lines"], ["sql", kept.folder, "SELECT * FROM lines"]):
        with subprocess.Popen([WHVIEW, "folder", *words], stdout=subprocess.PIPE, stderr=subprocess.PIPE) as running:
            running.stdout.readline()
            running.stdout.close()
            told = running.stderr.read()
        assert (running.returncode, told) == (0, b"")


HEADER = b"#,id,product,pieces\n"


@pytest.fixture
def damaged(kept):
    """A shop with a night, a table of which may be written."""
    kept.file = kept.folder / "versions/1/data/lines.csv"
    kept.file.chmod(0o644)
    return kept


def told_by(*words):
    status, _, told = carried_out(words)
    return status, told.splitlines()


def test_what_is_damaged_is_told_with_its_line_and_given_to_nobody(damaged):
    cases = {
        b"1,5,jam,1\n1,6,jam\n": (3, "this record has 3 cells and the header has 4"),
        b"1,5,jam,1\n1,6,jam,1,\n": (3, "this record has 5 cells and the header has 4"),
        b"1,5,jam,1\n1,6,j\xe4m,1\n": (3, "this is not UTF-8"),
        b"1,5,jam,1\n0,6,jam,1\n": (3, "this record has no count"),
        b"1,5,jam,1\nx,6,jam,1\n": (3, "this record has no count"),
        b'1,5,jam,1\n1,6,"jam,1\n': (3, "the quotes of this record are not as they are to be"),
        b'1,5,"a\nb",1\n1,6,"jam"s,1\n': (4, "the quotes of this record are not as they are to be"),
        b"1,5,jam,1\n1,6,ja": (3, "the last line is cut off"),
        b"1,5,jam,1\n1,6,jam,1": (3, "the last line is cut off"),
    }
    for rows, (line, text) in cases.items():
        damaged.file.write_bytes(HEADER + rows)
        told = 3, [f"{damaged.file}:{line}:1: {text}"]
        assert told_by("read", damaged.folder, "lines") == told
        assert told_by("sql", damaged.folder, "SELECT * FROM lines") == told
        if b"count" not in text.encode():
            assert told_by("read", damaged.folder, "lines", "--where", "product=none") == told


def test_a_table_that_no_night_wrote_needs_no_last_line_feed(damaged):
    damaged.file.write_bytes(HEADER + b"1,5,jam,1\n1,6,jam,12")
    (damaged.folder / "versions/1/report.txt").unlink()
    assert told_by("read", damaged.folder, "lines") == (0, [])


def test_another_header_and_none(damaged):
    for content, text in (
        (b"#,id,pieces,product\n", "the header is #,id,pieces,product, and the columns of lines are id,product,pieces"),
        (b"", "this table has no header"),
    ):
        damaged.file.write_bytes(content)
        assert told_by("read", damaged.folder, "lines") == (3, [f"{damaged.file}:1:1: {text}"])


def test_what_is_no_file_is_told_as_what_it_is(damaged):
    damaged.file.unlink()
    for make, what in ((os.mkfifo, "a FIFO"), (os.mkdir, "a folder")):
        make(damaged.file)
        told = f"{damaged.file} is {what}, and no table can be read there"
        assert told_by("read", damaged.folder, "lines") == (3, [told])
        (os.unlink if what == "a FIFO" else os.rmdir)(damaged.file)


def test_a_block_is_judged_also_where_no_line_of_it_is_meant(damaged):
    rows = [b"1,%d,jam,1\n" % number for number in range(3000)]
    rows[1700] = b"1,1700,jam\n"
    damaged.file.write_bytes(HEADER + b"".join(rows))
    table = Table("lines", damaged.file, {"id": "int", "pieces": "int"})
    for where in (["product=none"], ["pieces>5"], ["id=1"]):
        with pytest.raises(Damaged) as found:
            list(choice_of(table, where).rows())
        assert found.value.lines == (f"{damaged.file}:1702:1: this record has 3 cells and the header has 4",)
