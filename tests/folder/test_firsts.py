"""`init`: a first catalogue of CSV files, which lints clean, and what is told of files that are none."""

import contextlib
import csv
import io
import random
import tempfile
import tomllib
from pathlib import Path

import pytest

from trials.oracle.tables import bag_of
from whview.folder import sums
from whview.folder.exports import Column, Export, name_of, own_names
from whview.folder.folder import Folder
from whview.folder.proposals import catalogue_text, proposed

from .shop import SHOP, carried_out


class Room:
    def __init__(self, room):
        self.room = room

    def put(self, **files):
        """Writes files by their names, and answers their paths."""
        for name, text in files.items():
            (self.room / f"{name}.csv").write_bytes(text if isinstance(text, bytes) else text.encode())
        return [self.room / f"{name}.csv" for name in files]

    def ran(self, *words):
        with contextlib.chdir(self.room):
            status, printed, told = carried_out(words)
        return status, printed.splitlines(), told.splitlines()

    def made(self, **files):
        """The catalogue of a folder that is made of these files, by the names of its views."""
        status, told, errors = self.ran("init", "folder", *self.put(**files))
        assert (status, errors) == (0, [])
        assert self.ran("lint", "folder")[::2] == (0, [])
        views = tomllib.loads((self.room / "folder/catalogue.toml").read_text())["view"]
        return {view["name"]: view for view in views}, told


@pytest.fixture
def room(tmp_path):
    return Room(tmp_path)


def test_the_shops_files_make_its_views(room):
    files = sorted((SHOP / "data").iterdir())
    status, told, errors = room.ran("init", "new", *files)
    assert (status, errors) == (0, [])
    assert told[3] == "lines_joined: lines joined by lines.id = orders.id, lines.product = products.product"
    assert told[4] == "lines_joined_by_day: lines_joined by day, with the sums of pieces"
    assert told[5] == "    price is not added up: it is of products, a row of which stands beside many of lines"
    found = Folder(room.room / "new")
    assert (found.findings, found.catalogue.names[:3]) == ([], ["lines", "orders", "products"])
    assert dict(found.views[0].columns) == {"id": "int", "product": "text", "pieces": "int"}
    for file in files:
        assert bag_of((room.room / "new/data" / file.name).read_text()) == bag_of(file.read_text())


def test_kinds_are_those_of_the_cells_and_what_looks_otherwise_is_told(room):
    text = "whole,code,cents,gap,seen,never,day\n1,007,12.50,3,2026-01-02,,20260102\n-2,12,3,,2026-02-03,,20260203\n"
    views, told = room.made(t=text)
    kinds = ["whole", "code:text", "cents:text", "gap:text", "seen:text", "never:text", "day"]
    assert views["t"]["columns"] == kinds
    assert "    cents has parts behind the point, so it is a text; keep cents, such as 1250 for 12.50, to add it up" in told
    assert "    seen has dates as texts, which compare for equality alone; write them as yyyymmdd, such as 20260102 for 2026-01-02, to sort them" in told
    assert "# gap has empty cells, so it is a text" in (room.room / "folder/catalogue.toml").read_text()


def noted(*cells):
    """What is told of a column of these cells."""
    return Column("x", cells).note


def test_money_is_told_as_it_is_written_with_what_to_write():
    cents = "x has parts behind the {}, so it is a text; keep cents, such as {} for {}, to add it up"
    assert noted("12,50", "3") == cents.format("comma", "1250", "12,50")
    assert noted("1,250.00", "12.5", "7") == cents.format("point", "125000", "1,250.00")
    assert noted("1.250,00", "-3,5") == cents.format("comma", "125000", "1.250,00")
    assert noted("1,250", "12.50") == cents.format("point", "1250", "12.50")
    commas = "x has commas within its numbers, so it is a text; write {} for {} to add it up"
    assert noted("1,250", "999") == commas.format("1250", "1,250")
    assert noted("-12,300,400") == commas.format("-12300400", "-12,300,400")
    assert (noted("12", "7"), noted("1,25,0"), noted("007")) == ("", "", "")


def test_dates_are_told():
    dates = "x has dates as texts, which compare for equality alone; write them as yyyymmdd{} to sort them"
    assert noted("2026-11-28") == dates.format(", such as 20261128 for 2026-11-28,")
    assert noted("28.11.2026", "1/2/2026") == dates.format("")
    assert noted("2026-11-28 12:00") == dates.format("")


def test_empty_cells_are_told_of_every_column_that_has_some():
    number = "put a number that nothing else has"
    assert noted("7", "") == f"x has empty cells, so it is a text; {number} into them to have numbers"
    for cell in ("12,50", "1,250", "2026-11-28"):
        assert noted(cell, "") == f"{noted(cell)}; into its empty cells {number}"
    assert noted("jam", "") == "x has empty cells, which are a text like others, equal to each other; where can leave them out"
    assert (noted("", ""), noted("jam")) == ("", "")


def test_joins_are_proposed_where_names_and_values_agree(room):
    orders = "id,customer_id,shop,note\n1,7,north,x\n2,8,south,x\n3,7,north,y\n4,7,north,y\n"
    customers, shops = "id,name\n7,Ann\n8,Bob\n", "name,town\nnorth,A\nsouth,B\n"
    views, _ = room.made(orders=orders, customers=customers, shops=shops)
    joined = views["orders_joined"]
    assert joined["over"] == ["orders", "customers", "shops"]
    assert joined["join"] == [["orders.customer_id", "customers.id"], ["orders.shop", "shops.name"]]
    assert [name for name, _ in joined["keep"]] == ["id", "customer_id", "shop", "note", "name", "town"]


def test_keys_that_have_a_general_name_alone_lead_nowhere(room):
    views, _ = room.made(cats="id,name\n1,a\n2,b\n", dogs="id,name\n1,c\n2,d\n3,e\n")
    assert set(views) == {"cats", "dogs"}


def test_columns_whose_values_differ_lead_nowhere_and_rows_that_join_with_none_are_told(room):
    views, _ = room.made(a="code_x,n\n1,1\n2,1\n9,1\n9,2\n", b="code_x,m\n1,1\n2,2\n")
    assert "a_joined" not in views
    rows = "".join(f"{number % 20 + 1},{number}\n" for number in range(100))
    keys = "".join(f"{number},{number % 3}\n" for number in range(1, 20))
    room.put(uses=f"code_x,n\n{rows}", codes=f"code_x,m\n{keys}")
    assert room.ran("init", "second", "uses.csv", "codes.csv")[0] == 0
    text = (room.room / "second/catalogue.toml").read_text()
    assert '# Of uses 5 rows have no row of codes, and are not in it.\n[[view]]\nname = "uses_joined"' in text


def test_a_way_goes_on_over_tables_that_lead_further(room):
    files = {"lines": "order_id,n\n1,5\n1,6\n2,5\n", "orders": "id,city\n1,A\n2,B\n3,A\n", "cities": "city,country\nA,X\nB,X\n"}
    views, _ = room.made(**files)
    assert views["lines_joined"]["join"] == [["lines.order_id", "orders.id"], ["orders.city", "cities.city"]]
    assert "orders_joined" not in views


def test_a_summary_adds_up_numbers_that_are_no_keys_and_no_dates(room):
    rows = "".join(f"{number},{'ab'[number % 2]},{7 * number},2026010{number}\n" for number in range(1, 9))
    views, _ = room.made(visits=f"visit_id,kind,minutes,day\n{rows}")
    summary = views["visits_by_kind"]
    assert (summary["group"], summary["count"]) == ([["kind", "visits.kind"]], "rows")
    assert summary["sum"] == [["minutes", "visits.minutes"]]


def test_only_numbers_of_the_many_side_are_added_up_and_no_unit_prices(room):
    lines = "id,article,pieces,unit_price,weight,paid\n" + "".join(
        f"{number % 3},A{number % 2},{number},{100 + number},{'75'[number % 2]},{number * number}\n" for number in range(1, 9)
    )
    files = {"lines": lines, "articles": "article,stock\nA0,7\nA1,9\n", "orders": "id,who,total\n0,Ann,5\n1,Bob,6\n2,Ann,7\n"}
    views, told = room.made(**files)
    assert views["lines_joined_by_article"]["sum"] == [["pieces", "lines_joined.pieces"], ["paid", "lines_joined.paid"]]
    why = {
        "unit_price": "by its name it is a price, of which a sum says nothing", "weight": "each article has one value of it, as an article has one price",
        "stock": "it is of articles, a row of which stands beside many of lines", "total": "it is of orders, a row of which stands beside many of lines",
    }
    text = (room.room / "folder/catalogue.toml").read_text()
    for name, cause in why.items():
        assert f"    {name} is not added up: {cause}" in told
        assert f"# {name} is not added up: {cause}.\n" in text


def test_a_number_goes_with_a_key_where_each_of_several_has_one_value_of_it():
    def goes(keys, cells):
        return sums.goes_with(Column("n", list(cells)), Column("key", list(keys)))

    assert goes("aabb", "1122")
    assert not goes("aabb", "1121")
    assert not goes("aabb", "1111")
    assert not goes("aaaa", "1111")
    assert not goes("abc", "123")


def test_a_column_of_another_kind_than_the_key_that_it_is_named_for_is_told_with_what_to_do(room):
    orders, customers = "id,customer\n1,007\n2,012\n3,007\n", "customer,name\n7,Ann\n12,Bob\n"
    views, told = room.made(orders=orders, customers=customers)
    assert set(views) - {"orders", "customers"} == {"customers_by_name", "orders_by_customer"} & set(views)
    line = "not joined: orders.customer, a text such as '007', and customers.customer, a number such as 7, since a text equals no number; "
    line += "write 007 and 7 alike in both files, and run init again"
    assert line in told
    assert f"\n# N{line[1:]}.\n" in (room.room / "folder/catalogue.toml").read_text()
    room.put(orders="id,customer\n1,7\n2,\n3,12\n", others="customer,name\n007,Ann\n012,Bob\n")
    gaps = room.ran("init", "gaps", "orders.csv", "customers.csv")[1]
    gap = "since a text equals no number; put a number that nothing else has into the empty cells of customer, and run init again"
    assert any(line.endswith(gap) for line in gaps)
    room.put(orders="id,customer\n1,7\n2,12\n3,12\n")
    other = room.ran("init", "other", *room.put(buys="id,customer\n1,7\n2,12\n3,12\n"), "others.csv")[1]
    start = "not joined: others.customer, a text such as '007', and buys.customer, a number such as 7, since a text equals no number; write"
    assert len([each for each in other if each.startswith(start)]) == 1


def test_a_column_of_which_too_few_values_are_there_is_told(room):
    _, told = room.made(a="code_x,n\n1,1\n2,1\n9,1\n9,2\n", b="code_x,m\n1,1\n2,2\n")
    line = "not joined: a.code_x, of which 2 of 3 values are in b.code_x; where they belong together add the pair to a view's join"
    assert [each for each in told if each.startswith("not joined")] == [line]


def test_files_as_other_programs_write_them(room):
    text = b'\xef\xbb\xbfOrder ID;Name;Name;;2nd\r\n1;"a;b";x;;"two\nlines"\r\n\r\n2;c;y;;z\r\n'
    (room.room / "My Orders (2).csv").write_bytes(text)
    status, _, errors = room.ran("init", "new", "My Orders (2).csv")
    assert (status, errors) == (0, [])
    made = (room.room / "new/data/my_orders_2.csv").read_text()
    assert made == 'order_id,name,name_2,column_4,_2nd\n1,a;b,x,,"two\nlines"\n2,c,y,,z\n'


def test_counts_are_kept(room):
    views, _ = room.made(t="#,a,b\n3,x,1\n2,y,1\n")
    assert views["t"]["columns"] == ["a:text", "b"]
    assert (room.room / "folder/data/t.csv").read_text() == "#,a,b\n3,x,1\n2,y,1\n"


def judge(room, line, status=3, **files):
    assert room.ran("init", "new", *room.put(**files)) == (status, [], [line.replace("ROOM", str(room.room))])
    assert sorted(path.name for path in room.room.iterdir()) == sorted(f"{name}.csv" for name in files)
    for name in files:
        (room.room / f"{name}.csv").unlink()


def test_what_is_no_table(room):
    judge(room, "ROOM/t.csv:1:1: this file is empty; a table has a header at least", t="")
    judge(room, "ROOM/t.csv:4:1: this record has 1 cells and the header has 2", t='a,b\n1,"x\ny"\n1\n')
    comma = "put a cell that has a comma in it, such as 12,50, in quotes"
    judge(room, f"ROOM/t.csv:2:1: this record has 3 cells and the header has 2; {comma}", t="a,b\n1,12,50\n")
    cure = "a quote within a cell is written twice, and the cell is put in quotes"
    told = f"ROOM/t.csv:2:1: the record that begins here is not CSV: unexpected end of data; {cure}"
    judge(room, told, t='a,b\n1,"x\n2,y\n3,z\n')
    judge(room, "ROOM/t.csv:2:1: this line is not UTF-8; iconv -f LATIN1 -t UTF-8 may make it so", t=b"a\n\xe4\n")
    judge(room, "ROOM/t.csv:1:1: this line is not UTF-8; iconv -f UTF-16 -t UTF-8 may make it so", t="a\n1\n".encode("utf-16"))
    judge(room, "ROOM/t.csv:1:1: this file has 65 columns; a view has 1 to 64", t=",".join(f"c{n}" for n in range(65)))
    judge(room, "ROOM/t.csv:1:1: the column # has counts, which are positive, and '-1' is none", t="#,a\n-1,2\n")


def test_words_that_nothing_can_be_made_of(room):
    (room.room / "t.csv").write_text("a\n1\n")
    (room.room / "T.csv").write_text("a\n1\n")
    (room.room / "there").mkdir()
    (room.room / "there/x").write_text("")
    assert room.ran("init", "new") == (2, [], ["init takes a folder and CSV files"])
    assert room.ran("init", "new", "u.csv") == (2, [], ["there is no file u.csv"])
    assert room.ran("init", "there", "t.csv") == (2, [], ["there is there already, and stays as it is; name a folder that is not there"])
    assert room.ran("init", "new", "t.csv", "T.csv") == (3, [], ["T.csv and t.csv would both be the view t; rename one"])
    many = (2, [], ["65 files are given, and a catalogue has 64 views at most"])
    assert room.ran("init", "new", *["t.csv"] * 65) == many
    assert not (room.room / "new").exists()


HEADERS = ["id", "ID", "", "é", "a b", "x" * 80, "9", "rows", "count", 'q"q', "new\nline", "customer_id", "_", "#x"]


CELLS = ["", "0", "7", "-7", "007", "+1", "1.5", "9223372036854775807", "9223372036854775808", "tea, black", 'a "q"', "x\ny", "é", "@x", "1e3"]


def drawn(source):
    """A table's text; one column in three is a key, or has values of few keys."""
    width, rows = source.randint(1, 6), source.randint(0, 12)
    kinds = [source.choice(["key", "few", "any"]) for _ in range(width)]
    cells = {"key": lambda row: str(row), "few": lambda _: str(source.randrange(4)), "any": lambda _: source.choice(CELLS)}
    written = io.StringIO()
    writer = csv.writer(written, lineterminator=source.choice(["\n", "\r\n"]), delimiter=source.choice(",;\t"))
    writer.writerow([source.choice(HEADERS[:1] + HEADERS) for _ in range(width)])
    writer.writerows([cells[kind](row) for kind in kinds] for row in range(rows))
    return written.getvalue()


def test_what_is_made_of_drawn_files_lints_clean(room):
    source, joined = random.Random(17), 0
    for _ in range(150):
        paths = room.put(**{name: drawn(source) for name in source.sample(["orders", "customers", "t", "Lines", "a-b"], 3)})
        try:
            tables = [Export(path) for path in paths]
        except Exception as refused:
            assert type(refused).__name__ == "Failure"
            continue
        found = folder_of(room, tables)
        assert found.findings == []
        joined += any(len(view.over) > 1 for view in found.views)
    assert joined > 10


def folder_of(room, tables):
    """The folder that is made of tables, and is read as `lint` does."""
    with tempfile.TemporaryDirectory(dir=room.room) as kept:
        folder = Path(kept)
        (folder / "data").mkdir()
        (folder / "catalogue.toml").write_text(catalogue_text(tables, proposed(tables)))
        for table in tables:
            (folder / f"data/{table.name}.csv").write_text(table.text, newline="")
        return Folder(folder)


def test_names_are_names():
    assert [name_of(text, "usual") for text in ("Order ID", "9x", "é", "", "a" * 70)] == ["order_id", "_9x", "usual", "usual", "a" * 64]
    assert own_names(["a", "A", "", "a_2", "a"]) == ["a", "a_2", "column_3", "a_2_2", "a_3"]
