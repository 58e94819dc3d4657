"""Columns that come to a base view, whose kept table gets them by the key `fill`."""

from types import SimpleNamespace

import pytest

from trials.drawn.shrunk import draws
from trials.oracle.tables import bag_of
from whview.folder.fill import filled
from whview.folder.written import text_of

from .shop import carried_out

KEPT = "versions/1/data/products.csv:1:1"


@pytest.fixture
def shop(kept):
    """A shop with a version, whose products have a kind from now on."""
    lay_columns(kept, '"product:text", "kind:text", "price"')
    return kept


def lay_columns(shop, columns, fill=""):
    """Has the products these columns, and this line below them."""
    text = (shop.folder / "catalogue.toml").read_text()
    before, _, after = text.partition('name = "products"\n')
    lines = [line for line in after.split("\n") if not line.startswith("fill = ")]
    lines[0] = f"columns = [{columns}]" + f"\n{fill}" * bool(fill)
    (shop.folder / "catalogue.toml").write_text("\n".join([f'{before}name = "products"', *lines]))


def judge(shop, status, *told):
    assert shop.ran("lint") == (status, list(told))


def test_the_next_night_writes_the_table_with_the_column_for_all_rows(shop):
    lay_columns(shop, '"product:text", "kind:text", "price"', 'fill = {kind = "sweet, or not"}')
    told = "catalogue.toml:14:1: warning: kind is new in products; its rows that stand have 'sweet, or not' in it"
    judge(shop, 0, told)
    assert told in shop.night()
    made = '#,product,kind,price\n1,bread,"sweet, or not",300\n1,"tea, black","sweet, or not",800\n1,jam,"sweet, or not",475\n1,honey,"sweet, or not",950\n'
    assert (shop.folder / "current/data/products.csv").read_text() == made
    assert "views: computed anew" in (shop.folder / "current/report.txt").read_text()
    judge(shop, 0)
    shop.night()
    assert (shop.folder / "current/data/products.csv").samefile(shop.folder / "versions/2/data/products.csv")


def test_rows_that_change_that_night_have_the_column_too(shop):
    lay_columns(shop, '"product:text", "price", "stock"', "fill = {stock = 0}")
    shop.put(b"#,product,price\n1,oil,5\n", "products.csv")
    warned = "catalogue.toml:14:1: warning: stock is new in products; its rows that stand have 0 in it"
    header = "products has the header #,product,price,stock; this is #,product,price"
    cure = "write stock into the rows too, or carry them out by the catalogue of before first"
    judge(shop, 3, warned, f"changes/products.csv:1:1: {header}; {cure}")
    shop.put(b"#,product,price,stock\n-1,jam,475,0\n1,jam,475,7\n", "products.csv")
    shop.night()
    assert bag_of((shop.folder / "current/data/products.csv").read_text())["jam", "475", "7"] == 1


def test_the_bundle_has_the_column(shop):
    lay_columns(shop, '"product:text", "kind:text", "price"', 'fill = {kind = ""}')
    assert "@data products\n#,product,kind,price\n1,bread,,300\n" in carried_out(["pack", shop.folder])[1]


def test_what_cannot_be_is_refused(shop):
    anew = "a kept table has the columns of its night: {}name the view anew, such as products_2, with a table in data/"
    rows = 'say what its rows have in the new ones, such as fill = {kind = ""} below the view\'s columns, or '
    judge(shop, 3, f"{KEPT}: products has the header #,product,kind,price; this is #,product,price; {anew.format(rows)}")
    for columns in ('"price", "product:text", "kind:text"', '"product:text", "kind:text"', '"price"'):
        lay_columns(shop, columns, 'fill = {kind = ""}' if "kind" in columns else "")
        header = ",".join(word.strip(' "').partition(":")[0] for word in columns.split(","))
        status, told = shop.ran("lint")
        assert status == 3
        assert f"{KEPT}: products has the header #,{header}; this is #,product,price; {anew.format('')}" in told


WRONG = {
    "fill = {kind = 1}": 'fill has 1 for kind, which is a text, such as "1"',
    'fill = {kind = "", price = "5"}': "fill has '5' for price, which is a whole number of 64 bits",
    'fill = {kind = "", price = true}': "fill has True for price, which is a whole number of 64 bits",
    'fill = {kind = "", kinds = ""}': "fill has a value for kinds, and there is no such column; did you mean kind?",
    'fill = ["kind"]': 'fill has a value for each new column, such as fill = {kind = "none"}',
}


@pytest.mark.parametrize("line, told", WRONG.items())
def test_a_key_that_is_wrong(shop, line, told):
    lay_columns(shop, '"product:text", "kind:text", "price"', line)
    status, lines = shop.ran("lint")
    assert status == 3
    assert f"catalogue.toml:14:1: products: {told}" in lines
    assert shop.ran("night", "--commit")[0] == 3


TEXTS = ["", "a", "a,b", 'a "q"', "two\nlines", "back\r", "7"]


@draws(300)
def test_tables_of_any_form_have_the_rows_that_they_had_with_the_values(source):
    names = [f"c{number}" for number in range(source.randint(1, 4))]
    new = [name for name in names if source.random() < 0.4][: len(names) - 1]
    had, given = [name for name in names if name not in new], {name: source.choice(TEXTS) for name in new}
    rows = [[source.choice(TEXTS) for _ in had] for _ in range(source.randint(0, 5))]
    counts = [[str(source.randint(1, 3))] for _ in rows] if source.random() < 0.5 else None
    header = ["#"] * bool(counts) + had
    text = text_of([header, *([*count, *row] for count, row in zip(counts or [[]] * len(rows), rows))])
    view = SimpleNamespace(columns=[(name, "text") for name in names], table={"fill": given})
    found = filled(text.encode(), view)
    if not new:
        assert found is None
        return
    wanted = [tuple(given[name] if name in given else row[had.index(name)] for name in names) for row in rows]
    each = [int(count[0]) for count in counts] if counts else [1] * len(rows)
    bag = {}
    for row, count in zip(wanted, each):
        bag[row] = bag.get(row, 0) + count
    assert (bag_of(found[0].decode()), found[1]) == (bag, new)
