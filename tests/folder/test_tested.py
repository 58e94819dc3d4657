"""Tests that a catalogue has of its tables: what breaks them is told and nothing is changed, also where only what changed is looked at."""

import random
from collections import Counter
from types import SimpleNamespace

import pytest

from whview.catalogue.table_tests import Reference, TableTest
from whview.finding import TOLD, Place
from whview.folder.headlines import has_judged
from whview.folder.rows_of_keys import Cells, cell_of, line_blocks
from whview.folder.sizes import Size
from whview.folder.tested import Judge, Tested

from .shop import ANSWER, SHOP, Shop, contents
from .test_deltas import HEAD, answers_with

ORDERS, LINES = 'columns = ["id", "day:text", "region:text"]\n', 'columns = ["id", "product:text", "pieces"]\n'
LAST = 'sum = [["cost", "sales.cost"]]\n'
# Tests of the shop that its night keeps.
KEPT = {
    ORDERS: 'key = ["id"]\nunique = [["id", "day"]]\none_of = {region = ["north", "south"]}\nleast_rows = 7\nmost_changed_rows = 2\n',
    LINES: '[view.refers]\nid = "orders.id"\nproduct = "products.product"\n',
    LAST: 'unique = [["day", "region"]]\none_of = { region = ["north", "south"] }\nleast_rows = 6\nmost_changed_share = 2\n',
}


class WithTests(Shop):
    def with_tests(self, tests):
        text = (SHOP / "catalogue.toml").read_text()
        for line, keys in tests.items():
            head, _, tail = text.rpartition(line)
            text = f"{head}{line}{keys}{tail}"
        (self.folder / "catalogue.toml").write_text(text)

    def refused(self, told, in_lint=True):
        """A night that breaks a test is refused, and nothing is changed; `lint` tells of base views alone."""
        before = contents(self.folder)
        for words in (["night"], ["night", "--commit"]):
            assert self.ran(*words) == (1, told)
            assert contents(self.folder) == before
        assert self.ran("lint") == ((3, sorted(told)) if in_lint else (0, []))


def test_a_shop_that_keeps_its_tests(shop):
    shop.with_tests(KEPT)
    assert shop.ran("lint") == (0, [])
    assert shop.ran("night", "--commit") == (0, [])
    assert shop.ran("night", "--commit", "--always") == (0, [])


def test_what_breaks_a_test_of_a_base_view(shop):
    key = "data/orders.csv:{}:1: orders: several rows have {}, which is {} key (catalogue.toml:6:{}): {}"
    more = (shop.folder / "data/orders.csv").read_text() + "5,Friday,east\n"
    (shop.folder / "data/orders.csv").write_text(more)
    five = ((6, "5,Tuesday,north"), (7, "5,Friday,east"))
    shop.with_tests({ORDERS: 'key = ["id"]\n'})
    shop.refused([key.format(line, "id 5", "the", 1, row) for line, row in five])
    shop.with_tests({ORDERS: 'unique = [["id"]]\n'})
    shop.refused([key.format(line, "id 5", "a", 11, row) for line, row in five])
    shop.with_tests({ORDERS: 'one_of = {region = ["north", "south"], id = [1, 2, 3, 4, 5, 6, 7]}\n'})
    shop.refused(["data/orders.csv:7:1: orders: region east is none of north, south (catalogue.toml:6:20): 5,Friday,east"])
    shop.with_tests({ORDERS: "least_rows = 9\n"})
    shop.refused(["catalogue.toml:6:1: orders: 8 rows are left; least_rows is 9"])
    shop.with_tests({ORDERS: "most_changed_rows = 1\n"})
    shop.refused(["catalogue.toml:6:1: orders: 2 rows change; most_changed_rows is 1"])
    shop.with_tests({ORDERS: "most_changed_share = 0.3\n"})
    shop.refused(["catalogue.toml:6:1: orders: 2 rows change, and there were 6; most_changed_share is 0.3"])


def test_rows_that_refer_to_none(shop):
    shop.edit("changes/orders.csv", "1,6,Wednesday,north\n", "1,8,Wednesday,north\n")
    shop.with_tests({LINES: 'refers = {id = "orders.id"}\n'})
    told = "changes/lines.csv:{}:1: lines: orders.id has no id 6 (catalogue.toml:10:16): 6,{}"
    shop.refused([told.format(2, "bread,3"), told.format(3, "honey,1")])


def test_what_breaks_a_test_of_a_derived_view(shop):
    shop.with_tests({LAST: 'one_of = {region = ["south"]}\nunique = [["region"]]\nleast_rows = 7\nmost_changed_share = 1.1\n'})
    rows = [line.removeprefix("1,") for line in ANSWER.read_text().split("daily_by_region\n#")[1].splitlines()[1:7]]
    several = [f"catalogue.toml:44:11: daily_by_region: several rows have region {row.split(',')[1]}, which is a key: {row}" for row in rows]
    north = [f"catalogue.toml:43:20: daily_by_region: region north is none of south: {row}" for row in rows if "north" in row]
    left = "catalogue.toml:45:1: daily_by_region: 6 rows are left; least_rows is 7"
    share = "catalogue.toml:46:1: daily_by_region: 8 rows change, and there were 6; most_changed_share is 1.1"
    shop.refused([*several, *north, left, share], in_lint=False)


def test_the_first_rows_are_told_and_how_many_there_are(shop):
    rows = "".join(f"{number % 50},Monday,x\n" for number in range(100))
    (shop.folder / "data/orders.csv").write_text(f"id,day,region\n{rows}")
    shop.with_tests({ORDERS: 'key = ["id"]\n'})
    status, told = shop.ran("night", "--commit")
    assert (status, len(told)) == (1, TOLD + 1)
    assert told[-1] == f"catalogue.toml:6:1: orders: {52 - TOLD} more rows break this test, and are not told"


@pytest.mark.parametrize(
    "keys, told",
    (
        ('unique = ["id"]', '6:11: orders: unique is an array of keys, each an array of columns, such as [["id"], ["day", "region"]]'),
        ('unique = [["di"]]', "6:12: orders: unique names di, and there are the columns id, day, region; did you mean id?"),
        ('one_of = {region = ["north", 1]}', "6:20: orders: one_of has an array of texts for region, one at least"),
        ('one_of = {di = ["north"]}', "6:16: orders: one_of names di, and there are the columns id, day, region; did you mean id?"),
        ('refers = {id = "lines.di"}', "6:16: orders: id refers to lines.di, and lines has the columns id, product, pieces; did you mean id?"),
        ('refers = {id = "orders.id"}', "6:16: orders: id refers to orders.id, which is no column of another view"),
        ('refers = {id = "lines.product"}', "6:16: orders: id is int and lines.product is text"),
        ("least_rows = -1", "6:1: orders: least_rows is a whole number from 0"),
        ("least_rows = true", "6:1: orders: least_rows is a whole number from 0"),
        ("most_changed_share = nan", "6:1: orders: most_changed_share is a part of the rows, such as 0.1"),
        ("least_row = 1", "6:1: orders: unknown key least_row; did you mean least_rows?"),
    ),
)
def test_tests_of_another_form(shop, keys, told):
    shop.with_tests({ORDERS: f"{keys}\n"})
    status, lines = shop.ran("lint")
    assert (status, [line.partition("; did")[0] for line in lines]) == (3, [f"catalogue.toml:{told}".partition("; did")[0]])


@pytest.fixture
def shop(tmp_path):
    return WithTests(tmp_path)


@pytest.fixture
def later(shop):
    """A shop with a night, of whose later ones the rows that change are looked at."""
    shop.with_tests(KEPT)
    shop.night()
    answers_with(shop, unchanged())
    return shop


def unchanged():
    heads = (b"sales\n#,day,region,product,pieces,cost\n", b"daily_by_product\n#,day,product,lines,pieces,cost\n")
    return HEAD.replace(b"sales: 2", b"sales: 0").replace(b"region: 4", b"region: 0") + b"".join(
        b"changes " + head for head in (*heads, b"daily_by_region\n#,day,region,lines,cost\n")
    )


def put(shop, **files):
    (shop.folder / "changes").mkdir(exist_ok=True)
    for name, text in files.items():
        (shop.folder / f"changes/{name}.csv").write_text(text)


def test_a_key_comes_that_is_there(later):
    put(later, orders="#,id,day,region\n1,3,Friday,north\n")
    told = "orders: several rows have {}, which is the key (catalogue.toml:6:1): 3,{},north"
    places = {"versions/1/data/orders.csv:4:1": "Monday", "changes/orders.csv:2:1": "Friday"}
    later.refused([f"{place}: {told.format('id 3', day)}" for place, day in places.items()])


def test_a_row_that_is_put_right_keeps_its_key(later):
    put(later, orders="#,id,day,region\n-1,3,Monday,north\n1,3,Monday,south\n")
    assert later.ran("night", "--commit") == (0, [])


def test_what_is_referred_to_leaves(later):
    put(later, products="#,product,price\n-1,jam,475\n")
    told = "versions/1/data/lines.csv:3:1: lines: products.product has no product jam (catalogue.toml:17:11): 1,jam,1"
    later.refused([told])


def test_a_derived_row_that_comes(later):
    answer = unchanged().replace(b"daily_by_region: 0", b"daily_by_region: 2")
    answers_with(later, answer + b"1,Friday,east,1,5\n1,Monday,north,9,9\n")
    several = "catalogue.toml:51:11: daily_by_region: several rows have day Monday, region north, which is a key: Monday,north,{}"
    east = "catalogue.toml:52:21: daily_by_region: region east is none of north, south: Friday,east,1,5"
    put(later, orders="#,id,day,region\n1,30,Friday,north\n")
    later.refused([several.format("3,1375"), several.format("9,9"), east], in_lint=False)


def test_what_a_night_did_not_judge_is_judged_over_all_rows(later):
    report = later.folder / "versions/1/report.txt"
    assert "\ntests: 11 of the catalogue are kept\n" in report.read_text()
    assert has_judged(SimpleNamespace(report=report))
    # As a tool left it that knew of no tests.
    other = later.folder / "report.txt"
    other.write_text(report.read_text().replace("tests: ", "no tests: "))
    assert not has_judged(SimpleNamespace(report=other))


def test_another_test_is_judged_over_all_rows(later):
    later.edit("catalogue.toml", 'one_of = {region = ["north", "south"]}\n', 'one_of = {region = ["north"]}\n')
    told = later.ran("night", "--commit")
    assert (told[0], len(told[1]), told[1][0].partition(": orders")[0]) == (1, 3, "versions/1/data/orders.csv:3:1")


WIDTH, TEXTS = 3, ["a", "b", 'x,"y"', "", "c c"]


def drawn_row(shop, source):
    return b",".join([b"%d" % source.randrange(9), cell_of(source.choice(TEXTS)), b"%d" % source.randrange(4)])


def drawn_table(shop, source, rows):
    """A night's table twice: from the rows that change, and from all."""
    change = {row: -count for row, count in rows.items() if source.random() < 0.3}
    for _ in range(source.randrange(4)):
        row = drawn_row(shop, source)
        change[row] = change.get(row, 0) + source.choice([1, 1, 2])
    change = {row: count for row, count in change.items() if count}
    after = Counter(rows)
    after.update(change)
    after = +after
    before, whole = (b"#,x,t,y\n" + b"".join(b"%d,%s\n" % (count, row) for row, count in each.items()) for each in (rows, after))
    view = SimpleNamespace(name="v", columns=[("x", "int"), ("t", "text"), ("y", "int")])
    sizes = Size(rows.total(), after.total(), sum(map(abs, change.values())))
    return Tested(view, sizes, None, lambda: before, change), Tested(view, sizes, lambda: line_blocks([whole]))


def test_drawn_changes(shop):
    source = random.Random(7)
    tests = [TableTest("v", "unique", Place("c"), columns) for columns in ((0,), (1,), (0, 1), (1, 2))]
    tests += [TableTest("v", "one_of", Place("c"), (1,), frozenset(TEXTS[:4])), TableTest("v", "refers", Place("c"), (0,), Reference("w", 2))]
    broken = 0
    for number in range(1500):
        drawn = [[drawn_row(shop, source) for _ in range(source.randrange(1, 7))] for _ in "vw"]
        rows = [Counter(each) for each in drawn]
        pairs = [drawn_table(shop, source, each) for each in rows]
        for test in tests:
            one, other = ({name: pair[way] for name, pair in zip("vw", pairs)} for way in (0, 1))
            if not holds(test, rows):
                continue
            told, wanted = (set(broken_by(test, tables)) for tables in (one, other))
            broken += bool(wanted)
            assert told == wanted
    assert broken > 500


def broken_by(test, tables):
    judge = Judge(tables.get, None)
    return judge.broken(test, tables["v"], tables["w"] if test.key == "refers" else None)


def holds(test, rows):
    """Whether a test held before the night."""
    known = {Cells((2,), 3).of_row(row) for row in rows[1]}
    keys = Counter()
    for row, count in rows[0].items():
        keys[Cells(test.columns, 3).of_row(row)] += count
    if test.key == "unique":
        return max(keys.values()) == 1
    if test.key == "refers":
        return known >= set(keys)
    return all(key in {(cell_of(text),) for text in test.against} for key in keys)
