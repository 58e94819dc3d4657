"""`report`: what the page has, that it needs nothing else, and what it explains."""

import random
import re
import shutil
from types import SimpleNamespace
from unittest import mock

import pytest

from trials.drawn.shrunk import draws
from trials.oracle.planner import Planner
from whview.catalogue.views import Column, Kind
from whview.folder import stored
from whview.folder.report import plans as report_plans, rows as report_rows
from whview.folder.report.facts import told
from whview.folder.report.page import page
from whview.folder.report.parts import by_pairs, by_tree, plans
from whview.folder.serve_page import version_row
from whview.folder.sizes import Size
from whview.strategy.plans import drawn, drawn_cyclic

from .serving import Page
from .shop import ANSWER, Shop

PLAN = """scope all
work 96
comp sales from products
inst products
comp sales from orders
inst orders
comp sales from lines
comp daily_by_product from sales
comp daily_by_region from sales
inst lines
inst sales
inst daily_by_product
inst daily_by_region
pair sales orders lines 14
pair sales products orders 9
pair sales products lines 11
"""
NAMES = ["jam", '"tea, black"', '"a ""b"""']


class Paged(Shop):
    """A shop with its nights and their pages."""

    def answers_each(self, plan=PLAN, verdict="certified all work 96\n"):
        """Has the program answer a plan and a verdict, and the shop's night."""
        room = self.program.parent
        for name, text in (("plan", plan), ("verdict", verdict)):
            (room / name).write_text(text)
        cases = f"plan) cat {room}/plan ;; certify) cat {room}/verdict ;; *) cat {room}/answer ;;"
        self.program.write_text(f'#!/bin/sh\ncat > /dev/null\ncase "$1" in {cases} esac\n')

    def reported(self, *words, name="1.html"):
        assert self.ran("report", *words) == (0, [])
        text = (self.folder / "reports" / name).read_text()
        return Page(text), text


@pytest.fixture
def bare(tmp_path):
    return Paged(tmp_path)


@pytest.fixture
def paged(bare):
    """The same with a night that was kept, whose program answers plans."""
    bare.night()
    bare.answers_each()
    return bare


def test_a_night_is_one_page_that_needs_nothing_else(paged):
    read, text = paged.reported()
    assert read.open == []
    others = re.findall(r"<script|@import|url\((?!#)|src=|https?:(?!//www.w3.org/2000/svg)", text)
    assert others == []
    links = [given["href"] for tag, given in read.tags if "href" in given]
    assert all(link.startswith("#") for link in links)
    named = {given["id"] for _, given in read.tags if "id" in given}
    assert {link[1:] for link in links} <= named
    for head in ("The night's steps in the graph", "Step by step", "The views", "The first changed rows", "The plan beside others"):
        assert head in read.text
    assert "Why no strategy costs less" in read.text
    assert "There is one night as yet." in read.text
    assert paged.ran("lint") == (0, [])


def test_steps_views_and_strategies_have_the_nights_numbers(paged):
    read, text = paged.reported("1")
    assert "inst 9: 8" in read.text
    assert "98 rows, as the metric counts, 2 more than the bound, 96; 62 changed ones are gone through" in read.text
    assert "5 comp sales from products 19 3 6 inst products 3 3" in read.text
    assert "orders base 5 7 +2 2 lines base 7 9 +2 6 products base 3 4 +1 3" in read.text
    beside = "the bound what every correct strategy costs at least 96 the least plan certified, scope all 96"
    beside += " this night the strategy that was carried out 98 +2"
    beside += " lower number first the views one by one, as the catalogue has them 98 +2"
    beside += " all at once each view takes all its changes in one Comp 140 +44"
    assert beside in read.text
    assert "pair sales orders lines 14 under sales: orders before lines 14 14 14" in read.text
    assert "pair sales products orders 9 under sales: products before orders 9 10 9" in read.text
    assert "the bound 96 The program says of this plan: certified all work 96" in read.text
    assert "prefers-color-scheme: dark" in text


def test_old_and_new_rows_stand_side_by_side(paged):
    read, _ = paged.reported()
    assert "products 3 rows differ before after product price product price — honey 950 jam 450 jam 475" in read.text
    assert "4 jam 2 — 5 tea, black 1 5 tea, black 2" in read.text


def test_nights_are_curves(paged):
    paged.more()
    read, _ = paged.reported(name="2.html")
    assert "2 nights that are kept, 1 to 2." in read.text
    told_of = [given["aria-label"] for tag, given in read.tags if tag == "svg" and "to 2" in given.get("aria-label", "")]
    assert "rows of orders, 1 to 2: 7, 8" in told_of
    assert "work, in rows, 1 to 2: 98, 98" in told_of


def test_texts_of_cells_are_texts_of_the_page(paged):
    paged.more(b'#,id,day,region\n1,8,<script>alert(1)</script>,"a ""b"" & \'c\'"\n')
    read, text = paged.reported(name="2.html")
    assert [tag for tag, _ in read.tags if tag == "script"] == []
    assert "<script>alert(1)</script> a \"b\" & 'c'" in read.text


def test_a_preview_has_a_report_of_its_own(bare):
    bare.answers_each()
    assert bare.ran("night") == (0, [])
    read, _ = bare.reported(name="preview.html")
    assert "shop, preview" in read.text
    assert "jam 450 jam 475" in read.text


def test_what_has_no_night_is_told_and_nothing_is_written(bare):
    told_of = f"there is no night in {bare.folder} yet; `whview folder night {bare.folder} --commit` carries one out"
    assert bare.ran("report") == (3, [told_of])
    bare.night()
    assert bare.ran("report", "0") == (2, [f"version 0 of {bare.folder} is of before its first night, and has no report"])
    assert bare.ran("report", "7") == (2, [f"there is no version 7 in {bare.folder}; there are 0, 1"])
    assert bare.ran("report", "../1") == (2, [f"a version, where it is not new, is a number from 0 to {2**63 - 1:,}, and not '../1'"])
    assert bare.ran("report", "1", "2") == (2, ["report takes a folder, and perhaps a version or the word new"])
    assert not (bare.folder / "reports").exists()


def test_without_a_program_there_is_a_report_without_a_certificate(paged):
    paged.answers(b"", 70)
    read, _ = paged.reported()
    assert "No plan was made:" in read.text
    assert "Why no strategy costs less" not in read.text


def leave_open(paged):
    """Has the first night's report leave open how many rows the derived views had, as one does that counts nothing before it."""
    file = paged.folder / "versions/1/report.txt"
    text = re.sub(r"^(sales|daily_by_\w+),\d+,", r"\1,,", file.read_text(), flags=re.MULTILINE)
    file.chmod(0o644)
    file.write_text(text)


def test_seconds_of_steps_are_shown_where_they_are_told(paged):
    assert "seconds" not in paged.reported()[0].text
    file = paged.folder / "versions/1/report.txt"
    file.chmod(0o644)
    file.write_text(file.read_text().replace("comp sales from lines: 16\n", "comp sales from lines: 16, 0.25 s\n"))
    assert "comp sales from lines 16 6 0.250 4 inst lines 6 6 0.000" in paged.reported()[0].text


def test_rows_that_nobody_counted_are_counted_by_a_night_without_changes(paged):
    leave_open(paged)
    read, _ = paged.reported()
    assert "sales derived 9 9 0 8" in read.text
    assert "all at once each view takes" in read.text


def test_without_a_program_they_are_left_open(paged):
    paged.answers(b"", 70)
    leave_open(paged)
    read, _ = paged.reported()
    assert "sales derived — 9 — 8" in read.text
    assert "No plan was made: nobody counted how many rows the derived views had before this night." in read.text
    assert "None" not in read.text


def test_a_report_is_made_of_versions_that_others_prune_meanwhile(paged):
    paged.put()
    paged.night("--keep", "1")
    read, _ = paged.reported(name="2.html")
    assert "Thursday" in read.text
    lost = "No rows are shown of sales, daily_by_product, daily_by_region : the version before is no longer there, or has other columns."
    assert lost in read.text


def test_a_catalogue_without_views_has_no_page(bare):
    (bare.folder / "catalogue.toml").write_text("view = []\n")
    for name in ("changes", "data"):
        shutil.rmtree(bare.folder / name)
    (bare.folder / "strategy.txt").unlink()
    bare.answers(b"work 0\nversion 1\n", 0)
    bare.night()
    assert bare.ran("report") == (3, [f"version 1 of {bare.folder} has no views, and no page"])


def night_by_another_catalogue(paged, *words):
    """A night after which one view has another row, another view another column, and a third one is as it was."""
    paged.edit("catalogue.toml", 'count = "lines"\nsum = [["pieces"', 'count = "n"\nsum = [["pieces"')
    text = ANSWER.read_text().removesuffix("status 0\n").replace("product,lines,", "product,n,")
    paged.answers(text.replace("Monday,south,1,2400", "Monday,south,1,2500").encode(), 0)
    paged.put()
    told = paged.night(*words)
    paged.answers_each()
    return told


def test_the_rows_of_views_that_were_computed_anew_are_compared_with_those_of_the_version_before(paged):
    night_by_another_catalogue(paged)
    report = (paged.folder / "current/report.txt").read_text()
    assert "\nsales,9,9,8\ndaily_by_product,,8,8\ndaily_by_region,6,6,8\n" in report
    assert not (paged.folder / "current/deltas").exists()
    read, _ = paged.reported(name="2.html")
    assert "The catalogue is another one than that of version 1, so each derived view was computed anew" in read.text
    assert "compares their tables with those of version 1." in read.text
    assert "sales derived 9 9 0 0 daily_by_product derived 8 8 0 16 daily_by_region derived 6 6 0 2" in read.text
    assert "Derived rows changed 18 of 23 before Derived views changed 2 of 3" in read.text
    assert "daily_by_region 2 rows differ" in read.text
    lost = "No rows are shown of daily_by_product : the version before is no longer there, or has other columns. Not changed: lines, products, sales ."
    assert lost in read.text
    assert "Views were computed anew in 2, where changed rows count by the definitions of then." in read.text
    rows = [version_row(paged.folder, number, 2, 2) for number in (1, 2)]
    assert ["computed anew" in row for row in rows] == [False, True]


def test_where_the_version_before_is_gone_what_differs_is_left_open(paged):
    night_by_another_catalogue(paged, "--keep", "1")
    read, _ = paged.reported(name="2.html")
    assert "is left open, since version 1 is no longer there." in read.text
    assert "sales derived — 9 — — daily_by_product derived — 8 — — daily_by_region derived — 6 — —" in read.text
    assert "Derived rows changed — now 23 Derived views changed — of 3" in read.text
    assert "No rows are shown of sales, daily_by_product, daily_by_region :" in read.text


def test_a_view_that_is_new_had_no_rows_before(paged):
    (paged.folder / "strategy.txt").unlink()
    with (paged.folder / "catalogue.toml").open("a") as file:
        file.write('\n[[view]]\nname = "colours"\ncolumns = ["name:text"]\n\n[[view]]\nname = "days"\nover = ["orders"]\ngroup = []\ncount = "n"\n')
    (paged.folder / "data").mkdir()
    (paged.folder / "data/colours.csv").write_text("name\nred\nblue\n")
    paged.put(b"#,name\n-1,red\n", "colours.csv")
    text = ANSWER.read_text().removesuffix("status 0\n")
    steps = "comp days from orders: 0\ninst colours: 1\ninst days: 0\nwork 99\n"
    paged.answers((text.replace("work 98\n", steps) + "view days\n#,n\n1,7\n").encode(), 0)
    paged.night()
    paged.answers_each()
    read, _ = paged.reported(name="2.html")
    assert "colours base 2 1 -1 1 days derived 0 1 +1 1" in read.text
    assert "colours 1 row differs before after name name red —" in read.text
    assert "days 1 row differs before after n n — 7" in read.text


def test_a_preview_beside_versions_has_its_page_too(paged):
    none = f"there is no preview in {paged.folder}; `whview folder night {paged.folder}` makes one"
    assert paged.ran("report", "new") == (3, [none])
    paged.put()
    assert paged.ran("night") == (0, [])
    paged.edit("catalogue.toml", 'name = "daily_by_region"', 'name = "by_region"')
    read, _ = paged.reported("new", name="preview.html")
    assert "shop, preview" in read.text
    assert "orders base 7 8 +1 1" in read.text
    assert "orders 1 row differs" in read.text
    assert "daily_by_region derived 6 6 0" in read.text
    assert "2 nights that are kept, 1 to preview." in read.text
    assert [path.name for path in (paged.folder / "reports").iterdir()] == ["preview.html"]


def test_the_time_of_the_whole_night_is_told(paged):
    took = r"It took [0-9]+\.[0-9]{2} s in all but for the end of writing, [0-9]+\.[0-9]{2} s of it in the program\."
    assert re.search(took, paged.reported()[0].text)


COLUMNS = [Column("id", Kind.INT), Column("name", Kind.TEXT)]


def test_tables_differ_in_the_rows_whose_counts_do():
    old = b'#,id,name\n1,1,jam\n2,2,"tea, black"\n1,3,"two\nlines"\n'
    new = b'#,id,name\n1,1,jam\n3,2,"tea, black"\n1,4,"two\n""lines"\n'
    found = report_rows.differences(old, new, COLUMNS)
    assert found == {(2, "tea, black"): [2, 3], (3, "two\nlines"): [1, 0], (4, 'two\n"lines'): [0, 1]}
    by_hand = b'\xef\xbb\xbfid,name\r\n2,"tea, black"\r\n1,jam\r\n+2,"tea, black"\r\n3,"two\nlines"\r\n'
    assert report_rows.differences(by_hand, new, COLUMNS) == found
    counted = b'\n"#",id,name\n1,1,jam\n2,2,"tea, black"\n1,3,"two\nlines"\n'
    assert report_rows.differences(counted, new, COLUMNS) == found
    returns = b'\rid,name\r2,"tea, black"\r\r1,jam\r+2,"tea, black"\r3,"two\nlines"\r'
    assert report_rows.differences(returns, new, COLUMNS) == found
    assert report_rows.differences(old, old, COLUMNS) == {}


def test_columns_that_were_other_ones_are_told_and_kinds_that_were_others_are_borne(kept):
    kept.more()
    kept.answers(b"", 70)
    file = kept.folder / "versions/1/data/orders.csv"
    file.chmod(0o644)
    text = file.read_text()
    file.write_text(text.replace("1,1,Monday", "1,one,Monday"))
    assert kept.ran("report") == (0, [])
    assert 'title="one"' in (kept.folder / "reports/2.html").read_text()
    file.write_text(text.replace("#,id,", "#,number,"))
    assert kept.ran("report") == (0, [])
    assert "No rows are shown of <code>orders</code>" in (kept.folder / "reports/2.html").read_text()


@draws(200)
def test_all_drawn_tables_have_their_differences(source):
    counts = {(number, f"n{number % 3}"): [source.randint(0, 2), source.randint(0, 2)] for number in range(source.randint(0, 9))}
    texts = []
    for side in (0, 1):
        lines = [f"{both[side]},{row[0]},{row[1]}\n" for row, both in counts.items() if both[side]]
        texts.append(("#,id,name\n" + "".join(lines)).encode())
    wanted = {row: both for row, both in counts.items() if both[0] != both[1]}
    assert report_rows.differences(*texts, COLUMNS) == wanted


@draws(200)
def test_tables_in_files_have_the_same_differences_however_few_lines_are_held(tmp_path, source):
    contents, files = [drawn_table(source) for _ in range(2)], [tmp_path / name for name in ("old", "new")]
    for file, content in zip(files, contents):
        file.write_bytes(content)
    with mock.patch.multiple(stored, HELD=source.choice([1, 3, 1000]), BLOCK=source.choice([4, 64, 1000])):
        found = report_rows.differing(*map(stored.Stored.of, files), COLUMNS)
    assert found == report_rows.differences(*contents, COLUMNS)


def drawn_table(source):
    """A table as a night writes it, or by hand, with a row that may stand twice."""
    rows = [f"{number},{source.choice(NAMES)}" for number in source.sample(range(9), source.randint(0, 6))]
    is_counted, end = source.random() < 0.6, source.choice(["\n", "\n", "\r\n", "\n\n"])
    if is_counted:
        return "".join(["#,id,name\n", *(f"{source.choice([1, 1, 2])},{row}\n" for row in rows)]).encode()
    rows += source.sample(rows, min(len(rows), source.choice([0, 0, 1])))
    return f"id,name{end}{end.join(rows)}{end * source.randint(0, 1)}".encode()


def test_a_summarys_row_stands_beside_that_of_its_group():
    found = {("a", 1): [1, 0], ("a", 2): [0, 1], ("b", 5): [1, 0], ("c", 5): [0, 1]}
    pairs = [((("a", 1), 1), (("a", 2), 1)), ((("b", 5), 1), None), (None, (("c", 5), 1))]
    assert report_rows.paired(found, 1) == pairs


def test_another_row_stands_beside_the_one_most_like_it():
    found = {(1, "a", 3): [1, 0], (1, "b", 4): [0, 1], (2, "a", 3): [0, 2], (9, "z", 9): [3, 4]}
    pairs = [(((1, "a", 3), 1), ((2, "a", 3), 2)), (None, ((1, "b", 4), 1)), (((9, "z", 9), 3), ((9, "z", 9), 4))]
    assert report_rows.paired(found, None) == pairs


def test_changes_are_told_where_the_table_of_before_is_gone(shop):
    file = shop.folder / "changes/products.csv"
    found = report_rows.of_changes([file, file], [("product", "text"), ("price", "int")])
    assert found[("jam", 450)] == [2, 0]
    file.write_bytes(b"\r#,product,price\r-1,jam,450\r")
    assert report_rows.of_changes([file], [("product", "text"), ("price", "int")]) == {("jam", 450): [1, 0]}


def night_of(planner):
    views = [SimpleNamespace(name=f"v{number}", over=[f"v{each}" for each in over]) for number, over in enumerate(planner.over)]
    sizes = {f"v{number}": Size(*size[:3]) for number, size in enumerate(planner.sizes)}
    return SimpleNamespace(views=views, told=SimpleNamespace(sizes=sizes))


def planned(catalogue):
    planner = Planner(catalogue.over, [size[:3] for size in catalogue.sizes], 1, 1)
    return planner, report_plans.Plan(planner.planned(None)[0], "certified")


def test_pairs_and_what_is_fixed_add_up_to_the_plans_work():
    source, count = random.Random(9), 0
    for _ in range(150):
        planner, plan = planned(drawn(source, 5))
        night = night_of(planner)
        if plan.scope == "all":
            lines = report_plans.pairs(night, plan)
            assert sum(report_plans.fixed_rows(night)) + sum(each.least for each in lines) == plan.work
            given = [line.split()[-1] for line in plan.text.splitlines() if line.startswith("pair ")]
            assert [str(each.least) for each in lines] == given
            assert f"<strong>{plan.work:,}</strong>" in by_pairs(night, plan)
            count += 1
    assert count > 100


def test_each_case_of_a_tree_is_told_with_its_bound():
    source, trees = random.Random(10), 0
    while trees < 12:
        planner, plan = planned(drawn_cyclic(source, 4))
        night = night_of(planner)
        if plan.scope == "one-way":
            count, lines = report_plans.tree_lines(night, plan)
            assert count == len(lines)
            cases = [case for deep, case, _ in lines if deep]
            assert all(re.fullmatch(r"v\d before v\d", case) for case in cases)
            assert len(cases) == len(lines) - 1
            bounds = [text for _, _, text in lines if text.startswith("In this case")]
            assert bounds or any("has no strategy" in text for _, _, text in lines)
            for text in bounds:
                assert int(text.split()[9].replace(",", "")) >= plan.work
            Page(page("a tree", by_tree(night, plan)))
            trees += 1


def test_the_report_of_a_night_is_read_whatever_stands_in_it():
    text = "strategy from x\ntime: 1.20 s\ncomp a from b c: 12\ninst a: 3, 0.2 s\nwork 15\nreader 0 version 1 rows 3\nview,pre,post,change\na,1,2,3\n"
    found = told(text)
    assert (found.how, found.strategy, found.rows) == ("strategy from x", "comp a from b c\ninst a\n", [12, 3])
    assert (found.seconds, found.time, found.anew) == ([None, 0.2], "1.20 s", "")
    assert (found.sizes, found.readers) == ({"a": Size(1, 2, 3)}, ["reader 0 version 1 rows 3"])


def test_what_a_plan_was_expected_to_cost_is_told_in_its_unit():
    for unit in ("", " by weight"):
        found = told(f"strategy: a plan of work 1200{unit}; certified\ninst a: 3\nwork 3\nview,pre,post,change\na,1,2,3\n")
        one = report_plans.Beside("this night", "", 3, "own")
        text = Page(page("plans", plans(SimpleNamespace(told=found), [one], report_plans.Plan()))).text
        assert f"were expected, and for these its work is 1,200{unit}." in text


def test_what_a_report_leaves_open_is_left_open():
    found = told("strategy view by view\ninst a: 3\nwork 3\nview,pre,post,change\na,1,2,3\nb,,7,4\n")
    assert found.sizes == {"a": Size(1, 2, 3), "b": Size(None, 7, 4)}
    assert found.changed(["a", "b"]) == 7
