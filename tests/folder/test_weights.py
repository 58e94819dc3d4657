"""Weights of a folder: given, judged and proposed; and what its shape is told to be."""

import shutil
from fractions import Fraction
from types import SimpleNamespace

import pytest

from trials.program.case_groups.sizes import texts
from whview.bundle import parts_of
from whview.folder import weights
from whview.folder.explain import Step
from whview.folder.given_sizes import GivenSizes
from whview.folder.sizes import Size
from whview.strategy.kinds import told, why

from .shop import ROOT, SIZES, carried_out

# A row of orders weighs 3, one of sales 5, and one of each other view 1.
WEIGHTED = (
    SIZES.replace("change\n", "change,weight\n").replace("5,7,2\n", "5,7,2,3\n").replace("7,9,6\n", "7,9,6,1\n").replace("3,4,3\n", "3,4,3,1\n")
    .replace("sales,7,9,8\n", "sales,7,9,8,5\n").replace("6,8,8\n", "6,8,8,1\n").replace("4,6,8\n", "4,6,8,1\n")
)
SEEN = "".join(f"1,{document},{100000 + 10 * document + visit}\n" for document in range(10, 16) for visit in range(10))
UNIFORM, NEITHER = "the shape is uniform: no plan needs a search", "the shape is neither a tree nor uniform: a plan may need a search"
LEVELS = "uniform: each view is over views of the level just below its own; base views are level 0"
NIGHT = "comp seen from documents: 104\ninst documents: 4\ncomp seen from visits: 16\ninst visits: 10\ninst seen: 40\nwork 174\nversion 1\n"


def printed(shop, *words):
    """What a command prints, and the lines on standard error."""
    status, printed, told = shop.said(*words)
    assert status == 0
    return printed, told


def test_weights_that_are_given(shop):
    (shop.folder / "sizes.csv").write_text(WEIGHTED)
    assert printed(shop, "sizes") == (WEIGHTED.splitlines(), ["sizes given in sizes.csv"])
    assert shop.ran("lint") == (0, [])
    steps = [line for line in printed(shop, "explain")[0] if not line.startswith(" ")]
    # 2 changed orders of weight 3, 7 old lines and 3 old products; then the 8 changed sales of weight 5
    assert (steps[0], steps[8]) == ("comp sales from orders: 12, 2 changed, by weight 16", "inst sales: 8, 8 changed, by weight 40")


def test_weights_that_are_wrong(shop):
    wrong = WEIGHTED.replace("orders,5,7,2,3", "orders,5,7,2,0").replace("lines,7,9,6,1", "lines,7,9,6,1001")
    wrong = wrong.replace("products,3,4,3,1", "product,3,4,3,x").replace("8,5\n", "8\n")
    (shop.folder / "sizes.csv").write_text(wrong)
    told = [
        'sizes.csv:2:1: "0" is not a weight, which is 1 to 1000', 'sizes.csv:3:1: "1001" is not a weight, which is 1 to 1000',
        'sizes.csv:4:1: "x" is not a weight, which is 1 to 1000', "sizes.csv:4:1: there is no view product; did you mean products?",
        "sizes.csv:5:1: this record has 4 cells and the header has 5", "sizes.csv:8:1: products has no record", "sizes.csv:8:1: sales has no record",
    ]
    assert shop.ran("lint") == (3, told)
    assert shop.ran("plan")[0] == 3


@pytest.mark.parametrize("bundle, status", [pytest.param(bundle, status, id=what) for what, bundle, _, status in texts()])
def test_a_finding_exactly_where_the_program_has_a_fault(shop, bundle, status):
    views = [SimpleNamespace(name=name) for name in "AB"]
    (shop.folder / "sizes.csv").write_text("\n".join([*parts_of(bundle)[0]["sizes"], ""]))
    assert bool(GivenSizes(shop.folder, views).findings) == (status == 3)


@pytest.mark.parametrize("header", ("view,pre,post,weight,change", "view,pre,post,change,weight,cost"))
def test_headers_that_are_none(shop, header):
    right = "view,pre,post,change or view,pre,post,change,weight"
    (shop.folder / "sizes.csv").write_text(WEIGHTED.replace("view,pre,post,change,weight", header))
    assert shop.ran("lint") == (3, [f"sizes.csv:1:1: the header is {right}; it is {header}"])


def test_a_row_weighs_as_many_as_it_has_cells(shop):
    (shop.folder / "sizes.csv").write_text(WEIGHTED)
    text, source = printed(shop, "sizes", "--weights", "cells")
    assert source == ["sizes given in sizes.csv; weights by cells"]
    cells = [("orders", 3), ("lines", 3), ("products", 2), ("sales", 5), ("daily_by_product", 5), ("daily_by_region", 4)]
    rows = [line.split(",") for line in SIZES.splitlines()]
    assert text == [",".join([*rows[0], "weight"]), *(f"{','.join(row)},{n}" for row, (_, n) in zip(rows[1:], cells))]


def test_a_row_weighs_as_its_bytes_beside_those_of_the_narrowest(shop):
    shutil.rmtree(shop.folder)
    shutil.copytree(ROOT / "examples/documents", shop.folder)
    shop.answers(f"{NIGHT}view seen\n#,document,visitor\n{SEEN}".encode(), 0)
    text, source = printed(shop, "sizes", "--weights", "bytes")
    assert source == ["sizes measured by a night that is not kept; weights by bytes"]
    # the program that stands here answers every night alike, so seen has the same rows before
    assert text[1:] == ["documents,10,6,4,20", "visits,100,90,10,1", "seen,60,60,40,1"]
    assert printed(shop, "sizes")[0][1:] == ["documents,10,6,4", "visits,100,90,10", "seen,60,60,40"]
    assert shop.ran("night", "--commit") == (0, [])
    shop.answers(b"", 0)
    text, source = printed(shop, "sizes", "--weights", "bytes")
    assert [line.rpartition(",")[2] for line in text[1:]] == ["20", "1", "1"]
    assert source == ["sizes from the change files and the last report; weights by bytes"]


def test_means_are_scaled_to_the_nearest_and_at_most_a_thousand():
    means = {"a": Fraction(10), "b": Fraction(14), "c": Fraction(15), "d": Fraction(9999), "e": Fraction(99999), "f": 0}
    assert weights.scaled(means) == {"a": 1, "b": 1, "c": 2, "d": 1000, "e": 1000, "f": 1}
    assert weights.scaled({"a": 0, "b": 0}) == {"a": 1, "b": 1}
    assert weights.scaled({}) == {}


def test_a_row_is_measured_as_csv_writes_it():
    rows = weights.rows_of(b'#,x,y\n3,1,"a,""b"\n1,1,\xc3\xa9\n')
    # 1,"a,""b" and a line end are 10 bytes, and 1 with a letter of two bytes 5
    assert weights.mean(rows) == Fraction(3 * 10 + 5, 4)


def test_words_that_mean_nothing(shop):
    assert shop.ran("sizes", "--weights", "byte") == (2, ["--weights is cells or bytes, and not 'byte'; did you mean bytes?"])
    assert shop.ran("lint", "--weights", "cells") == (2, ["lint has no option --weights"])


def test_a_report_has_rows_alone(shop):
    shop.program.write_text(
        f"#!/bin/sh\ncat >> {shop.program}.bundle\ncase $1 in\nplan) printf 'scope all\\nwork 0\\n'; cat {shop.folder}/strategy.kept;;\n"
        f"certify) echo certified;;\n*) cat {shop.program.parent}/answer;; esac\n"
    )
    (shop.folder / "strategy.txt").rename(shop.folder / "strategy.kept")
    (shop.folder / "sizes.csv").write_text(SIZES)
    assert shop.ran("night", "--weights", "cells")[0] == 0
    report = (shop.folder / "new/report.txt").read_text()
    assert "; weights by cells)" in report.partition("\n")[0]
    assert "\nview,pre,post,change\norders,5,7,2\n" in report
    assert b"@sizes\nview,pre,post,change,weight\norders,5,7,2,3\n" in (shop.program.parent / "program.bundle").read_bytes()


def test_what_a_shape_is_told_to_be(shop):
    words = ["lint", shop.folder]
    more = '[[view]]\nname = "more"\nover = ["orders", "sales"]\njoin = [["orders.id", "sales.pieces"]]\ngroup = []\ncount = "n"\n'
    told = f"{UNIFORM}\n    no tree: sales is under daily_by_product, daily_by_region\n    {LEVELS}\n"
    well = "6 views, 3 of them tables of 15 rows in all; 11 rows change in the next night\n"
    assert carried_out(words) == (0, f"{told}nothing is wrong: {well}", "")
    (shop.folder / "notes.txt").write_text("")
    status, printed, warned = carried_out(words)
    assert (status, printed, warned.count("\n")) == (0, f"{told}nothing is wrong but for 1 warning above: {well}", 1)
    (shop.folder / "changes/more.csv").write_text("")
    assert carried_out(words)[:2] == (3, told)
    (shop.folder / "changes/more.csv").unlink()
    with (shop.folder / "catalogue.toml").open("a") as catalogue:
        catalogue.write(more)
    not_uniform = "not uniform: more is over orders of level 0, sales of level 1; base views are level 0, and each other one is a level"
    told = [
        "no tree: orders is under sales, more",
        f"{not_uniform} above its highest",
        "that is no fault, and nothing has to be mended: the plan of least work is looked for longer",
    ]
    assert carried_out(words)[1] == "\n    ".join([NEITHER, *told]) + "\n"
    shop.edit("catalogue.toml", 'over = ["orders", "sales"]', 'over = ["orders", "sale"]')
    assert carried_out(words)[:2] == (3, "")


def test_the_words_for_each_kind():
    assert told([[], [], [0, 1]]) == "the shape is a tree and uniform: no plan needs a search"
    assert why([[], [], [0, 1]], ["A", "B", "V"]) == ["a tree: no view is under two others", LEVELS]
    assert told([[], [], [0], [2, 1]]) == "the shape is a tree: no plan needs a search"
    assert told([[], [], [0, 1], [0, 1]]) == UNIFORM
    assert told([[], [], [0, 1], [0, 2]]) == NEITHER


def test_a_graph_says_it_too(shop):
    (shop.folder / "sizes.csv").write_text(SIZES)
    assert shop.said("graph") == (0, [UNIFORM], [])
    assert f'  label="{UNIFORM}";\n' in (shop.folder / "graph.dot").read_text()
    assert ">The shape is uniform: no plan needs a search.<" in (shop.folder / "graph.svg").read_text()


def test_a_comp_from_two_views_counts_each_term_by_weight():
    views = [SimpleNamespace(name="A", over=[]), SimpleNamespace(name="B", over=[]), SimpleNamespace(name="V", over=["A", "B"])]
    strategy = SimpleNamespace(expressions=[("V", ["A", "B"])], views=views)
    step = Step(strategy, 0, {"A": Size(10, 12, 4, 10), "B": Size(100, 70, 30, 1), "V": Size(50, 44, 6, 1)})
    # changed A with old B, old A with changed B, and both changed: 104, 40 and 34 rows; 40 + 100, 100 + 30 and 40 + 30 by weight
    assert (step.rows(), step.work()) == (178, 340)
