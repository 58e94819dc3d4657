"""Why a night is refused, where the program names the view alone: the expression and the rows that lead there."""

import pytest

SUMMARY = '[[view]]\nname = "s"\nover = ["a"]\ngroup = [["g", "a.g"]]\ncount = "n"\nsum = [["t", {}]]\n'
BASE = '[[view]]\nname = "a"\ncolumns = ["x", "g:text"]\n'


def lay(shop, catalogue, tables, changes, answer):
    """A folder of these tables and changes, whose night is answered so."""
    for kind in ("data", "changes"):
        for file in (shop.folder / kind).iterdir():
            file.unlink()
    (shop.folder / "strategy.txt").unlink()
    (shop.folder / "catalogue.toml").write_text(catalogue)
    for name, text in tables.items():
        (shop.folder / f"data/{name}.csv").write_text(text)
    for name, text in changes.items():
        (shop.folder / f"changes/{name}.csv").write_text(text)
    shop.answers(answer, 1)


def judge(shop, *told):
    """A night is refused by these lines; warnings of the catalogue come before the program's words."""
    first = (shop.program.parent / "answer").read_text().splitlines()
    warnings = [line for line in told if " warning: " in line]
    assert shop.ran("night") == (1, [*warnings, *first, *(line for line in told if line not in warnings)])


def test_an_expression_that_leaves_64_bits(shop):
    tables = {"a": "x,g\n7,low\n5000000000,high\n"}
    lay(shop, BASE + SUMMARY.format('["+", 1, ["*", "a.x", "a.x"]]'), tables, {}, b"refused range s\n")
    judge(shop, "catalogue.toml:9:14: s: t leaves 64 bits at 5000000000 * 5000000000, of these rows:", "    data/a.csv:3:1: 5000000000,high")


def test_a_row_that_comes_in_the_night(shop):
    changes = {"a": "#,x,g\n1,-5000000000,new\n"}
    lay(shop, BASE + SUMMARY.format('["*", "a.x", "a.x"]'), {"a": "x,g\n7,low\n"}, changes, b"refused range s\nleft given-up\n")
    judge(shop, "catalogue.toml:9:14: s: t leaves 64 bits at -5000000000 * -5000000000, of these rows:", "    changes/a.csv:2:1: -5000000000,new")


def test_a_sum_that_leaves_64_bits(shop):
    most = 2**63 - 1
    tables = {"a": f'x,g\n{most},"low, or so"\n1,high\n9,"low, or so"\n2,"low, or so"\n'}
    lay(shop, BASE + SUMMARY.format('"a.x"'), tables, {}, b"refused range s\n")
    judge(
        shop,
        f"catalogue.toml:9:14: s: t of g low, or so leaves 64 bits: it would be {most + 11}, and these rows add most:",
        f'    data/a.csv:2:1: {most},"low, or so"',
        '    data/a.csv:4:1: 9,"low, or so"',
        '    data/a.csv:5:1: 2,"low, or so"',
    )


def test_a_joined_view_over_a_derived_one(shop):
    joined = '[[view]]\nname = "j"\nover = ["s", "b"]\njoin = [["s.g", "b.g"]]\nkeep = [["g", "s.g"], ["p", ["*", "s.t", "b.y"]]]\n'
    catalogue = f'{BASE}[[view]]\nname = "b"\ncolumns = ["g:text", "y"]\n{SUMMARY.format(chr(34) + "a.x" + chr(34))}{joined}'
    tables = {"a": "x,g\n4000000000,k\n4,l\n", "b": "g,y\nl,5000000000\nk,9\n"}
    changes = {"b": "#,g,y\n-1,k,9\n1,k,5000000000\n"}
    lay(shop, catalogue, tables, changes, b"refused range j\nleft given-up\n")
    judge(
        shop,
        "catalogue.toml:17:29: j: p leaves 64 bits at 4000000000 * 5000000000, of these rows:",
        "    s: k,1,4000000000",
        "    changes/b.csv:3:1: k,5000000000",
    )


def test_rows_that_meet_on_the_way_alone(shop):
    joined = '[[view]]\nname = "j"\nover = ["a", "b"]\nkeep = [["p", ["*", "a.x", "b.y"]]]\n'
    catalogue = f'{BASE}[[view]]\nname = "b"\ncolumns = ["y"]\n{joined}'
    tables = {"a": "x,g\n5000000000,k\n", "b": "y\n1\n"}
    changes = {"a": "#,x,g\n-1,5000000000,k\n", "b": "#,y\n1,5000000000\n"}
    lay(shop, catalogue, tables, changes, b"refused range j\nleft given-up\n")
    judge(
        shop,
        "catalogue.toml:7:1: warning: j is over 2 views without a join: every row meets every row",
        "catalogue.toml:10:15: j: p leaves 64 bits at 5000000000 * 5000000000, of these rows:",
        "    data/a.csv:2:1: 5000000000,k",
        "    changes/b.csv:2:1: 5000000000",
    )


def test_sizes_whose_product_is_too_large(shop):
    joined = '[[view]]\nname = "j"\nover = ["a", "b"]\njoin = [["a.x", "b.y"]]\nkeep = [["x", "a.x"]]\n'
    catalogue = f'{BASE}[[view]]\nname = "b"\ncolumns = ["y"]\n{joined}'
    tables = {"a": "#,x,g\n300000000,1,k\n", "b": "#,y\n300000000,1\n"}
    lay(shop, catalogue, tables, {"b": "#,y\n-100,1\n"}, b"refused large j\n")
    product = f"{300_000_000 * 300_000_100:,}"
    judge(
        shop,
        "catalogue.toml:9:1: j: a has 300,000,000 rows, b has 300,000,100 rows, those that change with them; "
        f"multiplied they are {product}, and {2**56:,} is the most; join fewer of them in one view",
    )


def test_a_row_that_counts_too_often(shop):
    tables = {"a": f"#,x,g\n{2**62},1,k\n"}
    lay(shop, BASE, tables, {"a": f"#,x,g\n{2**62},1,k\n"}, b"refused large a\nleft untouched\n")
    judge(shop, f"catalogue.toml:2:1: a: the row 1,k at data/a.csv:2:1 would count {2**63} times; {2**63 - 1} is the most")


@pytest.mark.parametrize("word", ["refused range s", "refused large s", "refused range t", "refused absent a", "broken S1 at 2"])
def test_what_cannot_be_found_is_the_programs_own_word(shop, word):
    lay(shop, BASE + SUMMARY.format('"a.x"'), {"a": "x,g\n7,low\n"}, {}, f"{word}\n".encode())
    judge(shop)
