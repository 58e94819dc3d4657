"""What docs/WAREHOUSE.md says of SQL and limits, tried as it is written, and the statuses of docs/OPERATING.md."""

import re
import sqlite3
from collections import Counter

import pytest

from whview import limits, status
from whview.catalogue import evaluator, formulas, from_toml as catalogue
from whview.catalogue.from_bundle import views_of
from whview.catalogue.from_toml import Catalogue
from whview.folder import command
from whview.folder.refusals import Tables
from whview.strategy import sizes

from .shop import ROOT

PAGE = (ROOT / "docs/WAREHOUSE.md").read_text()
BASES = """\
[[view]]
name = "orders"
columns = ["id", "day", "region:text"]
[[view]]
name = "lines"
columns = ["id", "pieces"]
"""
ORDERS = [(1, 20261101, "north"), (2, 20261101, "south"), (3, 20261102, "north"), (4, 20261103, "east"), (4, 20261103, "east")]
LINES = [(1, 2), (1, 2), (2, 5), (4, 1), (9, 9)]


def table(heading):
    """The rows of the first table below a heading, as cells."""
    lines = PAGE.partition(f"\n## {heading}\n")[2].partition("\n## ")[0].split("\n")
    rows = [re.split(r"(?<=[^|]) \| ", line[2:-2]) for line in lines if line.startswith("| ")]
    return rows[1:]


def test_the_page_has_its_queries():
    assert len(table("From SQL to the catalogue")) > 9


@pytest.mark.parametrize("query, keys", table("From SQL to the catalogue"))
def test_each_query_gives_the_rows_of_its_view(query, keys, tmp_path):
    database = sqlite3.connect(":memory:")
    database.execute("CREATE TABLE orders (id, day, region)")
    database.execute("CREATE TABLE lines (id, pieces)")
    database.executemany("INSERT INTO orders VALUES (?, ?, ?)", ORDERS)
    database.executemany("INSERT INTO lines VALUES (?, ?)", LINES)
    text = f'{BASES}[[view]]\nname = "v"\n' + "\n".join(re.findall("`([^`]*)`", keys)) + "\n"
    (tmp_path / "catalogue.toml").write_text(text)
    found, wanted = Catalogue(tmp_path), database.execute(re.match("`([^`]*)`", query)[1])
    assert (found.findings, [name for name, _ in found.views[2].columns]) == ([], [each[0] for each in wanted.description])
    assert Tables(views_of(text), lambda v: Counter([ORDERS, LINES][v])).of(2) == Counter(wanted)


def test_the_limits_are_those_of_the_tools():
    told = {what: [int(number.replace(",", "")) for number in re.findall("-?[0-9][0-9,]*", most)] for what, most in table("Limits")}
    numbers = [[limits.MOST], [catalogue.MOST_VIEWS], [catalogue.MOST_CHILDREN], [formulas.MOST_COLUMNS], [64], [formulas.DEEPEST]]
    numbers += [[catalogue.MOST_NESTED], [-formulas.MOST, formulas.MOST - 1], [evaluator.MOST_COUNT], [evaluator.MOST_ROWS]]
    numbers += [[sizes.MOST_ROWS], [sizes.MOST_WEIGHT]]
    assert list(told.values())[:12] == numbers
    assert formulas.NAME.fullmatch("n" * 64) and not formulas.NAME.fullmatch("n" * 65)
    options = {option: most for what, most in list(told.items())[12:] for option in re.findall("`(--[a-z-]+)`", what)}
    assert options == {option: [most] for option, (_, most) in command.RANGES.items()}


def test_each_status_stands_in_the_page_on_refusals_with_what_to_do():
    page = (ROOT / "docs/OPERATING.md").read_text()
    told = re.findall(r"^\| ([0-9, ]+) \| [^|]+ \| [^|]+ \| [^|]+ \|$", page, re.MULTILINE)
    wanted = [status.DONE, status.REFUSED, status.BAD_WORDS, status.BAD_INPUT, status.SPENT, status.NOT_WRITTEN, status.AT_WORK]
    assert told == [*map(str, [*wanted, status.NO_ANSWER]), "129, 130, 143"]
