"""The command lines of docs/WAREHOUSE.md below its head, each block as it is written, in the order of the page."""

import os
import re
import subprocess
from collections import Counter

import pytest

from trials.oracle.tables import bag_of

from .shop import NEXT, ROOT, rows_in

PAGE = (ROOT / "docs/WAREHOUSE.md").read_text()
# The walk through a catalogue in SQL is carried out by trials/run declared, which has the program that it needs.
WALKED = re.sub(r"^## A catalogue in SQL$.*?(?=^## )", "", PAGE, flags=re.MULTILINE | re.DOTALL)
OTHERS = b"#,id,product,pieces\n1,8,jam,4\n"
# What a block begins with that is no line of a shell that goes on by itself, or asks the program.
APART = ("cp -r examples/shop shop\n", "15 2 * * * ")


def blocks():
    found = re.findall(r"^```(\w*)\n(.*?)^```$", WALKED, re.MULTILINE | re.DOTALL)
    return [block for language, block in found if not language and not block.startswith(APART)]


@pytest.fixture
def shop(kept):
    kept.room = kept.folder.parent
    for name, content in (("orders.csv", NEXT), ("lines.csv", OTHERS)):
        (kept.room / name).write_bytes(content)
    rows = (kept.folder / "current/data/orders.csv").read_text().replace("#,", "").replace("\n1,", "\n")
    (kept.room / "today.csv").write_text(f"{rows}9,Friday,east\n")
    return kept


def does(shop, block):
    path = {**os.environ, "PATH": f"{ROOT}:{os.environ['PATH']}"}
    ran = subprocess.run(["bash", "-e", "-o", "pipefail", "-c", block], cwd=shop.room, capture_output=True, text=True, env=path)
    assert (ran.returncode, ran.stderr) == (0, "")
    return ran.stdout


def test_each_block_does_what_the_page_says(shop):
    put, copies, reads, export = blocks()
    assert does(shop, put) == "changes/orders.csv: 1 row of orders.csv\nchanges/lines.csv: 1 row of lines.csv\n"
    assert "nothing is changed" in does(shop, put)
    assert "again is made" in does(shop, copies)
    assert rows_in(shop.room / "again/changes") == rows_in(shop.folder / "changes")
    assert os.readlink(shop.room / "again/current") == "versions/1"
    assert does(shop, reads) == (shop.folder / "current/views/daily_by_region.csv").read_text()
    assert does(shop, export) == "changes/orders.1.csv: 1 row of standard input\n"
    given = Counter({("orders", ("9", "Friday", "east")): 1, ("orders", ("8", "Thursday", "south")): 1, ("lines", ("8", "jam", "4")): 1})
    assert rows_in(shop.folder / "changes") == given


def test_the_key_of_a_new_column_is_taken_as_it_is_written(shop):
    key = re.search(r"`(fill = [^`]+)`", PAGE)[1]
    shop.edit("catalogue.toml", 'columns = ["product:text", "price"]', f'columns = ["product:text", "price", "kind:text"]\n{key}')
    shop.night()
    assert {row[2] for row in bag_of((shop.folder / "current/data/products.csv").read_text())} == {"none"}
