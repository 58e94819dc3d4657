"""`read`: the rows of one version, all of them, a page, or those with a value; and versions that are held while they are read."""

import fcntl
import json
import os
import random
import re
import subprocess
from threading import Thread
from unittest import mock

import pytest

from whview.finding import Failure
from whview.folder import held, versions
from whview.folder.choosing import choice_of

from .shop import ROOT, SHOP, WHVIEW, carried_out
from .tables import CELLS, lines_of


def read(shop, *words):
    status, printed, told = carried_out(["read", shop.folder, *words])
    assert (status, told) == (0, "")
    return printed


def test_a_view_of_the_current_version_and_of_an_older_one(kept):
    kept.more()
    assert read(kept, "sales") == (kept.folder / "current/views/sales.csv").read_text()
    assert read(kept, "orders") == (kept.folder / "versions/2/data/orders.csv").read_text()
    assert read(kept, "orders", "--version", "1") == (kept.folder / "versions/1/data/orders.csv").read_text()
    first = '#,product,price\n1,bread,300\n1,jam,450\n1,"tea, black",800\n'
    assert read(kept, "products", "--version", "0") == first


def test_a_table_whose_lines_end_by_a_carriage_return_alone(shop):
    table = shop.folder / "data/products.csv"
    table.write_bytes(table.read_bytes().replace(b"\n", b"\r"))
    shop.night()
    assert read(shop, "products", "--version", "0", "--where", "price=450") == "#,product,price\n1,jam,450\n"


def test_rows_with_a_value_and_so_many_of_them(kept):
    jam = "#,day,product,lines,pieces,cost\n1,Monday,jam,1,1,475\n"
    assert read(kept, "daily_by_product", "--where", "product=jam") == jam
    tea = '#,id,product,pieces\n1,7,"tea, black",2\n1,5,"tea, black",2\n'
    assert read(kept, "lines", "--where", "product=tea, black", "--where", "pieces=+2") == tea
    assert read(kept, "lines", "--limit", "1").count("\n") == 2
    assert read(kept, "lines", "--limit", "0") == "#,id,product,pieces\n"


def test_rows_as_json(kept):
    found = json.loads(read(kept, "products", "--format", "json", "--limit", "2"))
    rows = [{"#": 1, "product": "bread", "price": 300}, {"#": 1, "product": "tea, black", "price": 800}]
    assert found == {"view": "products", "version": 1, "rows": rows}
    assert json.loads(read(kept, "products", "--format", "json", "--where", "price=1"))["rows"] == []


def test_the_commands_of_the_docs(kept):
    page = (ROOT / "docs/WAREHOUSE.md").read_text()
    commands = re.findall(r"`(?:whview folder )?(read shop [^`]*|init shop [^`]*)`", page)
    assert [command.split()[0] for command in commands] == ["read", "init"]
    ran = subprocess.run([WHVIEW, "folder", *commands[0].split()], cwd=kept.folder.parent, capture_output=True, text=True, check=True)
    assert len(ran.stdout.splitlines()) == 5
    words = [word if word in ("init", "shop") else SHOP / "data" / word for word in commands[1].split()]
    room = kept.folder.parent / "room"
    room.mkdir()
    ran = subprocess.run([WHVIEW, "folder", *words], cwd=room, capture_output=True, text=True, check=True)
    assert (room / "shop/catalogue.toml").is_file()


def test_what_there_is_not_is_told_in_one_line(shop):
    none = f"{shop.folder} has no version yet; `whview folder night {shop.folder} --commit` makes the first ones"
    assert shop.ran("read", "sales") == (3, [none])
    shop.night()
    has = "orders, lines, products, sales, daily_by_product, daily_by_region"
    cases = {
        ("sale",): (2, f"version 1 has no view 'sale'; it has {has}; did you mean sales?"),
        ("../data/orders",): (2, f"version 1 has no view '../data/orders'; it has {has}; did you mean orders?"),
        ("sales", "--version", "9"): (2, f"there is no version 9 in {shop.folder}; there are 0, 1"),
        ("sales", "--version", "../1"): (2, f"--version is a number from 0 to {2**63 - 1:,}, and not '../1'"),
        ("sales", "--limit", "-1"): (2, f"--limit is a number from 0 to {2**63 - 1:,}, and not '-1'"),
        ("sales", "--limit", "1" * 30): (2, f"--limit is a number from 0 to {2**63 - 1:,}, and not '{'1' * 30}'"),
        ("sales", "--limit", "1", "--limit", "2"): (2, "--limit stands twice"),
        ("sales", "--limit"): (2, "--limit wants a value"),
        ("sales", "--where", "day"): (2, "a column and its value are asked for as COLUMN=VALUE, or by !=, <, <=, > or >=, and not as 'day'"),
        ("sales", "--where", "dya=x"): (2, "sales has no column 'dya'; it has day, region, product, pieces, cost; did you mean day?"),
        ("sales", "--where", "cost=1.5"): (2, "cost is a whole number of 64 bits, and '1.5' is none"),
        ("sales", "--format", "xml"): (2, "--format is csv, json, jsonl, table or parquet, and not 'xml'"),
        (): (2, "read takes a folder and a view"),
    }
    for words, (status, line) in cases.items():
        assert carried_out(["read", shop.folder, *words]) == (status, "", f"{line}\n")


def test_a_stopped_night_and_one_at_work_are_no_hindrance(kept):
    kept.put()
    with kept.under_way("--commit"):
        assert read(kept, "orders") == (kept.folder / "versions/1/data/orders.csv").read_text()


def some(table, where=(), after=0, limit=None):
    return list(choice_of(table, where, after=after).rows(limit))


def test_pages_from_any_row_on_make_the_whole(table_of):
    source, count = random.Random(12), 3000
    for cells in (CELLS[:2] + CELLS[3:5], CELLS, ["x", "y"]):
        rows = [(number, source.choice(cells)) for number in range(count)]
        table = table_of(lines_of(rows, cells if len(cells) > 2 else []))
        for after in (0, 1, 99, 100, 1000, count - 1, count, 10**9, 5, 1500):
            found = some(table, (), after, 7)
            assert found == [(number + 1, (2, rows[number])) for number in range(after, min(after + 7, count))]
        assert [row for _, (_, row) in table.rows()] == rows
        assert len(table.marks) > 10


def test_a_table_of_a_first_version_is_read_as_it_was_written(table_of):
    table = table_of("\ufeffnumber,text\r\n1,a\r\n\r\n+2,b\r3,c\r\n")
    assert [each for _, each in table.rows()] == [(1, (1, "a")), (1, (2, "b")), (1, (3, "c"))]
    assert [each for _, each in some(table, ["number=2"])] == [(1, (2, "b"))]


def test_many_threads_share_a_table(table_of):
    rows = 4000
    table = table_of("#,number,text\n" + "".join(f"1,{number},t\n" for number in range(rows)))
    wrong = []

    def look(seed):
        source = random.Random(seed)
        for _ in range(10):
            after = source.randrange(rows)
            number, (_, row) = some(table, (), after, 1)[0]
            if (number, row[0]) != (after + 1, after):
                wrong.append((after, number, row))

    threads = [Thread(target=look, args=(seed,)) for seed in range(8)]
    for thread in threads:
        thread.start()
    for thread in threads:
        thread.join()
    assert (wrong, table.marks) == ([], sorted(table.marks))


def test_a_night_lets_a_held_version_stay_and_one_that_is_let_go_is_pruned(kept):
    with held.Held(kept.folder) as reader:
        assert reader.number == 1
        kept.put()
        kept.night("--keep", "1")
        assert kept.versions() == ["1", "2"]
    kept.more(b"#,id,day,region\n1,9,Friday,south\n", "--keep", "1")
    assert kept.versions() == ["3"]
    with pytest.raises(Failure):
        held.Held(kept.folder, 1)


def test_nobody_waits_for_a_version_that_is_being_removed(kept):
    handle = os.open(kept.folder / "versions/0", os.O_RDONLY)
    fcntl.flock(handle, fcntl.LOCK_EX)
    assert held.hold(kept.folder / "versions/0") is None
    os.close(handle)
    handle = held.hold(kept.folder / "versions/0")
    assert handle is not None
    os.close(handle)


def test_who_holds_a_version_alone_has_nobody_wait_for_long(kept):
    handle = os.open(kept.folder / "versions/1", os.O_RDONLY)
    fcntl.flock(handle, fcntl.LOCK_EX)
    told = (f"{kept.folder}/versions/1 is held by somebody alone; readers hold it by flock --shared",)
    with mock.patch.object(versions, "PATIENCE", 0.05):
        for hold in (lambda: versions.State(kept.folder), lambda: held.Held(kept.folder), lambda: held.Held(kept.folder, 1)):
            with pytest.raises(Failure) as found:
                hold()
            assert (found.value.status, found.value.lines) == (6, told)
    os.close(handle)
    assert versions.State(kept.folder).number == 1


def test_a_version_that_may_not_be_read_is_told_as_such(kept):
    with mock.patch.object(os, "open", side_effect=PermissionError(13, "Permission denied")):
        for hold in (lambda: versions.State(kept.folder), lambda: held.Held(kept.folder), lambda: held.Held(kept.folder, 1)):
            with pytest.raises(PermissionError):
                hold()


def test_a_version_that_goes_while_it_is_waited_for_is_none(kept):
    kept.more()
    version, handle = kept.folder / "versions/1", os.open(kept.folder / "versions/1", os.O_RDONLY)
    kept.turn_to(1)
    fcntl.flock(handle, fcntl.LOCK_EX)

    def turn(_):
        kept.turn_to(2)
        version.rename(version.with_name("1.gone"))

    with mock.patch.object(versions.time, "sleep", turn):
        assert versions.State(kept.folder).number == 2
    os.close(handle)
