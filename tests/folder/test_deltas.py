"""Nights of which the program prints the changes: what becomes of the views' files, and what is kept of the changes."""

import os
from pathlib import Path

import pytest

from .shop import ANSWER

HEAD = b"""comp sales from orders: 12
inst orders: 2
inst lines: 0
inst products: 0
inst sales: 2
inst daily_by_product: 0
inst daily_by_region: 4
work 20
version 1
"""
SALES = b"#,day,region,product,pieces,cost\n-1,Monday,north,jam,1,475\n1,Monday,north,jam,2,950\n"
REGION = b"#,day,region,lines,cost\n-1,Monday,north,3,1375\n1,Monday,north,3,1850\n1,Sunday,north,1,9\n-1,Tuesday,south,1,1200\n"
CHANGES = HEAD + b"changes sales\n" + SALES + b"changes daily_by_product\n#,day,product,lines,pieces,cost\nchanges daily_by_region\n" + REGION


@pytest.fixture
def shop(kept):
    """A shop with a night, whose program tells changes."""
    answers_with(kept, CHANGES)
    return kept


def answers_with(shop, changes):
    """Has the program answer with these changes where they are asked for, and note its words."""
    room = shop.program.parent
    (room / "changes").write_bytes(changes)
    shop.program.write_text(
        f'#!/bin/sh\ncat > /dev/null\necho "$@" >> {room}/words\ncase "$*" in\n*changes) cat {room}/changes;;\n*) cat {room}/answer;; esac\n'
    )


def words(shop):
    return (shop.program.parent / "words").read_text().splitlines()


def view(shop, name, version="current"):
    return shop.folder / version / f"views/{name}.csv"


def test_views_are_merged_and_what_changed_is_kept(shop):
    before = {name: view(shop, name).read_bytes() for name in ("sales", "daily_by_region")}
    assert shop.ran("night", "--commit", "--always") == (0, [])
    assert words(shop) == ["night --print changes"]
    assert view(shop, "sales").read_bytes() == before["sales"].replace(b"jam,1,475", b"jam,2,950")
    region = before["daily_by_region"].replace(b"Monday,north,3,1375", b"Monday,north,3,1850").replace(b"1,Tuesday,south,1,1200\n", b"")
    assert view(shop, "daily_by_region").read_bytes() == region + b"1,Sunday,north,1,9\n"
    assert view(shop, "daily_by_product").samefile(view(shop, "daily_by_product", "versions/1"))
    deltas = {path.name: path.read_bytes() for path in (shop.folder / "current/deltas").iterdir()}
    assert deltas == {"sales.csv": SALES, "daily_by_region.csv": REGION}
    assert not (shop.folder / "versions/1/deltas").exists()
    assert "\nsales,9,9,2\ndaily_by_product,8,8,0\ndaily_by_region,6,6,4\n" in (shop.folder / "current/report.txt").read_text()


def test_a_preview_has_the_same_tables(shop):
    assert shop.ran("night") == (0, [])
    assert b"\n1,Monday,north,jam,2,950\n" in (shop.folder / "new/sales.csv").read_bytes()
    assert (shop.folder / "new/daily_by_product.csv").read_bytes() == view(shop, "daily_by_product").read_bytes()


def test_tables_are_asked_for_where_a_view_has_not_the_rows_that_leave(shop):
    answers_with(shop, CHANGES.replace(b"jam,1,475", b"jam,1,476"))
    assert shop.ran("night", "--commit", "--always") == (0, [])
    assert words(shop) == ["night --print changes", "night"]
    assert view(shop, "sales").read_bytes() in ANSWER.read_bytes()
    assert not (shop.folder / "current/deltas").exists()


def test_tables_are_asked_for_where_a_view_has_not_as_many_rows_as_were_told(shop):
    file = view(shop, "daily_by_region").resolve()
    file.chmod(0o644)
    made = file.stat().st_mtime_ns
    lines = file.read_bytes().splitlines(keepends=True)
    file.write_bytes(b"".join(lines[:1] + [line for line in lines[1:] if b"Monday,south" not in line]))
    os.utime(file, ns=(made, made))
    assert len(file.read_bytes().splitlines()) < len(lines)
    # A version of before there were manifests does not tell what its files were.
    for manifest in [shop.folder / ".identity", *shop.folder.glob("versions/*/manifest.txt")]:
        manifest.unlink()
    taken = "versions/1 is of before versions had manifests: it is taken as it is, and vouches for itself from now on (manifest.txt)"
    assert shop.ran("night", "--commit", "--always") == (0, [taken])
    assert words(shop) == ["night --print changes", "night"]
    assert view(shop, "daily_by_region").read_bytes() in ANSWER.read_bytes()


def test_tables_are_asked_for_with_another_catalogue_and_where_a_view_is_missing(shop):
    shop.edit("catalogue.toml", "# A small shop", "# A shop")
    assert shop.ran("night", "--commit", "--always") == (0, [])
    Path(view(shop, "sales")).unlink()
    told = "this is not as its night made it: it is not there; all derived views are made anew"
    assert shop.ran("night", "--commit", "--always") == (0, [f"versions/2/views/sales.csv:1:1: warning: {told}"])
    assert words(shop) == ["night", "night"]
