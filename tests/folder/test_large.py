"""What takes long, and what is too large."""

import csv
import io
import shutil
import tempfile
import time
from pathlib import Path
from unittest import mock

import pytest

from whview import bundle, limits
from whview.finding import Failure
from whview.folder import carried, packing
from whview.folder.folder import Folder
from whview.folder.records import table_text

from .shop import SHOP


def test_sixty_million_bytes_are_packed_in_thrice_and_unpacked_in_twice_the_time_of_reading_them():
    table = b"#,x,t\n" + b'1,1234567,"a, b"\n' * 3_500_000
    assert len(table) > 59_000_000
    with tempfile.TemporaryDirectory() as room:
        (Path(room) / "data").mkdir()
        (Path(room) / "data/v.csv").write_bytes(table)
        packed = within(3, lambda: packing.pack(Path(room)), lambda: read(table))
    assert packed == b"@data v\n" + table
    unpacked = within(2, lambda: bundle.unpack(b"version 1\nview v\n" + table), lambda: read(table))
    assert unpacked == {"v": table}


def test_twice_as_many_wrong_cells_are_told_in_about_twice_the_time():
    with tempfile.TemporaryDirectory() as room:
        few, many = (shop_of(Path(room), lines) for lines in (25_000, 50_000))
        found = within(3, lambda: Folder(many).faults, lambda: Folder(few).faults)
    assert str(found[-1]) == "data/lines.csv:22:7: 49,980 more from here on are not told"


def shop_of(room, lines):
    folder = shutil.copytree(SHOP, room / str(lines))
    (folder / "data/lines.csv").write_text("id,product,pieces\n" + "1,jam,1.50\n" * lines)
    return folder


def within(times, run, measure):
    """What comes of it, which takes so many times what the measure takes at most. The seconds are the processor's, to which other
    work on the machine adds less than to those of the clock, and one of three runs has to be that fast."""
    for _ in range(3):
        allowed = times * timed(measure)[0]
        seconds, found = timed(run)
        if seconds < allowed:
            return found
    pytest.fail(f"each of three runs took more than {times} times the measure, the last {seconds:.2f} of {allowed:.2f} s")


FIRST = "data/lines.csv:1:1: "


CURE = "; put numbers in the place of long texts, have fewer columns, or keep the facts of several years in folders of their own"


def test_a_folder_of_seventy_six_million_bytes_is_refused_by_each_command(shop):
    (shop.folder / "data/lines.csv").write_bytes(b"id,product,pieces\n" + b"1,jam,1\n" * 9_500_000)
    files = "most of them are in data/lines.csv (76,000,018)"
    told = "the night's bundle has 76,001,686 bytes, which is 8,892,822 more than the 67,108,864 that the program takes"
    for words in (["lint"], ["night"], ["night", "--commit"], ["check"], ["plan"], ["pack"]):
        assert shop.ran(*words) == (3, [f"{FIRST}{told}; {files}{CURE}"])


def told_with(shop, most):
    folder = Folder(shop.folder)
    with mock.patch.object(limits, "MOST", most):
        return "".join(map(str, limits.after(limits.sizes_after(folder))))


def test_tables_that_could_not_be_read_again_after_the_night_are_told_before_it(shop):
    folder = Folder(shop.folder)
    tables = {view.name: table_text(view.columns, folder.rolled(view)) for view in folder.bases}
    after = sum(limits.part_size(f"data {name}", table) for name, table in tables.items())
    after += limits.part_size("catalogue", folder.catalogue.content)
    has = f"after this night the base tables and the catalogue have {after:,} bytes"
    told = f"catalogue.toml:1:1: {has}, which is 1 more than the {after - 1:,} that the program takes; most of them are in "
    assert told_with(shop, after - 1).startswith(told)
    assert told_with(shop, after) == f"catalogue.toml:1:1: warning: {has}, and the program takes {after:,} at most{CURE}"
    assert told_with(shop, after * 10 // 9 + 2) == ""
    with mock.patch.object(limits, "MOST", after - 1), pytest.raises(Failure) as refused:
        carried.judge_after(folder, True)
    assert refused.value.status == 3


def read(table):
    """How many rows Python's own reader finds."""
    return sum(1 for _ in csv.reader(io.StringIO(table.decode())))


def timed(run):
    """The processor's seconds for it, and what comes of it."""
    began = time.process_time()
    found = run()
    return time.process_time() - began, found
