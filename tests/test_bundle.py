"""Tests of `whview folder pack` and `unpack`: what a file's bytes become in a bundle, and what an answer's bytes become in files."""

import subprocess
import tempfile
import time
from pathlib import Path

import pytest

from whview import bundle
from whview.folder import packing

ROOT = Path(__file__).resolve().parents[1]


def packs(files):
    with tempfile.TemporaryDirectory() as name:
        folder = Path(name)
        for file, content in files.items():
            (folder / file).parent.mkdir(parents=True, exist_ok=True)
            (folder / file).write_bytes(content)
        return packing.pack(folder)


NIGHTS = {
    "strategy.txt": b"1\n", "changes/a.csv": b"2\n", "schedule.txt": b"s\n", "catalogue.toml": b"c\n", "nights/2/strategy.txt": b"5\n",
    "nights/1/strategy.txt": b"4\n", "nights/1/changes/a.csv": b"3\n",
}
PARTS = {
    "sizes.csv": b"s\n", "catalogue.toml": b"c\n", "strategy.txt": b"t\n", "plan.txt": b"p\n", "data/b.csv": b"2\n", "data/a.csv": b"1\n", "changes/a.csv": b"3\n",
}
# Files, and the bundle that they are packed to.
PACKED = {
    "parts under their headings": (PARTS, b"@catalogue\nc\n@data a\n1\n@data b\n2\n@changes a\n3\n@strategy\nt\n@sizes\ns\n@plan\np\n"),
    "further nights, which are folders": (NIGHTS, b"@catalogue\nc\n@changes a\n2\n@strategy\n1\n@schedule\ns\n@night\n@changes a\n3\n@strategy\n4\n@night\n@strategy\n5\n"),
    "a quoted cell whose second line begins with an at sign": ({"data/a.csv": b'x\n"one\n@two"\n'}, b'@data a\nx\n"one\n@@two"\n'),
    "carriage returns, which are kept": ({"data/a.csv": b"x\r\n1\r\n"}, b"@data a\nx\r\n1\r\n"),
    "a missing file, which is no part": ({"catalogue.toml": b"c\n"}, b"@catalogue\nc\n"),
    "an empty file, which is a part without lines": ({"catalogue.toml": b"c\n", "data/a.csv": b""}, b"@catalogue\nc\n@data a\n"),
    "a last line without a line feed": ({"catalogue.toml": b"c", "sizes.csv": b"s"}, b"@catalogue\nc\n@sizes\ns\n"),
}


@pytest.mark.parametrize("files, packed", PACKED.values(), ids=PACKED)
def test_what_files_are_packed_to(files, packed):
    assert packs(files) == packed


def test_files_of_other_names_are_named():
    files = ["catalogue.toml", "size.csv", "data/a.csv", "a.csv", "versions/1/data/b.csv", ".hidden"]
    files += ["nights/1/strategy.txt", "nights/1/sizes.csv", "nights/strategy.txt"]
    with tempfile.TemporaryDirectory() as name:
        folder = Path(name)
        for file in files:
            (folder / file).parent.mkdir(parents=True, exist_ok=True)
            (folder / file).touch()
        others = [str(path.relative_to(folder)) for path in packing.left_out(folder)]
    expected = ["a.csv", "nights/1/sizes.csv", "nights/strategy.txt", "size.csv"]
    assert others == expected


def test_the_shop_is_the_bundle_beside_it():
    examples = ROOT / "examples"
    assert packing.pack(examples / "shop") == (examples / "night_shop.bundle").read_bytes()


def test_tables_are_found_at_once_where_their_names_are_known():
    tables = {"a": b"#,x\n1,2\n", "b": b'#,t\n1,"two\nlines"\n', "c": b"#,x\n"}
    hidden = b'#,t\n1,"x\nview b\n#,t\n1,y"\n'
    for readers in (b"", b"reader 0 version 0 rows 3\nreader 1 version 0 rows 3\n"):
        for first in (tables["a"], hidden):
            listed = tables | {"a": first}
            answer = b"inst a: 1\nversion 1\n" + b"".join(b"view %s\n%s" % (name.encode(), text) for name, text in listed.items()) + readers
            for names in (["a", "b", "c"], ["a", "b"], []):
                found = {name: answer[start:end] for name, (start, end) in bundle.spans_of(answer, names).items()}
                assert found == listed
    assert bundle.spans_of(b"refused range a\n", []) == {}


QUOTED = b'#,x\n1,"one\nview w\nreader 0 ""quoted"""\n1,two\n'
# Answers of a night, and the tables in them.
UNPACKED = {
    "a table of each view": (b"comp v from a: 3\nwork 3\nversion 1\nview v\n#,x\n1,7\nview w\n#,y\nreader 0 version 0 rows 5\n", {"v": b"#,x\n1,7\n", "w": b"#,y\n"}),
    "a quoted cell whose second line reads as a view or a reader": (b"version 1\nview v\n" + QUOTED + b"view u\n#,y\n", {"v": QUOTED, "u": b"#,y\n"}),
    "a quoted cell whose second line begins with an at sign": (b'version 1\nview v\n#,x\n1,"one\n@two"\n', {"v": b'#,x\n1,"one\n@two"\n'}),
    "carriage returns in cells": (b'version 1\nview v\n#,x\n1,"one\r\nview w\r\n"\nview w\n#,y\n', {"v": b'#,x\n1,"one\r\nview w\r\n"\n', "w": b"#,y\n"}),
    "a table without rows": (b"version 1\nview v\n#,x\nview w\n#,y\n", {"v": b"#,x\n", "w": b"#,y\n"}),
    "a refusal, which has none": (b"refused absent a\nleft untouched\n", {}),
}


@pytest.mark.parametrize("answer, tables", UNPACKED.values(), ids=UNPACKED)
def test_the_tables_of_an_answer(answer, tables):
    assert bundle.unpack(answer) == tables


def test_an_unpacked_table_packs_as_the_data_of_a_view():
    table = b'#,x\n1,"one\n@two"\n2,"view v\nthree"\n'
    with tempfile.TemporaryDirectory() as name:
        folder = Path(name)
        (folder / "data").mkdir()
        for view, unpacked in bundle.unpack(b"version 1\nview v\n" + table).items():
            (folder / "data" / f"{view}.csv").write_bytes(unpacked)
        assert packing.pack(folder) == b'@data v\n#,x\n1,"one\n@@two"\n2,"view v\nthree"\n'


def test_ten_million_bytes_are_read_in_a_few_seconds():
    table = b"#,x\n" + b"1,1234567\n" * 1_000_000
    began = time.process_time()
    assert bundle.unpack(b"version 1\nview v\n" + table) == {"v": table}
    assert time.process_time() - began < 20


def test_the_shops_answer_gives_its_three_views():
    answer = (ROOT / "examples/night_shop.answer").read_bytes()
    tables = bundle.unpack(answer.removesuffix(b"status 0\n"))
    assert list(tables) == ["sales", "daily_by_product", "daily_by_region"]
    assert tables["daily_by_region"].splitlines()[::6] == [b"#,day,region,lines,cost", b"1,Wednesday,south,1,1600"]


def unpacks(answer):
    """The status, what was printed on both outputs, and the files that were made, or None where there is no folder."""
    with tempfile.TemporaryDirectory() as name:
        folder = Path(name) / "new_tables"
        ran = subprocess.run([ROOT / "whview", "folder", "unpack", folder], input=answer, capture_output=True)
        made = {path.name: path.read_bytes() for path in folder.iterdir()} if folder.is_dir() else None
    return ran.returncode, ran.stdout, ran.stderr, made


# What is told of an answer without tables: its first line.
CASES = {
    b"fault part catalogue\n": b"fault part catalogue\n", b"refused absent orders\nleft untouched\n": b"refused absent orders\n", b"broken S4 at 2\n": b"broken S4 at 2\n",
    b"correct\nwork 154\n": b"correct\n", b"memory\n": b"memory\n", b"cut": b"cut\n", b"": b"whview folder: this answer is empty\n",
}


@pytest.mark.parametrize("answer, said", CASES.items())
def test_of_an_answer_without_tables_the_first_line_is_printed_and_no_file_is_made(answer, said):
    assert unpacks(answer) == (3, b"", said, None)


def test_tables_are_files_and_nothing_is_printed():
    answer = b"version 1\nview v\n#,x\n1,7\nview w\n#,y\n"
    assert unpacks(answer) == (0, b"", b"", {"v.csv": b"#,x\n1,7\n", "w.csv": b"#,y\n"})
