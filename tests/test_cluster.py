"""What `whview cluster` does without a server: words, what goes over, and answers that are no answers."""

import itertools
import os
import re
import subprocess
import sys
from pathlib import Path
from tempfile import TemporaryDirectory
from types import SimpleNamespace

import pytest

from trials.cluster import scenarios
from trials.cluster.inputs import Folder, of_explained, one_line
from trials.sql import lexed
from upkeep.words import ROOT
from whview.cluster.carrying import tsv
from whview.cluster.command import password
from whview.cluster.making import durable
from whview.cluster.servers import Lost, Server, Told
from whview.cluster.status_of import OfServer, Status
from whview.cluster.status_page import age, page
from whview.cluster.streaming import CELLS, are_numbers, lines_of, plain, record_of
from whview.cluster.versions import REMEMBERED, Stage, Version, stage_of
from whview.finding import Failure
from whview.sql.catalogue import read
from whview.sql.clickhouse import ClickHouse
from whview.sql.slots import Slot, Slots, split_of
from whview.sql.steps import Steps
from whview.sql.tokens import name, sql, text

SHOP = ROOT / "examples/shop"


@pytest.fixture
def catalogue():
    return read(SHOP)


@pytest.fixture
def slots(catalogue):
    return Slots(catalogue, ClickHouse("w", "three"), split_of(catalogue, ["lines:id"]), [0, 4], Slot(7, 2), 3)


def test_texts_and_names_are_read_back():
    dialect = ClickHouse()
    for letters in ("a'b", 'a"b', "a\\b", "tab\tline\n\r\b\f", "it's \\N", "ÿ"):
        said = text(letters)
        assert lexed.mistakes(dialect, [said]) == []
    assert dialect.written([sql("SELECT {n}", n=name('a"b\\c'))]) == ['SELECT "a\\"b\\\\c"']


def test_rows_lie_where_they_should(catalogue, slots):
    views = {view.name: v for v, view in enumerate(catalogue.views)}
    shared = {said: slots.is_shared(v) for said, v in views.items()}
    assert shared == {"orders": False, "lines": True, "products": False, "sales": True, "daily_by_product": True, "daily_by_region": True}
    assert slots.is_partial(views["daily_by_region"]) and not slots.is_partial(views["sales"])


def test_a_night_reads_the_state_that_its_strategy_says(catalogue, slots):
    steps = slots.steps.night(catalogue.correct())
    comps = [slots.dialect.written([made.said])[0] for step in steps if step.kind == "comp" for made in slots.comp(step)]
    first, second = comps[:2]
    assert 'IN (0, 4, 7) AND "~c1"' not in first
    assert re.search(r'"w"\."orders" WHERE "~s" IN \(0, 4, 7\)', second)


def test_an_opening_goes_through_the_child_of_the_most_rows(catalogue, slots):
    sales = catalogue.names["sales"]
    children = [catalogue.views[u].name for u in catalogue.views[sales].over]
    step = next(step for step in slots.steps.opening() if step.view == sales)
    for largest in children:
        rows = [9 if view.name == largest else 5 for view in catalogue.views]
        script = Slots(catalogue, ClickHouse("w"), rows=rows)
        said = script.dialect.written([script.comp(step)[0].said])[0]
        assert re.findall(r'FROM "w"\."(\w+)"', said)[0] == largest


def test_a_change_of_few_rows_is_held_in_memory_and_a_large_table_is_gone_through(catalogue):
    products, sales = catalogue.names["products"], catalogue.names["sales"]
    steps = [step for step in Steps(catalogue.views).night(catalogue.correct()) if step.kind == "comp" and step.view == sales]
    step = next(step for step in steps if any(operand.is_change and operand.view == products for operand in step.terms[0]))

    def read(lines):
        script = Slots(catalogue, ClickHouse("w"), rows=[lines if view.name == "lines" else 10 for view in catalogue.views])
        script.changed = [2] * len(catalogue.views)
        return re.findall(r'FROM "w"\."(\w+)"', script.dialect.written([script.comp(step)[0].said])[0])

    # Of many lines those are gone through that have one of the products, and the few orders are read whole; of few the orders that such lines have.
    assert read(10**6) == ["lines", "products", "products", "orders"]
    assert read(20) == ["lines", "products", "products", "orders", "lines", "products"]


def test_an_operand_is_after_its_inst(catalogue):
    found = [step for step in Steps(catalogue.views).night(catalogue.correct()) if step.kind == "comp"]
    assert [operand.is_after for operand in found[1].terms[0]] == [True, False, False]


def test_a_fold_counts_rows_without_adding_them_up_one_by_one(catalogue, slots):
    for v in range(len(catalogue.views)):
        said = slots.dialect.written([slots.total(v).said])[0]
        assert ("GROUP BY" in said) == slots.shape.is_summary(v)


def test_the_command_prints_them():
    with TemporaryDirectory() as path:
        assert of_explained(Folder(path, ["a:1"], "w").path) == []
    said = subprocess.run(
        [ROOT / "whview", "sql", "create", "--engine", "clickhouse", "--shard", "lines:id", SHOP], capture_output=True, text=True, check=True
    ).stdout
    assert "ENGINE = Distributed('whview', 'whview', 'lines~0', cityHash64(\"~c1\"))" in said
    refused = subprocess.run([ROOT / "whview", "sql", "night", "--shard", "lines:id", SHOP], capture_output=True, text=True)
    assert (refused.returncode, refused.stderr) == (1, "whview sql: --shard and --cluster go with --engine clickhouse\n")


def test_a_table_is_as_durable_as_its_server_can_have_it(slots):
    def has(*names):
        return SimpleNamespace(asked=lambda _: [[each] for each in names])

    settings = durable(has("index_granularity", "fsync_after_insert", "fsync_part_directory", "min_rows_to_fsync_after_merge"))
    said = slots.dialect.written([slots.own_table(0, settings)])[0]
    assert said.endswith(" SETTINGS fsync_after_insert = 1, fsync_part_directory = 1, min_rows_to_fsync_after_merge = 1")
    assert not durable(has("index_granularity"))


def test_rows_go_over_with_escapes():
    assert tsv([((1, "a\tb\\c\nd\0"), -2)]) == b"1\ta\\tb\\\\c\\nd\\0\t-2\n"


def test_lines_of_numbers_are_those_that_an_expression_says():
    cells = ["0", "1", "-1", "10", "-10", "9" * 18, "-" + "9" * 18, "9" * 19, "", "-", "-0", "00", "01", "-01", "--1", "1-", "1-1", "+1", " 1", "1 ", "1.5", "a", "\u0661", "1\r"]
    for width, expression in ((1, CELLS["int"]), (2, CELLS["int"] + b"," + CELLS["int"])):
        lines = re.compile(b"(?:" + expression + b"\n)*")
        for several in itertools.product(cells, repeat=2):
            for said in (",".join(several), ",".join([*several, "5"]), "\n".join(several), ",".join(several) + "\n" + ",".join(several)):
                for piece in (said.encode() + b"\n", said.encode()):
                    assert are_numbers(width, piece) == bool(lines.fullmatch(piece)), (width, piece)


def test_a_file_that_is_written_into_meanwhile_is_told(catalogue):
    with TemporaryDirectory() as path:
        file, view = Path(path) / "lines.csv", catalogue.views[catalogue.names["lines"]]
        header, row = ",".join(name for name, _ in view.columns), ",".join("7" for _ in view.columns)
        file.write_text(f"{header}\n{row}\n{row}\n")
        found = plain(file, view)
        assert found.rows == 2 and [batch.counted for batch in found.batches()] == [2]
        for said in (f"{row}\n{row.replace('7', '8')}\n", f"{row}\n", f"{row}\n{row}\n{row}\n", ""):
            file.write_text(f"{header}\n{said}")
            with pytest.raises(Failure, match="somebody writes"):
                list(found.batches())


def test_an_answer_becomes_records_as_it_comes():
    blocks = [b"1\ta\t2\n3\t", b"b,\\t\\n\"\t1\n", b"4\tc\t", b"5"]
    assert list(lines_of(blocks)) == [b"1\ta\t2\n", b'3\tb,\\t\\n"\t1\n', b"4\tc\t5"]
    assert record_of(b"1\ta\t2\n", 2, False) == ("2,1,a\n", 2)
    assert record_of(b'3\tb,\\t\\n"\t1\n', 2, False) == ('1,3,"b,\t\n"""\n', 1)
    assert record_of(b"1\ta\t2\n", 3, True) == ("1,1,a,2\n", 1)
    assert record_of(b"1\ta\n", 2, False) is None


def test_what_is_no_answer_is_no_rows():
    assert scenarios.wrong_answers() == []


def test_a_version_is_read_back():
    made = Version(3, 2, "opened", "night", (0, 4), (1, 2**70), (1, 2**70), ("b", "a"), 9, "", (7, 2**64 - 1), 4, ("a view 1",), ("a",))
    row = ["3", "2", "opened", "night", ["0", "4"], ["1", str(2**70)], ["1", str(2**70)], ["b", "a"], "9", "", ["7", str(2**64 - 1)], "4", ["a view 1"], ["a"]]
    assert Version.of(row) == made
    assert REMEMBERED > 9
    written = ClickHouse().written([made.literals()])[0]
    assert len(re.findall(r" AS (\w+)", written)) == len(Version._fields)


def test_what_no_server_answers_is_not_known():
    for status, content in ((502, b""), (504, b"<html>Gateway Time-out</html>"), (302, b"elsewhere")):
        with pytest.raises(Lost):
            Server("127.0.0.1:1").judged(status, content)
    with pytest.raises(Told):
        Server("127.0.0.1:1").judged(500, b"Code: 57. DB::Exception: Table w.`~v3` already exists. (TABLE_ALREADY_EXISTS) (version 23.8.1)")


PAGE = """\
version 4, opened: made by night, 3 minutes ago (2026-12-01 05:00:00 UTC)
it has 3 slots; 5 versions are kept

view  rows
----  ----
a        4
sold    12

server  answers  release  marks  slots  parts  lacks
------  -------  -------  -----  -----  -----  --------------------------------------------------------
a:8123  yes      18.16.1      3      3      7  a:8123 has no mark of slots [4], which the version lists
b:8123  no

at work: nobody
pinned: nothing
behind:
    b:8123 does not answer
"""


def test_how_a_warehouse_stands_is_read_by_people():
    servers = [OfServer("a:8123", True, "18.16.1", ["a:8123 has no mark of slots [4], which the version lists"], 3, 3, 7), OfServer("b:8123")]
    found = Status(
        4, "opened", 3, "night", 1796101200, 200, 3, {"a": 4, "sold": 12}, 5, None, [], [], [], 0, servers, ["b:8123 does not answer"],
    )  # fmt: skip
    assert "".join(page(found)) == PAGE
    assert [age(seconds) for seconds in (0, 1, 90, 130, 7300, 200000)] == ["0 seconds ago", "1 second ago", "90 seconds ago", "2 minutes ago", "2 hours ago", "2 days ago"]


def test_words_that_are_wrong_get_one_line():
    with TemporaryDirectory() as path:
        folder = Folder(path, ["127.0.0.1:1"], "w")
        cases = [
            (folder.told("read"), 2, "read takes a view"),
            (folder.told("sweep", "--keep", "1y"), 2, "--keep TIME"),
            (folder.told("night", servers=["a:1", "a:1"]), 2, "stands twice"),
            (folder.told("night", servers=["a:99999"]), 2, "HOST:PORT"),
            (folder.told("night", "--ca", "x"), 2, "--ca goes with --https"),
            (folder.told("night", "--seconds", "0"), 2, "--seconds"),
            (folder.told("night", "--seconds", str(10**12)), 2, "--seconds"),
            (folder.told("night", more=["--user", "two\nlines"]), 2, "--user"),
            (folder.told("night", more=["--database", "a.b"]), 2, "without a full stop"),
            (folder.told("night", more=["--database", "two\nlines"]), 2, "--database"),
            (folder.told("night", more=["--cluster", ""]), 4, "no whole answer came"),
            (folder.told("night", servers=["a..b:1"]), 4, "no whole answer came"),
            (folder.told("night", servers=["a" * 70 + ":1"]), 4, "no whole answer came"),
            (folder.told("fold", "--version", "1"), 2, "--version goes with read"),
            (folder.told("status", "--format", "xml"), 2, "--format is text or json"),
            (folder.told("night", "--format", "json"), 2, "--format goes with status"),
            (folder.told("night"), 4, "no whole answer came"),
        ]
        wrong = [each for found, *meant in cases for each in one_line(found, *meant)]
        folder.write("catalogue.toml", "[[view]]\nname = 7\n")
        wrong += one_line(folder.told("night"), 3, "catalogue.toml")
        (folder.path / "catalogue.toml").unlink()
        wrong += one_line(folder.told("night"), 3, "there is no catalogue.toml")
    assert wrong == []


def test_where_the_server_cannot_be_had_its_parts_are_skipped():
    with TemporaryDirectory() as path:
        ran = subprocess.run([sys.executable, ROOT / "trials/run", "cluster"], capture_output=True, text=True, env={"PATH": path})
    told = "cluster: 17 parts skipped: there is no clickhouse-server here and it could not be installed; 0 failed\n"
    assert (ran.stdout, ran.stderr, ran.returncode) == (told, "", 0)


def test_a_password_is_nobody_elses():
    with TemporaryDirectory() as path:
        file = Path(path) / "password"
        file.write_text("secret\n")
        os.chmod(file, 0o640)
        with pytest.raises(Failure):
            password(file)
        os.chmod(file, 0o600)
        assert password(file) == "secret"


def test_a_stage_that_no_warehouse_has_is_refused():
    assert [stage_of(stage.value) for stage in Stage] == list(Stage)
    with pytest.raises(Failure, match="no stage of a warehouse"):
        stage_of("halfway")
