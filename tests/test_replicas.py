"""What `whview cluster` says of replicas without a server: what stands in ZooKeeper, which tables are made, and which words are taken."""

import re
from tempfile import TemporaryDirectory

import pytest

from trials import pages
from trials.cluster.inputs import Folder, one_line
from upkeep.words import ROOT
from whview.cluster.agreed import PAYLOAD, AgreedVersions, judged
from whview.cluster.leftovers import alone, attaching, made_empty, taken_up
from whview.cluster.replicas import Replicas, is_given, judge_count, place_of
from whview.cluster.servers import Server, Told
from whview.cluster.versions import Version
from whview.finding import Failure
from whview.sql.catalogue import read
from whview.sql.clickhouse import ClickHouse
from whview.sql.tokens import sql

ADDRESSES = ("a1:8123", "a2:8123", "b1:8123", "b2:8123")


@pytest.fixture
def replicas():
    return Replicas(read(ROOT / "examples/shop"), [Server(each) for each in ADDRESSES], "w", 2, ["lines:id"])


@pytest.fixture
def warehouse(replicas):
    return replicas.of(replicas.servers, [replicas.servers[1], replicas.servers[2]], "mark")


def test_a_row_comes_out_of_zookeeper_as_it_went_in():
    row = Version(3, 2, "opened", "it's a night\\", (0, 4), (1,), (1,), ("b", "a"), 9, "FROM; UNION", (7,), 4, ("a view 1",), ("a",)).literals()
    said = ClickHouse().written([row])[0]
    # So the engine keeps a table's columns.
    kept = f"columns format version: 1\n1 columns:\n`row` String\tDEFAULT\t\\'{said.encode().hex()}\\'\n"
    assert judged(bytes.fromhex(PAYLOAD.search(kept)[1]).decode()) == said


def test_what_reads_a_table_is_no_row():
    for said in ("SELECT 1 FROM system.users", "SELECT 'a' AS b UNION ALL SELECT 2", "DROP TABLE a", "SELECT 'it\\'s', (SELECT x FROM y)", "SELECT 1; SELECT 2"):
        with pytest.raises(Failure):
            judged(said)


def test_each_server_has_a_table_of_its_shard(warehouse):
    made = warehouse.plain.tables_of_generation()[0]
    engines = [re.search(r"ENGINE = (\S+ \S+)", warehouse.written_for(server, made.said))[1] for server in warehouse.copies.all]
    assert engines == [f"ReplicatedMergeTree('/whview/mark/{shard}/~marks~0', '{own}')" for shard, own in ((0, 0), (0, 1), (1, 2), (1, 3))]


def test_a_server_starts_that_was_killed_in_an_insert(warehouse):
    said = [warehouse.written(made.said) for made in warehouse.plain.tables_of_generation(sql("SETTINGS fsync_after_insert = 1"))]
    ends = {each[each.index("SETTINGS ") :] for each in said}
    assert ends == {"SETTINGS replicated_max_ratio_of_wrong_parts = 1", "SETTINGS fsync_after_insert = 1, replicated_max_ratio_of_wrong_parts = 1"}


def test_rows_of_other_shards_come_from_those_that_are_asked(warehouse):
    view = warehouse.catalogue.names["sales"]
    said = warehouse.written(warehouse.script([0, 4]).contents(view).said)
    assert re.findall(r"cluster\('(\w+)', 'w', 'sales'\) WHERE \"~s\" IN \(([^)]*)\)", said) == [("w_2", "0, 4"), ("w_3", "0, 4")]


def test_a_statement_is_made_again_for_another_server(replicas):
    made = "CREATE TABLE w.`a~0` ( x Int64) ENGINE = ReplicatedSummingMergeTree('/whview/m/0/a~0', '0', `#`) ORDER BY x"
    assert replicas.numbered(made, replicas.servers[0], replicas.servers[1]) == made.replace("'0', `#`", "'1', `#`")


MADE = "CREATE TABLE w.`a~0` ( x Int64) ENGINE = ReplicatedSummingMergeTree('/whview/m/0/a~0', '0', `#`) ORDER BY x SETTINGS a = 1"
MARKS = "CREATE TABLE IF NOT EXISTS \"w\".\"~marks~0\" (x Int64) ENGINE = ReplicatedMergeTree('/whview/m/0/~marks~0', '0') ORDER BY x"


class Left(Server):
    """A server on which something is left of a table, whose statements are noted."""

    def __init__(self, *refused):
        super().__init__("a:1")
        self.said, self.refused = [], list(refused)

    def sent(self, said, *given, **more):
        self.said.append(said)
        if said.startswith("SELECT"):
            return b'{"data": [], "rows": 0}'
        if self.refused and (code := self.refused.pop(0)):
            raise Told(self, code, "left")
        return b""


def test_what_is_left_of_a_table_is_taken_up():
    assert attaching(MADE) == MADE.replace("CREATE TABLE", "ATTACH TABLE")
    assert attaching(MARKS).startswith('ATTACH TABLE "w"."~marks~0" (x Int64) ENGINE')
    assert alone(MADE) == "CREATE TABLE w.`a~0` ( x Int64) ENGINE = SummingMergeTree(`#`) ORDER BY x SETTINGS a = 1"
    assert alone(MARKS).endswith("ENGINE = MergeTree() ORDER BY x")
    server = Left(253)
    taken_up(server, MADE)
    assert server.said == [MADE, attaching(MADE)]


def test_a_table_is_made_anew_where_one_was_dropped_by_half():
    known, folder = Left(117), Left(117, 999)
    for server, made in ((known, MADE), (folder, MARKS)):
        made_empty(server, made)
    asked, *rest = (said for said in known.said if said.startswith(("SELECT", "DROP")))
    assert "WHERE database = 'w' AND table = 'a~0'" in asked and rest == ["DROP TABLE IF EXISTS w.`a~0`"]
    assert known.said[:2] == [MADE, attaching(MADE)] and known.said[-1] == MADE
    assert folder.said[2] == attaching(alone(MARKS)) and folder.said[-1] == MARKS
    with pytest.raises(Told):
        made_empty(Left(57), MADE)


def test_a_version_that_is_being_taken_away_is_gone(warehouse):
    versions, row = warehouse.versions, "SELECT 1 AS seq"
    columns = f"`row` String\tDEFAULT\t\\'{row.encode().hex()}\\'\n"

    def answering(replicas):
        return lambda said: [["columns", columns, 0], ["replicas", "", replicas]]

    assert isinstance(versions, AgreedVersions)
    for replicas, meant in ((0, row), (1, None)):
        versions.any_asked = answering(replicas)
        assert versions.payload("v", 3) == meant
        assert versions.stands("v", 3).row == row


def test_servers_are_shards_of_as_many():
    judge_count(4, 2)
    for servers, count in ((3, 2), (4, 0), (2, 4)):
        with pytest.raises(Failure):
            judge_count(servers, count)
    with TemporaryDirectory() as path:
        folder = Folder(path, ["127.0.0.1:1", "127.0.0.1:2", "127.0.0.1:3"], "w")
        assert one_line(folder.told("create", "--replicas", "2"), 2, "no shards of 2 each") == []
        assert one_line(folder.told("night", "--replicas", "2"), 2, "--replicas goes with create and config") == []


def test_the_page_has_what_config_prints():
    found = pages.blocks_of("CLUSTER.md")
    with pages.examples_in_folder() as folder:
        (folder / "shop").symlink_to(ROOT / "examples/shop")
        for said, meant in zip([each for each in found["sh"] if "cluster config" in each], found["xml"], strict=True):
            ran = pages.run(said, folder)
            assert (ran.stdout, ran.stderr, ran.returncode) == (meant, "", 0)


def test_who_may_only_read_is_asked_for_no_function_of_tables(replicas, warehouse):
    view = warehouse.catalogue.names["sales"]
    for server in replicas.servers:
        server.only_reads = True
    said = warehouse.written(warehouse.script([0, 4]).contents(view).said)
    assert "cluster(" not in said and 'FROM "w"."sales~every" WHERE "~s" IN (0, 4)' in said
    # Each of two shards brings a mark of each slot, or it raises.
    assert 'throwIf("~w" > 0 AND count() <> 2) = 0 AND "~w" = 0' in said


def test_readers_have_the_newest_version_by_zookeeper(warehouse):
    made = {said: warehouse.written(each) for v in range(len(warehouse.catalogue.views)) for said, each in warehouse.plain.readers_of(v)}
    assert "cluster(" not in "".join(made.values())
    assert "WHERE path = '/whview/mark/v' AND numChildren > 0" in made["sales~now"]
    assert "ENGINE = Distributed('w', 'w', 'sales~kept')" in made["sales~every"]
    assert "orders~every" not in made and '"w"."orders~kept"' in made["orders~now"]
    assert "'^(sales|~marks)~[0-9]+$'" in made["sales~kept"]


def test_a_server_that_comes_back_is_given_tables_in_their_order():
    assert [is_given(said) for said in ("a~0", "~v3~ab", "~marks", "a~now", "a~kept", "~d~a~0", "~x3~ab", "~y1", "~shown", "~w")] == [True] * 3 + [False] * 7
    kinds = ["CREATE VIEW w.v AS SELECT 1", "CREATE TABLE w.a ENGINE = Merge(x)", "CREATE TABLE w.b ENGINE = ReplicatedMergeTree(x)"]
    assert sorted(kinds, key=place_of) == kinds[::-1]
