"""Tables by their lines: what is seen at once, merged and compared is what a look at each record gives."""

import csv
import io
import random
from collections import Counter
from types import SimpleNamespace
from unittest import mock

import pytest

from trials.drawn.shrunk import draws
from whview import disk, program
from whview.folder import by_lines, records as read
from whview.folder.by_lines import counted, has_whole_lines, row_of
from whview.folder.inputs import Source
from whview.folder.made import Printed
from whview.folder.records import Changes, Records, absent, table_text

COLUMNS = [("x", "int"), ("t", "text"), ("u", "text")]
TEXTS = ["oak", "elm, old", 'the "ash"', "", " fir", "Bäume", "view v", "7"]
WITH_LINE_ENDS = [*TEXTS, "two\nlines", "back\r", '"', "1,2,a"]


def line_of(count, row):
    return b"%d,%s\n" % (count, row_of(row))


def rows(source, texts, most):
    drawn = ((source.randint(-5, 30), source.choice(texts), source.choice(texts)) for _ in range(source.randint(0, most)))
    return Counter({row: source.choice([1, 1, 1, 2, 11]) for row in drawn})


def changed(source, before, texts):
    """Rows that leave, which are there, and rows that come."""
    found = Counter()
    for row in source.sample(sorted(before), min(len(before), source.randint(0, 3))):
        found[row] -= source.randint(1, before[row])
    for _ in range(source.randint(0, 3)):
        found[source.randint(-5, 30), source.choice(texts), source.choice(texts)] += 1
    return found


def lines_in(text):
    """The records of a text, each as the text that it was read from, its end apart."""
    taken = []

    def followed():
        for line in io.StringIO(text, newline=""):
            taken.append(line.rstrip("\r\n"))
            yield line

    for record in csv.reader(followed(), strict=True):
        yield "\n".join(taken) + "\n"
        taken.clear()


class Lying:
    def __init__(self, folder):
        self.folder = folder

    def records(self, content, is_made=False, are_changes=False):
        (self.folder / "v.csv").write_bytes(content)
        view = SimpleNamespace(name="v", columns=COLUMNS)
        return Records(Source(self.folder / "v.csv", "v.csv", is_made), view, are_changes)


@pytest.fixture
def lying(tmp_path):
    return Lying(tmp_path)


@draws(400)
def test_a_table_with_changes_is_the_one_that_is_written_anew(lying, source):
    texts = source.choice([TEXTS, WITH_LINE_ENDS])
    before = rows(source, texts, 40)
    changes = changed(source, before, texts)
    records = lying.records(table_text(COLUMNS, before), True)
    after = +Counter({row: before[row] + changes[row] for row in [*before, *changes]})
    assert b"".join(records.after(changes)) == table_text(COLUMNS, after)
    assert records.total == before.total()
    looked_for = {**changes, (99, "", ""): 1}
    found = records.standing(looked_for)
    assert [found[row] for row in looked_for] == [before[row] for row in looked_for]


def test_rows_stay_where_they_stand_and_new_ones_come_at_the_end(lying):
    records = lying.records(b"#,x,t,u\n1,2,a,b\n3,1,a,b\n1,3,a,b\n", True)
    changes = {(2, "a", "b"): -1, (1, "a", "b"): -1, (0, "c", "d"): 1, (3, "a", "b"): 1}
    assert b"".join(records.after(changes)) == b"#,x,t,u\n2,1,a,b\n2,3,a,b\n1,0,c,d\n"


@pytest.mark.parametrize("waits", [False, True], ids=["at once", "later"])
@pytest.mark.parametrize("content", [b"x,t,u\r\n2,b,c\r\n1,a,b\r\n2,b,c", b"#,x,t,u\r\n2,2,b,c\r\n1,1,a,b", b"\xef\xbb\xbf#,x,t,u\n2,2,b,c\n1,1,a,b\n"])
def test_a_table_of_another_form_gets_the_tools_own_in_its_order(lying, content, waits):
    records = lying.records(content)
    assert waits == (waits and records.wait())
    assert b"".join(records.after({})) == b"#,x,t,u\n2,2,b,c\n1,1,a,b\n"


def test_a_table_without_rows_gets_the_tools_own_form(lying):
    assert b"".join(lying.records(b"x,t,u\n").after({(1, "a", "b"): 1})) == b"#,x,t,u\n1,1,a,b\n"
    for header in (b"#,x,t,u\r\n", b"x,t,u\r\n", b"\xef\xbb\xbfx,t,u\n"):
        assert b"".join(lying.records(header).after({})) == b"#,x,t,u\n"


def test_a_table_that_has_the_tools_own_form_stays_the_same_bytes(lying):
    for content in (b"#,x,t,u\n", b"#,x,t,u\n1,1,a,b\n", b'#,x,t,u\n2,1,"a,",b\n1,2,a,b\n'):
        records = lying.records(content)
        assert records.wait()
        assert records.own is records.content


@draws(300)
def test_rows_that_are_given_on_several_lines_with_counts_are_all_taken_for_one_row(lying, source):
    lines = [line_of(source.choice([1, 1, 3]), (source.randint(0, 3), "a", source.choice("bc"))) for _ in range(source.randint(0, 9))]
    before = Counter()
    for line in lines:
        count, x, t, u = line.decode().rstrip().split(",")
        before[int(x), t, u] += int(count)
    changes = changed(source, before, TEXTS)
    records = lying.records(b"#,x,t,u\n" + b"".join(lines), is_made=source.choice([False, True]))
    after, made = +Counter({row: before[row] + changes[row] for row in [*before, *changes]}), b"".join(records.after(changes))
    assert (lying.records(made).rows, lying.records(made).total) == (after, after.total())
    file = lying.folder / "c.csv"
    leaving = Counter(dict.fromkeys(before, -source.randint(1, 4)))
    file.write_bytes(table_text(COLUMNS, leaving))
    told = absent(lying.records(b"#,x,t,u\n" + b"".join(lines)), Changes([Source(file, "c.csv")], SimpleNamespace(name="v", columns=COLUMNS)))
    assert len(told) == sum(before[row] + count < 0 for row, count in leaving.items())


def test_a_row_that_stands_in_another_form_leaves(lying):
    records = lying.records(b'#,x,t,u\n1,007,"a",b\n1,8,a,b\n', True)
    assert b"".join(records.after({(7, "a", "b"): -1})) == b"#,x,t,u\n1,8,a,b\n"


def test_rows_are_found_across_the_blocks_of_a_table():
    source = random.Random(8)
    for size in (1, 7, 64):
        with mock.patch.object(by_lines, "BLOCK", size):
            before = rows(source, TEXTS, 40)
            lines = b"".join(line_of(count, row) for row, count in before.items())
            found = by_lines.places(b"#,x,t,u\n" + lines, 8, {row_of(row) for row in before})
            assert len(found) == len(before)
            for start, end, count in found.values():
                assert (b"\n" + lines)[start - 8 : start - 7] == b"\n"
                assert lines[start - 8 : end - 8].startswith(b"%d," % count)


@draws(20)
def test_few_rows_are_found_one_by_one_where_many_are_found_together(source):
    before, others = rows(source, TEXTS, 12), rows(source, TEXTS, 6)
    table = b"#,x,t,u\n" + b"".join(line_of(count, row) for row, count in before.items())
    wanted, found = {row_of(row) for row in before | others}, []
    for few, named in ((0, 0), (0, 100), (100, 0)):
        with mock.patch.multiple(by_lines, FEW=few, NAMED=named, LARGE=0):
            found.append(by_lines.places(table, 8, wanted))
    assert found[1:] == found[:-1]
    assert set(found[0]) == {row_of(row) for row in before}


IN_ORDER = b"#,x,t,u\n1,1,a,b\n1,2,a,b\n"
OTHERS = (b"x,t,u\n1,a,b\n2,a,b\n", b"#,x,t,u\r\n1,+1,a,b\r\n1,2,a,b\r\n", b'x,t,u\n1,"a",b\n2,a,"b"\n', b'x,t,u\n1,a,b\n2,a,b\n3,"\n",c\n')


@pytest.mark.parametrize("content, is_made", [(IN_ORDER, True), *((content, False) for content in OTHERS)])
def test_rows_that_are_not_there_are_found_in_each_form_of_a_table(lying, content, is_made):
    (lying.folder / "c.csv").write_bytes(b'#,x,t,u\n-1,1,"a",b\n-2,2,a,b\n')
    changes = Changes([Source(lying.folder / "c.csv", "c.csv")], SimpleNamespace(name="v", columns=COLUMNS))
    told = [str(finding) for finding in absent(lying.records(content, is_made), changes)]
    assert told == ["c.csv:3:1: 2 of 2,a,b leave, and v.csv has 1"]


def night_of(lying, tables):
    """The answer of a night with these tables."""
    file = (lying.folder / "answer").open("w+b")
    file.write(b"inst v: 1\nwork 1\nversion 1\n" + b"".join(b"view %s\n%s" % (name.encode(), table) for name, table in tables.items()))
    file.flush()
    return program.Night(file, 1.0, list(tables))


def test_a_printed_table_is_put_and_counted_in_blocks_of_any_size(lying):
    source, put = random.Random(3), lying.folder / "put.csv"
    for size in (1, 7, 64, 2**18):
        tables = {name: table_text(COLUMNS, rows(source, TEXTS, 30)) for name in ("v", "w", "empty")} | {"none": b"#,x,t,u\n"}
        with mock.patch.object(program, "BLOCK", size):
            night = night_of(lying, tables)
            for name, table in tables.items():
                printed = Printed(night, name, lying.folder / "like.csv")
                printed.put(put, True)
                assert (put.read_bytes(), printed.rows) == (table, counted(table))
                put.rename(lying.folder / "like.csv")
                printed = Printed(night, name, lying.folder / "like.csv")
                printed.put(put, True)
                assert (put.samefile(lying.folder / "like.csv"), printed.rows) == (True, counted(table))
                put.unlink()
                Printed(night, name, lying.folder / "like.csv").put(put, False)
                assert not put.samefile(lying.folder / "like.csv")
                put.unlink()


def test_files_are_compared_in_blocks(lying):
    one, other = lying.folder / "one", lying.folder / "other"
    with mock.patch.object(disk, "BLOCK", 3):
        for content, second, is_same in ((b"", b"", True), (b"abcdefg", b"abcdefg", True), (b"abcdefg", b"abcdefx", False), (b"abc", b"abcd", False)):
            one.write_bytes(content)
            other.write_bytes(second)
            assert disk.is_same(one, other) == is_same
            assert disk.has_pieces(one, [second[:2], memoryview(second)[2:]]) == is_same
    assert not disk.is_same(lying.folder / "missing", one)


def as_printed(found):
    """A table or a change as the program prints it: in the order of rows."""
    return b"#,x,t,u\n" + b"".join(line_of(count, row) for row, count in sorted(found.items()) if count)


@draws(400)
def test_a_table_with_a_change_is_the_one_that_is_written_anew(source):
    before = rows(source, TEXTS, 6)
    found = changed(source, before, TEXTS)
    after = Counter(before)
    after.update(found)
    for named in (0, 100):
        with mock.patch.multiple(by_lines, NAMED=named, LARGE=0):
            merged = b"".join(by_lines.merged(as_printed(before), as_printed(found), before.total()))
            assert by_lines.merged(as_printed(before), as_printed(found), before.total() + 1) is None
    assert sorted(merged.split(b"\n")) == sorted(as_printed(after).split(b"\n"))
    assert by_lines.sum_of(as_printed(found)) == after.total() - before.total()


def test_a_row_that_comes_takes_the_place_of_one_that_leaves_and_begins_as_it_does():
    table = b"#,g,n\n1,a,1\n1,b,1\n1,c,9\n"
    merged = by_lines.merged(table, b"#,g,n\n-1,a,1\n1,a,2\n1,b,0\n-1,b,1\n1,d,1\n", 3)
    assert b"".join(merged) == b"#,g,n\n1,a,2\n1,b,0\n1,c,9\n1,d,1\n"


def test_a_row_that_is_not_there_cannot_leave():
    for change in (b"#,g\n-1,b\n", b"#,g\n-2,a\n", b"#,g\n1,b\n-2,a\n"):
        assert by_lines.merged(b"#,g\n1,a\n", change, 1) is None
    assert b"".join(by_lines.merged(b"#,g\n3,a\n", b"#,g\n-2,a\n", 3)) == b"#,g\n1,a\n"


MISTAKES = [b"1,", b",", b'"', b"\n", b"\r", b"\0", b"\xff", b"x", b"0", b"-", b"9" * 19, b"\r\n", b" ", b"\xc3\xa9", b"#"]


def test_what_is_seen_to_be_sound_at_once_has_no_finding(lying):
    source, sound = random.Random(4), 0
    for number in range(3000):
        content = bytearray(table_text(COLUMNS, rows(source, WITH_LINE_ENDS, 4)))
        if number % 4 == 0:
            content = bytearray(b"x,t,u\n" + b"".join(line_of(1, row)[2:] for row in rows(source, WITH_LINE_ENDS, 4)))
        for _ in range(source.randint(0, 2)):
            place = source.randrange(len(content) + 1)
            content[place : place + source.randint(0, 2)] = source.choice(MISTAKES)
        records = lying.records(bytes(content), are_changes=number % 4 == 1)
        sound += records.is_sound
        if records.is_sound:
            assert records.whole.findings == []
            assert (records.are_changes or records.total) == (records.are_changes or records.rows.total())
    assert sound > 600


def test_a_table_that_waits_for_the_program_has_a_record_in_each_line(lying):
    source, waiting, faulty = random.Random(11), 0, 0
    for _ in range(2000):
        content = bytearray(table_text(COLUMNS, rows(source, WITH_LINE_ENDS, 4)).replace(b"\n", source.choice([b"\n", b"\r\n"])))
        for _ in range(source.randint(0, 2)):
            place = source.randrange(len(content) + 1)
            content[place : place + source.randint(0, 2)] = source.choice(MISTAKES)
        records = lying.records(bytes(content))
        if records.wait():
            waiting, faulty = waiting + 1, faulty + bool(records.whole.findings)
            text = bytes(content[records.header[2] :]).decode(errors="replace")
            assert [f"{line}\n" for line in text.replace("\r\n", "\n").removesuffix("\n").split("\n") if text] == list(lines_in(text))
            assert records.whole.findings or records.total == records.rows.total()
    assert min(waiting, 4 * faulty) > 200


def test_what_the_program_would_take_and_lint_would_not_never_waits(lying):
    for line in (b'1,"a"b,c', b'1,"a,b', b'1,"a""b,c', b'1,a"b,c', b'1,"a\nb",c', b"1,a\rb,c", b"", b"\r", b'1, "a",c'):
        for start in (b"x,t,u\n", b"#,x,t,u\n"):
            content = start + (b"1," if start.startswith(b"#") and line.strip() else b"") + line + b"\n1,1,a,b\n" * 2
            assert not lying.records(content).wait()


@draws(300)
def test_records_are_lines_where_no_cell_has_a_line_end(source):
    found = rows(source, WITH_LINE_ENDS, 3)
    ends = any("\n" in cell for row in found for cell in row[1:])
    assert has_whole_lines(table_text(COLUMNS, found)) == (not ends)


def test_rows_are_counted():
    for table, total in ((b"#,x", 0), (b"#,x\n", 0), (b"#,x\n1,1\n", 1), (b"#,x\n1,1\n12,1", 13), (b"#,x\n10,1\n2,1,\n", 12)):
        assert counted(table) == total


def test_no_record_is_read_of_a_table_that_is_sound(lying):
    content = b"x,t,u\n" + b"1,a,b\n" * 1000
    with mock.patch.object(read.csv, "reader", side_effect=AssertionError):
        records = lying.records(content)
        assert (records.findings, records.total, records.standing([(1, "a", "b")])) == ([], 1000, {(1, "a", "b"): 1000})
