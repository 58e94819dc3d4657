"""Searches of `serve` beside its pages, and what clients that ask too much, read too little or leave cannot do."""

import json
import os
import socket
import subprocess
import threading
import time
from contextlib import contextmanager
from dataclasses import replace
from http.client import HTTPConnection
from pathlib import Path
from unittest import mock

import pytest

from whview.folder import answers, pages, reading, room, scans, serve
from whview.folder.answers import Answers, Request
from whview.folder.forms import Form
from whview.folder.jobs import Job, Told
from whview.folder.scans import Busy, Scans, Worker
from whview.folder.sessions import SHARE, Full, Sessions, owner_of

from .serving import LONG, Served, let_go, until
from .shop import WHVIEW

ROWS = 30_000


class Large(Served):
    """A folder with a table that is not searched in passing."""

    def __enter__(self):
        super().__enter__()
        self.fill(b"".join(b"1,%d,product %d,%d\n" % (number, number % 100, number % 7) for number in range(ROWS)))
        return self

    def fill(self, rows):
        """Gives the current version this table of lines."""
        file = self.folder / "current/data/lines.csv"
        file.unlink()
        file.write_bytes(b"#,id,product,pieces\n" + rows)
        self.server.answers.kept.clear()
        self.table = file

    @contextmanager
    def busy(self):
        for _ in range(scans.AT_ONCE):
            self.server.answers.scans.places.acquire()
        try:
            yield
        finally:
            for _ in range(scans.AT_ONCE):
                self.server.answers.scans.places.release()

    def whole(self, path):
        """The ids of all pages from this one on."""
        ids, after = [], 0
        while after is not None:
            page = self.found(f"{path}&after={after}")
            ids, after = ids + [row["id"] for row in page["rows"]], page["next"]
        return ids


@pytest.fixture
def large(tmp_path, monkeypatch):
    # However busy the machine is.
    monkeypatch.setattr(scans, "DEADLINE", 300)
    monkeypatch.setattr(scans, "PATIENCE", 300)
    with Large(tmp_path) as large:
        yield large


def test_conditions_orders_and_columns_page_by_page(large):
    wanted = [number for number in range(ROWS) if number % 100 == 77 and number % 7 >= 5]
    assert large.whole("/lines?where=product=product%2077&where=pieces>=5&limit=13") == wanted
    largest = sorted(wanted, key=lambda number: -(number % 7))
    assert large.whole("/lines?where=product=product%2077&where=pieces>=5&limit=13&order=-pieces") == largest
    found = large.asked("/lines?where=id=29999&columns=pieces,id&format=jsonl")
    assert (found[0], found[1]["Content-Type"], found[2]) == (200, "application/jsonl", b'{"#": 1, "pieces": 4, "id": 29999}\n')
    assert large.asked("/lines?where=id=29999&columns=pieces&format=csv")[2] == b"#,pieces\n1,4\n"
    assert large.found("/products?where=price%3C400&columns=product")["rows"] == [{"#": 1, "product": "bread"}]


def test_a_search_reads_the_version_that_is_held(large):
    key = reading.key_of(os.stat(large.folder / "versions/2"))
    job = Job(str(large.folder), 2, key, "lines", 0, 1, "json")
    assert large.server.answers.scans.page(job, None).told.following == 1
    with pytest.raises(pages.Unfit, match="version 2 is another one than it was"):
        large.server.answers.scans.page(replace(job, key=(1, 2, 3)), None)


def test_a_search_goes_by_a_process_and_a_page_and_a_small_table_do_not(large):
    with mock.patch.object(large.server.answers.scans, "page", side_effect=large.server.answers.scans.page) as searched:
        for path in ("/lines?limit=256", "/lines?limit=256&after=256", "/orders?where=id=1", "/orders?order=-id"):
            large.found(path)
        assert searched.call_count == 0
        for path in ("/lines?where=product=none", "/lines?order=pieces&limit=1"):
            large.found(path)
        assert searched.call_count == 2


def test_a_page_far_behind_is_searched_for_once(large):
    with mock.patch.object(reading, "NEAR", 1):
        with mock.patch.object(large.server.answers.scans, "page", side_effect=large.server.answers.scans.page) as searched:
            first = large.found(f"/lines?after={ROWS - 900}&limit=256")
            assert large.found(f"/lines?after={first['next']}&limit=5")["rows"][0]["id"] == ROWS - 900 + 256
    assert searched.call_count == 1


def test_a_search_whose_time_is_over_goes_on_behind_what_it_has():
    choice = mock.MagicMock(after=0, order=None, names=["id"])
    choice.cut = lambda counted: counted
    choice.table.name = "lines"
    choice.blocks = lambda _: ((mock.Mock(before=before), iter([(before + 1, (1, (before,)))])) for before in (0, 1000, 2000))
    with mock.patch.object(pages.time, "monotonic", side_effect=[0, 1, 9, 11]):
        page = pages.page_of(choice, "json", 10, 1, 10)
    assert (page.following, [row["id"] for row in json.loads(page.body)["rows"]]) == (2000, [0, 1000])


def test_what_cannot_be_put_in_order_in_time_is_told(large):
    with mock.patch.object(answers, "SMALL", 2**30), mock.patch.object(answers, "DEADLINE", -1):
        large.refused("/lines?order=id", 503, "to put these rows in order takes more than -1 seconds; ask for fewer of them by where")


def test_a_damaged_table_is_told_by_a_page_and_by_a_search(large):
    rows = [b"1,%d,jam,1\n" % number for number in range(ROWS)]
    large.fill(b"1,0,jam\n" + b"".join(rows))
    told = f"{large.folder}/versions/2/data/lines.csv:2:1: this record has 3 cells and the header has 4"
    for path in ("/lines?limit=1", "/lines?where=product=none", "/lines?order=id"):
        large.refused(path, 500, told)
    rows[20_000] = b"1,20000,j\xe4m,1\n"
    large.fill(b"".join(rows))
    told = f"{large.folder}/versions/2/data/lines.csv:20002:1: this is not UTF-8"
    assert len(large.found("/lines?limit=10")["rows"]) == 10
    for path in ("/lines?where=product=none", "/lines?where=id=5", "/lines?after=20000"):
        large.refused(path, 500, told)


def test_while_all_places_are_taken_pages_come_and_searches_are_refused(large):
    with large.busy(), mock.patch.object(scans, "PATIENCE", 0.3):
        status, headers, body = large.asked("/lines?where=product=none")
        told = "there are as many searches as there may be; try again"
        assert (status, headers["Retry-After"], json.loads(body)["error"]) == (503, "1", told)
        assert len(large.found("/lines?limit=256")["rows"]) == 256
        with mock.patch.object(scans, "WAITING", 0):
            with pytest.raises(Busy):
                large.server.answers.scans.queue(None)
    assert large.found("/lines?where=product=none")["rows"] == []


def test_one_that_waits_for_a_place_gets_it(large):
    found = []
    with large.busy():
        waiting = threading.Thread(target=lambda: found.append(large.found("/lines?where=id=3")["rows"]))
        waiting.start()
        until(lambda: large.server.answers.scans.waiting == 1)
        assert found == []
    waiting.join(LONG)
    assert found == [[{"#": 1, "id": 3, "product": "product 3", "pieces": 3}]]


def stopped():
    worker = Worker()
    worker.process.send_signal(19)
    return worker


def test_a_search_ends_with_its_client_and_with_its_time(large):
    worker = stopped()
    large.server.answers.scans.free.append(worker)
    with socket.create_connection(large.server.server_address) as connection:
        connection.sendall(b"GET /lines?where=id=1 HTTP/1.1\r\nHost: localhost\r\n\r\n")
        until(lambda: not large.server.answers.scans.free)
        assert worker.process.poll() is None
    assert worker.process.wait(LONG) == -9
    worker = stopped()
    large.server.answers.scans.free.append(worker)
    with mock.patch.object(scans, "DEADLINE", 0), mock.patch.object(scans, "GRACE", 0.3):
        large.refused("/lines?where=id=1", 503, "this search was stopped after 0.3 seconds")
    assert (worker.process.poll(), large.server.answers.scans.free) == (-9, [])
    assert len(large.found("/lines?where=id=1")["rows"]) == 1


def test_a_process_that_was_killed_is_no_fault_of_the_next_search(large):
    large.found("/lines?where=id=1")
    worker = large.server.answers.scans.free[0]
    worker.process.kill()
    worker.process.wait()
    assert len(large.found("/lines?where=id=1")["rows"]) == 1
    with mock.patch.object(scans, "PROGRAM", "pass"):
        large.server.answers.scans.free.pop().end()
        large.refused("/lines?where=id=1", 503, "this search ended before its time; try again")
    assert len(large.found("/lines?where=id=1")["rows"]) == 1


def test_processes_end_with_the_server():
    searches = Scans(room.Room())
    searches.give_back(Worker())
    worker = searches.free[0]
    searches.close()
    assert worker.process.poll() is not None
    late = Worker()
    searches.give_back(late)
    assert late.process.poll() is not None


def test_a_search_that_waits_has_no_room(large):
    free, waiting = large.server.answers.room.left, []
    with large.busy():
        for _ in range(20):
            waiting.append(socket.create_connection(large.server.server_address))
            waiting[-1].sendall(b"GET /lines?where=id=1 HTTP/1.1\r\nHost: localhost\r\n\r\n")
        until(lambda: large.server.answers.scans.waiting == 20)
        assert large.server.answers.room.left == free
        assert len(large.found("/lines?limit=256")["rows"]) == 256
        for connection in waiting:
            connection.close()


def test_processes_end_with_a_server_that_was_killed(large):
    command = [WHVIEW, "folder", "serve", large.folder, "--port", "0"]
    with subprocess.Popen(command, stdout=subprocess.PIPE, text=True) as running:
        port = int(running.stdout.readline().partition("127.0.0.1:")[2].partition("/")[0])
        connection = HTTPConnection("127.0.0.1", port, timeout=LONG)
        connection.request("GET", "/lines?where=id=7")
        assert json.loads(connection.getresponse().read())["rows"][0]["id"] == 7
        every = [pid for task in Path(f"/proc/{running.pid}/task").iterdir() for pid in (task / "children").read_text().split()]
        running.kill()
    assert len(every) == 1
    until(lambda: is_over(every[0]))


def is_over(number):
    """Whether a process is gone, or waits for its parent alone."""
    try:
        return "Z" in Path(f"/proc/{number}/stat").read_text()
    except FileNotFoundError:
        return True


WIDE = b"".join(b"1,%d,%s,1\n" % (number, b"x" * 5000) for number in range(2000))


def test_a_page_ends_early_where_its_bytes_have_no_room(large):
    large.fill(WIDE)
    page = large.found("/lines?limit=10000")
    assert page["next"] == len(page["rows"])
    assert len(page["rows"]) * 5000 < pages.MOST_BYTES
    assert large.whole("/lines?limit=10000") == list(range(2000))
    assert large.whole("/lines?limit=10000&where=pieces=1&order=id") == list(range(2000))
    large.fill(b"1,0,%s,1\n" % (b"x" * pages.MOST_BYTES))
    most, size = f"{pages.MOST_BYTES:,}", f"{pages.MOST_BYTES + 45:,}"
    told = f"row 1 alone has {size} bytes, and a page has {most} at most; `whview folder read` gives it"
    large.refused("/lines", 503, told)


def test_a_row_alone_may_be_wider_than_a_page_of_few_rows(large):
    large.fill(b"".join(b"1,%d,%s,1\n" % (number, b"x" * 100_000) for number in range(3)))
    assert [len(large.found(f"/lines?limit=2&after={after}")["rows"]) for after in range(3)] == [1, 1, 1]
    assert len(large.found("/lines?limit=1000")["rows"]) == 3


def unread(large, count):
    found = []
    for _ in range(count):
        connection = socket.socket()
        connection.setsockopt(socket.SOL_SOCKET, socket.SO_RCVBUF, 4096)
        connection.connect(large.server.server_address)
        connection.sendall(b"GET /lines?limit=10000 HTTP/1.1\r\nHost: localhost\r\n\r\n")
        large.ends.callback(connection.close)
        found.append(connection)
    return found


def test_clients_that_do_not_read_hold_a_page_each_and_are_let_go(large):
    large.fill(WIDE)
    free = large.server.answers.room.left
    with mock.patch.object(serve, "STALLED", LONG):
        clients = unread(large, 6)
        until(lambda: len(large.server.begun) == 6)
        assert large.server.answers.room.left >= free - 6 * (pages.MOST_BYTES + answers.MORE)
        assert large.found("/orders?limit=1")["version"] == 2
        for each in clients:
            each.close()
        until(lambda: not large.server.begun)
    with mock.patch.object(serve, "STALLED", 0.5), mock.patch.object(large.server, "sending", side_effect=large.server.sending) as begun:
        unread(large, 6)
        until(lambda: begun.call_count == 6 and not large.server.begun)
    until(lambda: large.server.answers.room.left == free)


def a_drop_of(connection):
    if not connection.recv(2000):
        raise ConnectionError


def test_an_answer_that_is_taken_drop_by_drop_is_let_go(large):
    large.fill(WIDE)
    with mock.patch.object(serve, "TAKING", 1.5):
        (connection,) = unread(large, 1)
        let_go(connection, a_drop_of)


def test_who_reads_slowly_makes_room_for_others(large):
    large.fill(WIDE)
    large.server.answers.room.left = room.FOR_FEW + 2 * (pages.MOST_BYTES + answers.MORE)
    with mock.patch.object(serve, "SLOW", 0.2), mock.patch.object(room, "PATIENCE", LONG):
        unread(large, 4)
        until(lambda: len(large.server.begun) == 2)
        assert large.found("/orders?limit=1")["version"] == 2
        assert len(large.found("/lines?limit=1000")["rows"]) == 202
    large.server.answers.room.left = -(2**30)
    with mock.patch.object(room, "PATIENCE", 0.2):
        large.refused("/orders", 503, "there is no room for the answer; try again")
        large.refused("/lines?where=pieces=1&limit=1", 503, "there is no room for the answer; try again")
    large.server.answers.room.left = room.ALL


def test_an_answer_on_a_kept_connection_waits_for_no_acknowledgement(large):
    connection = HTTPConnection(*large.server.server_address, timeout=LONG)
    large.ends.callback(connection.close)
    soon = 0

    def answered():
        # An acknowledgement comes after 40 milliseconds.
        nonlocal soon
        began = time.monotonic()
        connection.request("GET", "/orders?limit=1")
        connection.getresponse().read()
        soon += time.monotonic() - began < 0.03
        return soon == 3

    until(answered)


def sent(large, request):
    with socket.create_connection(large.server.server_address, timeout=LONG) as connection:
        connection.sendall(request)
        head, _, body = b"".join(iter(lambda: connection.recv(4096), b"")).partition(b"\r\n\r\n")
    return head.partition(b"\r\n")[0], json.loads(body)["error"]


def test_a_request_with_two_hosts_or_none_is_refused(large):
    wanted = b"HTTP/1.1 400 Bad Request", "a request has one Host"
    for hosts in (b"Host: localhost\r\nHost: localhost\r\n", b"Host: evil.example\r\nHost: localhost\r\n", b""):
        assert sent(large, b"GET /orders HTTP/1.1\r\n" + hosts + b"\r\n") == wanted


def test_a_report_that_is_no_file_is_not_waited_for(large):
    (large.folder / "reports").mkdir()
    for name, asked in (("preview", "new"), ("2", "2")):
        os.mkfifo(large.folder / f"reports/{name}.html")
        told = f"there is no report {name}.html; `whview folder report {large.folder} {asked}` makes it"
        large.refused(f"/reports/{name}.html", 404, told)
    (large.folder / "versions/1/report.txt").unlink()
    os.mkfifo(large.folder / "versions/1/report.txt")
    assert large.asked("/")[0] == 200
    (large.folder / "reports/1.html").write_bytes(b"x" * (answers.MOST_OF_A_REPORT + 1))
    large.refused("/reports/1.html", 503, f"report 1.html has more than {answers.MOST_OF_A_REPORT:,} bytes; read it by its file")


def test_a_table_that_is_no_file_is_told_and_not_waited_for(large):
    large.table.unlink()
    os.mkfifo(large.table)
    large.server.answers.kept.clear()
    large.refused("/lines", 500, f"{large.folder}/versions/2/data/lines.csv is a FIFO, and no table can be read there")


def test_an_address_has_a_share_of_the_sessions(kept):
    sessions = Sessions(kept.folder, 5, lambda: 0.0)
    mine = [sessions.begin("10.0.0.1").name for _ in range(SHARE)]
    with pytest.raises(Full):
        sessions.begin("10.0.0.1")
    sessions.begin("10.0.0.2")
    sessions.leave(mine[0])
    sessions.begin("10.0.0.1")
    sessions.clock = lambda: 6.0
    sessions.tidy()
    assert (len(sessions.open), dict(sessions.shares)) == (0, {})


def test_whose_an_address_is():
    assert owner_of("2001:db8::1") == owner_of("2001:db8::ffff:1")
    assert owner_of("2001:db8::1") != owner_of("2001:db8:0:1::1")
    assert (owner_of("10.0.0.1"), owner_of("::ffff:10.0.0.1"), owner_of("fe80::1%lo")) == ("10.0.0.1", "::ffff:10.0.0.1", "fe80::/64")


def test_what_the_tool_did_not_foresee_is_no_fault_of_the_request(kept):
    made = Answers(Path(kept.folder), 5)
    with mock.patch.object(made, "route", side_effect=ValueError):
        with pytest.raises(ValueError):
            made.answer(Request("GET", "/orders"))


def test_what_one_process_writes_the_other_reads():
    job = Job("a folder", 2, (1, 2, 3), "lines", 4, 5, Form.CSV, ("id>1", "day=Mon\nday"), "-id", "id,day", 0.5)
    assert (Job.read(job.written()), job.written().count(b"\n")) == (job, 1)
    for told in (Told(), Told(3, reading.Mark(1, 2)), Told(damaged="a line"), Told(unfit="another")):
        assert Told.read(told.written()) == told
