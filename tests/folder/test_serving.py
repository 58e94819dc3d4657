"""`serve`: rows of one version over HTTP, sessions that pin one, and what is refused."""

import csv
import errno
import io
import json
import os
import re
import shutil
import signal
import socket
import subprocess
import time
from http.client import HTTPConnection
from unittest import mock

import pytest

from whview.folder import serve
from whview.folder.answers import Answers, Request
from whview.folder.sessions import MOST, SHARE, Full, Over, Sessions

from .serving import LONG, Page, let_go, until
from .shop import WHVIEW


def test_a_page_after_another_makes_the_view(served):
    rows, after = [], 0
    while after is not None:
        page = served.found(f"/sales?after={after}&limit=4")
        assert (page["view"], page["version"], page["after"]) == ("sales", 2, after)
        rows, after = rows + page["rows"], page["next"]
    table = csv.DictReader(io.StringIO((served.folder / "current/views/sales.csv").read_text()))
    wanted = [{name: cell if name in ("day", "region", "product") else int(cell) for name, cell in row.items()} for row in table]
    assert rows == wanted


def test_csv_is_the_table_and_says_how_it_goes_on(served):
    status, headers, body = served.asked("/orders?format=csv&version=1")
    assert (status, body) == (200, (served.folder / "versions/1/data/orders.csv").read_bytes())
    assert (headers["X-Version"], headers["X-Next"], headers["Link"]) == ("1", None, None)
    _, headers, body = served.asked("/orders?limit=2&where=region%3Dsouth", Accept="text/csv")
    assert body == b"#,id,day,region\n1,2,Monday,south\n1,4,Tuesday,south\n"
    assert (headers["X-Version"], headers["X-Next"]) == ("2", "4")
    following = re.fullmatch(r'<(.*)>; rel="next"', headers["Link"])[1]
    _, headers, body = served.asked(following, Accept="text/csv")
    assert body == b"#,id,day,region\n1,7,Wednesday,south\n1,8,Thursday,south\n"
    assert headers["X-Next"] is None


def test_what_there_is_is_told(served):
    found = served.found("/versions.json")
    assert (found["current"], found["versions"], found["version"]) == (2, [0, 1, 2], 2)
    assert found["views"]["lines"] == {"id": "int", "product": "text", "pieces": "int"}
    assert list(served.found("/versions.json?version=0")["views"]) == ["orders", "lines", "products"]


def test_the_page_has_views_versions_and_reports_and_needs_nothing_else(served):
    (served.folder / "reports").mkdir()
    (served.folder / "reports/1.html").write_text("<!DOCTYPE html><title>a report</title>")
    status, headers, body = served.asked("/", Accept="text/html")
    read = Page(body.decode())
    assert (status, read.open) == (200, [])
    assert "The views of version 2" in read.text
    assert "sales 9 over orders, lines, products" in read.text
    links = [given["href"] for tag, given in read.tags if tag == "a"]
    assert {"/sales?version=2&format=json", "/?version=1", "/reports/1.html"} <= set(links)
    assert "/reports/2.html" not in links
    assert b"<script" not in body
    assert "default-src 'none'" in headers["Content-Security-Policy"]
    assert served.asked("/reports/1.html")[2] == b"<!DOCTYPE html><title>a report</title>"
    os.utime(served.folder / "reports/1.html", (1, 1))
    told = f"there is no report 1.html; `whview folder report {served.folder} 1` makes it"
    served.refused("/reports/1.html", 404, told)
    assert b"/reports/1.html" not in served.asked("/", Accept="text/html")[2]
    assert "The views of version 1" in Page(served.asked("/?version=1")[2].decode()).text


def test_a_head_has_no_body(served):
    connection = socket.create_connection(served.server.server_address)
    connection.sendall(b"HEAD /orders HTTP/1.1\r\nHost: localhost\r\nConnection: close\r\n\r\n")
    said = b""
    while piece := connection.recv(65536):
        said += piece
    connection.close()
    assert said.startswith(b"HTTP/1.1 200 ")
    assert said.endswith(b"\r\n\r\n")


def opened(served):
    status, headers, body = served.asked("/session", "POST")
    assert status == 201
    found = json.loads(body)
    assert headers["Location"] == f"/session/{found['session']}"
    return found


def test_a_session_reads_its_version_while_nights_commit_and_prune(served):
    session = opened(served)["session"]
    for number in range(3):
        served.more(f"#,id,day,region\n1,{20 + number},Friday,south\n".encode(), "--keep", "1")
    assert served.versions() == ["2", "5"]
    assert len(served.found(f"/orders?session={session}")["rows"]) == 8
    assert served.found(f"/orders?session={session}")["version"] == 2
    assert served.found("/orders")["version"] == 5
    served.refused(f"/orders?session={session}&version=5", 409, "this session pins version 2, and version 5 is asked for; leave it first")
    assert served.found(f"/orders?session={session}&version=2")["version"] == 2
    assert served.asked(f"/session/{session}", "DELETE")[0] == 200
    served.more(b"#,id,day,region\n1,30,Friday,south\n", "--keep", "1")
    assert served.versions() == ["6"]
    told = "this session left; it pinned version 2, and another one is opened by POST /session"
    served.refused(f"/orders?session={session}", 410, told)
    served.refused("/orders?version=2", 410, "version 2 is no longer kept")


def test_no_read_waits_for_a_night_that_is_under_way(served):
    session = opened(served)["session"]
    served.put(b"#,id,day,region\n1,30,Friday,south\n")
    with served.under_way("--commit"):
        for path in (f"/orders?session={session}", "/orders", "/orders?version=1", "/versions.json"):
            assert served.found(path)["version"] in (1, 2)
    assert served.found("/orders")["version"] == 3


def test_a_session_whose_time_is_over_is_told_so_and_lets_its_version_go(served):
    sessions, now = served.server.answers.sessions, [1000.0]
    sessions.clock = lambda: now[0]
    session = opened(served)
    assert (session["version"], session["seconds"]) == (2, 900)
    now[0] += 899
    assert served.found(f"/session/{session['session']}")["seconds"] == 1
    served.more(b"#,id,day,region\n1,30,Friday,south\n", "--keep", "1")
    assert served.versions() == ["2", "3"]
    now[0] += 1
    told = "this session had its promised time, 900 seconds; it pinned version 2, and another one is opened by POST /session"
    served.refused(f"/orders?session={session['session']}", 410, told)
    served.more(b"#,id,day,region\n1,31,Friday,south\n", "--keep", "1")
    assert served.versions() == ["4"]
    served.refused("/orders?session=unknown", 404, "there is no session 'unknown'")


def test_versions_are_let_go_without_a_further_request(served):
    sessions, now = served.server.answers.sessions, [0.0]
    sessions.clock = lambda: now[0]
    opened(served)
    now[0] = 901
    until(lambda: not sessions.open)


def test_a_browser_keeps_its_session_as_a_cookie(served):
    status, headers, _ = served.asked("/session", "POST", Accept="text/html", Origin=f"http://127.0.0.1:{served.server.server_address[1]}")
    assert (status, headers["Location"]) == (303, "/")
    cookie = headers["Set-Cookie"].partition(";")[0]
    assert "HttpOnly; SameSite=Strict" in headers["Set-Cookie"]
    served.more(b"#,id,day,region\n1,30,Friday,south\n")
    assert served.found("/orders", Cookie=cookie)["version"] == 2
    assert "Your session pins version 2" in Page(served.asked("/", Cookie=cookie, Accept="text/html")[2].decode()).text
    assert served.asked("/session/leave", "POST", Cookie=cookie, Accept="text/html")[0] == 303
    status, headers, body = served.asked("/", Cookie=cookie, Accept="text/html")
    assert "This session left; it pinned version 2" in Page(body.decode()).text
    assert "Max-Age=0" in headers["Set-Cookie"]
    assert served.found("/orders")["version"] == 3


def test_a_session_reads_no_other_version_of_the_number_that_it_pinned(served):
    session = json.loads(served.asked("/session", "POST")[2])["session"]
    (served.folder / "versions/2").rename(served.folder.parent / "moved")
    served.turn_to(1)
    served.more(b"#,id,day,region\n1,9,Friday,north\n")
    assert served.found("/orders")["version"] == 2
    told = "version 2 is another one than this session pinned, which was moved away"
    served.refused(f"/orders?session={session}", 410, told)


def test_sessions_are_bounded_and_of_their_names_nothing_can_be_guessed(served):
    sessions = Sessions(served.folder, 5, lambda: 0.0)
    names = {sessions.begin(f"10.0.0.{number // SHARE}").name for number in range(MOST)}
    assert (len(names), min(map(len, names)), len(sessions.pins)) == (MOST, 24, 1)
    with pytest.raises(Full):
        sessions.begin("10.0.1.0")
    sessions.clock = lambda: 6.0
    sessions.begin()
    assert (len(sessions.open), [pin.sessions for pin in sessions.pins.values()]) == (1, [1])
    with pytest.raises(Over):
        sessions.find(next(iter(names)))
    sessions.leave(next(iter(sessions.open)))
    assert (len(sessions.open), sessions.pins) == (0, {})


def test_paths_lead_to_no_file(served):
    secret = served.folder.parent / "secret.csv"
    secret.write_text("#,a\n1,secret\n")
    (served.folder / "reports").mkdir()
    os.symlink(secret, served.folder / "reports/2.html")
    paths = ["/../secret", "/..%2f..%2fsecret", "/%2e%2e/secret", "/data/orders", "/orders.csv", "/versions/1/data/orders", "//orders/.."]
    paths += ["/reports/../catalogue.toml", "/reports/2.html", "/reports/%2e%2e%2fcatalogue.toml", "/catalogue.toml", "/orders%00", "/.lock"]
    for path in paths:
        status, _, body = served.asked(path)
        assert status in (400, 404)
        assert b"1,secret" not in body
        assert "error" in json.loads(body)


def test_names_and_numbers_that_are_none(served):
    most = f"{2**63 - 1:,}"
    has = "orders, lines, products, sales, daily_by_product, daily_by_region"
    cases = {
        "/order": (404, f"version 2 has no view 'order'; it has {has}; did you mean orders?"),
        "/orders?version=9": (404, "there is no version 9"),
        "/orders?version=-1": (400, f"version is a number from 0 to {most}, and not '-1'"),
        "/orders?version=1%2f..": (400, f"version is a number from 0 to {most}, and not '1/..'"),
        "/orders?version=%D9%A1": (400, f"version is a number from 0 to {most}, and not '١'"),
        "/orders?after=1.5": (400, f"after is a number from 0 to {most}, and not '1.5'"),
        f"/orders?after={'9' * 400}": (400, f"after is a number from 0 to {most}, and not '{'9' * 40}'"),
        "/orders?limit=0": (400, "limit is a number from 1 to 10,000, and not '0'"),
        "/orders?limit=10001": (400, "limit is a number from 1 to 10,000, and not '10001'"),
        "/orders?limit=1&limit=2": (400, "limit stands twice"),
        "/orders?format=xml": (400, "format is json, csv or jsonl, and not 'xml'"),
        "/orders?x=1": (400, "there is no field 'x'; there are version, after, limit, format, session, where, order, columns"),
        "/orders?limit": (400, "the query is not NAME=VALUE&NAME=VALUE, or has too many of these"),
        "/orders?" + "where=id=1&" * 30 + "limit=1": (400, "the query is not NAME=VALUE&NAME=VALUE, or has too many of these"),
        "/orders?where=id": (400, "a column and its value are asked for as COLUMN=VALUE, or by !=, <, <=, > or >=, and not as 'id'"),
        "/orders?where=id%3Dx": (400, "id is a whole number of 64 bits, and 'x' is none"),
        "/orders?where=id%3E%3Dx": (400, "id is a whole number of 64 bits, and 'x' is none"),
        "/orders?order=-nr": (404, "orders has no column 'nr'; it has id, day, region"),
        "/orders?columns=id,id": (400, "a column stands twice in 'id,id'"),
        "/orders?columns=": (404, "orders has no column ''; it has id, day, region"),
        "/orders?where=nr%3D1": (404, "orders has no column 'nr'; it has id, day, region"),
        "/%ff": (400, "the target is no path with a query"),
    }
    for path, (status, text) in cases.items():
        served.refused(path, status, text)
    assert served.found(f"/orders?after={2**63 - 1}")["rows"] == []


def test_a_text_of_a_request_is_text_in_its_answer(served):
    status, headers, body = served.asked("/%3Cscript%3Ealert(1)%3C/script%3E")
    assert (status, headers["Content-Type"], headers["X-Content-Type-Options"]) == (404, "application/json", "nosniff")
    assert served.asked("/orders%0d%0aX-Evil:1")[1]["X-Evil"] is None


def raw(served, target):
    """The first line of the answer to a request whose target is these bytes, and its body."""
    return answer_to(served, b"GET %s HTTP/1.1\r\nHost: localhost\r\nConnection: close\r\n\r\n" % target)


def answer_to(served, request):
    """The first line of the answer to these bytes, and what else comes."""
    with socket.create_connection(served.server.server_address, timeout=LONG) as connection:
        connection.sendall(request)
        head, _, body = b"".join(iter(lambda: connection.recv(4096), b"")).partition(b"\r\n\r\n")
    return head.partition(b"\r\n")[0], body


def test_letters_that_are_not_quoted_are_utf_8(served):
    plain, quoted = (raw(served, target)[1] for target in ("/s\u00fcd".encode(), b"/s%C3%BCd"))
    assert (plain, "s\u00fcd" in json.loads(plain)["error"]) == (quoted, True)
    assert raw(served, b"/s\xfcd")[0] == b"HTTP/1.1 400 Bad Request"


def test_other_hosts_sites_methods_and_bodies(served):
    served.refused("/orders", 421, "this host is not served here", Host="evil.example")
    served.refused("/session", 403, "this comes from another site", "POST", Origin="https://evil.example")
    served.refused("/session", 403, "this comes from another site", "POST", Origin="null")
    served.refused("/orders", 405, "PUT is not answered here", "PUT")
    served.refused("/orders", 405, "POST is not answered here", "POST")
    served.refused("/session", 413, "no request here has a body", "POST", Content_Length="5000")
    served.refused("/session/unknown", 404, "there is no session 'unknown'", "DELETE")


def test_a_length_of_five_thousand_digits_is_too_long(served):
    served.refused("/session", 413, "no request here has a body", "POST", Content_Length="9" * 5000)


def test_a_request_with_two_lengths_is_refused_with_all_that_is_behind_it(served):
    behind = b"GET /orders HTTP/1.1\r\nHost: localhost\r\n\r\n"
    head, body = answer_to(served, b"POST /session HTTP/1.1\r\nHost: localhost\r\nContent-Length: 0\r\nContent-Length: 42\r\n\r\n" + behind)
    assert (head, json.loads(body)["error"]) == (b"HTTP/1.1 413 Request Entity Too Large", "no request here has a body")


def test_a_head_has_so_many_bytes_at_most(served):
    line = b"X-%d: " + b"a" * 1000 + b"\r\n"
    begin, much = b"GET /versions.json HTTP/1.1\r\nHost: localhost\r\nConnection: close\r\n", [line % number for number in range(60)]
    assert answer_to(served, begin + b"".join(much[:25]) + b"\r\n")[0] == b"HTTP/1.1 200 OK"
    assert answer_to(served, begin + b"".join(much) + b"\r\n")[0] == b"HTTP/1.1 431 Line too long"
    assert answer_to(served, b"GET /" + b"a" * 40_000)[0] == b"HTTP/1.1 414 Request-URI Too Long"


def test_each_request_of_a_connection_has_room_for_its_head(served):
    connection = HTTPConnection(*served.server.server_address, timeout=LONG)
    served.ends.callback(connection.close)
    for _ in range(4):
        connection.request("GET", "/versions.json", headers={"X-Long": "a" * 20_000})
        answer = connection.getresponse()
        assert (answer.status, bool(answer.read())) == (200, True)


def test_a_request_that_comes_byte_by_byte_is_not_waited_for(served):
    with mock.patch.object(serve, "PATIENCE", 0.4), socket.create_connection(served.server.server_address) as slow:
        let_go(slow, lambda connection: connection.sendall(b"G"))


def answered_at_last(served, path):
    """The status of an answer; the connection may be ended while those that were ended before it are still going."""
    while True:
        try:
            return served.asked(path)[0]
        except OSError:
            time.sleep(0.1)


def test_of_many_connections_that_wait_the_oldest_make_room(served):
    with mock.patch.object(serve, "MOST_CONNECTIONS", 5):
        idle = [socket.create_connection(served.server.server_address) for _ in range(30)]
        assert len(served.server.due) <= 10
        assert answered_at_last(served, "/orders") == 200
    for each in idle:
        each.close()


def said_on(connection: socket.socket) -> bytes:
    """What the server says next; nothing where it ended the connection, be it with bytes that it had not read."""
    try:
        return connection.recv(100)
    except ConnectionResetError:
        return b""


def answered_to(connection: socket.socket, sent: bytes) -> bytes:
    """What the server says to these bytes, which it may refuse while they are still sent."""
    try:
        connection.sendall(sent)
        connection.shutdown(socket.SHUT_WR)
    except OSError as ended:
        assert ended.errno in (errno.EPIPE, errno.ECONNRESET, errno.ENOTCONN), ended
    return said_on(connection)


def test_a_connection_that_was_ended_is_answered_no_more(served):
    request = b"GET /orders HTTP/1.1\r\nHost: localhost\r\n\r\n"
    made = served.server.answers.answer

    def ended(asked):
        for connection in list(served.server.due):
            served.server.end(connection)
        return made(asked)

    with mock.patch.object(served.server.answers, "answer", side_effect=ended) as answered:
        with socket.create_connection(served.server.server_address, timeout=LONG) as connection:
            connection.sendall(request * 5)
            assert said_on(connection) == b""
    assert answered.call_count == 1


def test_where_the_system_has_no_thread_left_one_connection_is_ended_alone(served):
    with mock.patch.object(serve.ThreadingHTTPServer, "process_request", side_effect=RuntimeError):
        with socket.create_connection(served.server.server_address, timeout=LONG) as connection:
            assert said_on(connection) == b""
    assert (served.found("/orders")["version"], len(served.server.due) <= 1) == (2, True)


def test_what_is_no_request_ends_its_connection_alone(served):
    for sent in (b"\x00\xff\r\n\r\n", b"GET\r\n\r\n", b"GET / HTTP/9.9\r\n\r\n", b"GET /" + b"x" * 70000 + b" HTTP/1.1\r\n\r\n", b""):
        with socket.create_connection(served.server.server_address) as connection:
            assert not answered_to(connection, sent).startswith(b"HTTP/1.1 200")
    assert served.found("/orders")["version"] == 2


def test_a_folder_whose_version_is_gone_is_told(served):
    shutil.rmtree(served.folder / "versions")
    status, _, body = served.asked("/orders")
    assert status == 503
    assert "which is not there" in json.loads(body)["error"]


def test_what_is_not_foreseen_is_a_fault_of_one_request(served):
    answers = Answers(served.folder, 5)
    assert answers.answer(Request("GET", "http://[::1/orders")).status == 400


def served(shop, *words):
    command = [WHVIEW, "folder", "serve", shop.folder, *words]
    return subprocess.Popen(command, stdout=subprocess.PIPE, stderr=subprocess.PIPE, text=True)


def test_it_tells_where_it_is_and_ends_with_a_signal(kept):
    with served(kept, "--port", "0", "--promise", "60") as running:
        told = running.stdout.readline()
        found = re.fullmatch(rf"{re.escape(str(kept.folder))} is read at http://127\.0\.0\.1:(\d+)/; a session is promised 60 seconds\n", told)
        connection = HTTPConnection("127.0.0.1", int(found[1]), timeout=LONG)
        connection.request("GET", "/orders")
        assert json.loads(connection.getresponse().read())["version"] == 1
        running.send_signal(signal.SIGTERM)
        running.communicate()
    assert running.returncode == -signal.SIGTERM


def test_an_address_that_others_reach_is_warned_of(kept):
    with served(kept, "--port", "0", "--address", "0.0.0.0") as running:
        assert " is read at http://0.0.0.0:" in running.stdout.readline()
        assert "it knows no users" in running.stderr.readline()
        running.terminate()


def test_words_and_ports_that_cannot_be(shop):
    with socket.create_server(("127.0.0.1", 0)) as taken:
        port = taken.getsockname()[1]
        told = f"port {port} of 127.0.0.1 cannot be served: Address already in use"
        assert shop.ran("serve", "--port", str(port)) == (5, [told])
    assert shop.ran("serve", "--port", "65536") == (2, ["--port is a number from 0 to 65,535, and not '65536'"])
    assert shop.ran("serve", "--promise", "0") == (2, ["--promise is a number from 1 to 86,400, and not '0'"])
