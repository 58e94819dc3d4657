"""Folders that are served, and pages that are read."""

import json
import threading
import time
from contextlib import ExitStack
from html.parser import HTMLParser
from http.client import HTTPConnection
from pathlib import Path

import pytest

from whview.folder.answers import Answers
from whview.folder.serve import Server

from .shop import Shop

VOID = {"meta"}
# So long is waited for what has to come, however busy the machine is, before a test gives up.
LONG = 120


def until(holds):
    """Waits until this is so."""
    due = time.monotonic() + LONG
    while not holds():
        assert time.monotonic() < due
        time.sleep(0.02)


def let_go(connection, does):
    """Does this with a connection again and again, until the server ends it."""
    due = time.monotonic() + LONG
    with pytest.raises(OSError):
        while time.monotonic() < due:
            does(connection)
            time.sleep(0.01)


class Page(HTMLParser):
    """A page that is read: its tags are closed in their order, and its words and attributes are kept."""

    def __init__(self, text):
        super().__init__()
        self.open, self.words, self.tags = [], [], []
        self.feed(text)
        self.close()

    def handle_starttag(self, tag, attrs):
        self.tags.append((tag, dict(attrs)))
        if tag not in VOID:
            self.open.append(tag)

    def handle_startendtag(self, tag, attrs):
        self.tags.append((tag, dict(attrs)))

    def handle_endtag(self, tag):
        if self.open.pop() != tag:
            raise AssertionError(f"</{tag}> closes another one")

    def handle_data(self, data):
        self.words.append(data)

    @property
    def text(self):
        return " ".join(" ".join(self.words).split())


class Served(Shop):
    """A folder of two nights that is served."""

    def __init__(self, room: Path) -> None:
        super().__init__(room)
        self.night()
        self.more()

    def __enter__(self) -> "Served":
        """Serves the folder at a free port until the test is over."""
        self.ends = ExitStack()
        self.server = Server("127.0.0.1", 0, Answers(self.folder, 900))
        self.ends.callback(self.server.server_close)
        thread = threading.Thread(target=self.server.serve_forever, args=(0.02,), daemon=True)
        thread.start()
        self.ends.callback(thread.join, 5)
        self.ends.callback(self.server.shutdown)
        return self

    def __exit__(self, *_: object) -> None:
        self.ends.close()

    def asked(self, path, method="GET", **headers):
        """The status, the headers and the body of an answer."""
        connection = HTTPConnection(*self.server.server_address, timeout=LONG)
        try:
            connection.request(method, path, headers={name.replace("_", "-"): value for name, value in headers.items()})
            answer = connection.getresponse()
            return answer.status, answer.headers, answer.read()
        finally:
            connection.close()

    def found(self, path, **headers):
        """What an answer says as JSON; it is no refusal."""
        status, _, body = self.asked(path, **headers)
        assert status == 200
        return json.loads(body)

    def refused(self, path, status, text, method="GET", **headers):
        found, _, body = self.asked(path, method, **headers)
        assert (found, json.loads(body)["error"]) == (status, text)
