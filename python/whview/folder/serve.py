"""`serve`: a folder for those who read, over HTTP, on the loopback interface unless another address is asked for.

No version is written, and no request waits for a night: each holds the version that it reads. Pages of the newest versions come from the
memory of `whview live`, which stays beside the folder. Where it is not there, is at work, or is not as it should be, the same comes from
files. Nights of the folder are computed by another one, which `night` asks at a socket in the folder.

GET /VIEW takes these fields, as `read` does:
where=COLUMN=VALUE, or with !=, <, <=, > or >=, several times; order=COLUMN or -COLUMN; columns=A,B; limit=L, 1,000 or up to 10,000;
format=json, csv or jsonl; version=N; session=NAME; after=A, which is the `next` of the page before, or its header X-Next.

A page ends early where its rows have more than 1 KiB on average, or 4 MiB, and a search after ten seconds: it goes on behind `next`. Pages
never wait for searches, of which there are a few at once. POST /session pins the current version, GET /session/NAME tells it, DELETE
/session/NAME leaves it; of 1,000 sessions an address has 250 at most. Status 503 with Retry-After: try again; 500: a table is damaged, and
where; 410: the version or the session is over.
"""

from __future__ import annotations

import ctypes
import gc
import math
import socket
import sys
import threading
import time
import traceback
from collections.abc import Callable, Iterator
from contextlib import contextmanager, suppress
from http import HTTPStatus
from http.client import LineTooLong
from http.server import BaseHTTPRequestHandler, ThreadingHTTPServer
from io import BufferedReader, RawIOBase
from typing import TYPE_CHECKING, ClassVar, TypeAlias
from urllib.parse import urlsplit

from ..finding import Failure, warn
from ..program import Chosen, ready
from ..status import DONE, NOT_WRITTEN, Status
from .answers import Answer, Answers, Request, as_json
from .memory import LEAST, MOST, USUAL, Memory
from .night_server import NightServer
from .numbers import is_between
from .reading import whole_number
from .scans import Gone

if TYPE_CHECKING:
    from .command import Words

USUAL_PORT, USUAL_PROMISE, LONGEST = 8000, 900, 86_400
LOOPBACK = ("127.0.0.1", "::1", "localhost")
# A request has to be there within so many seconds after the one before it, its answer to be taken within so many more, and each piece of it
# within fewer. From so many connections on, a new one ends the one that has waited longest; from twice as many on it is ended itself.
MOST_BODY, PATIENCE, TAKING, STALLED, MOST_CONNECTIONS = 4096, 30, 60, 15, 128
# How many bytes a request's first line and its headers have together at most: a connection holds them until the last one is there.
MOST_HEAD = 2**15
# How many bytes are sent at a time, and after how many seconds a client that takes its answer slowly has to make room.
PIECE, SLOW = 2**18, 3
# How many bytes a thread's stack has; and how many heaps the C library makes, which are one for each thread otherwise, 64 MB of addresses
# each, and by what number it is told so.
STACK, HEAPS, MOST_HEAPS = 2**19, 2, -8
# For how many seconds a thread computes before another one has its turn: an answer is not to wait for long while tables are compared.
TURN = 0.001
HEADERS = {
    "X-Content-Type-Options": "nosniff",
    "Content-Security-Policy": "default-src 'none'; style-src 'unsafe-inline'; form-action 'self'; frame-ancestors 'none'; base-uri 'none'",
    "Referrer-Policy": "same-origin",
    "Cache-Control": "no-store",
}


# What the standard server hands on: a connection, or a datagram, which none is here.
Incomer: TypeAlias = socket.socket | tuple[bytes, socket.socket]


def connection_of(incomer: Incomer) -> socket.socket:
    """The connection that comes in."""
    return incomer[1] if isinstance(incomer, tuple) else incomer


class Incoming(BufferedReader):
    """What comes over a connection. The lines of one request have so many bytes together at most."""

    def __init__(self, raw: RawIOBase) -> None:
        super().__init__(raw)
        self.left = MOST_HEAD

    def begin(self) -> None:
        """Another request begins."""
        self.left = MOST_HEAD

    def readline(self, most: int | None = -1) -> bytes:
        """A line. One that leaves no room is none."""
        line = super().readline(self.left if most is None or most < 0 else min(most, self.left))
        self.left -= len(line)
        if not self.left:
            raise LineTooLong("head")
        return line


class Handler(BaseHTTPRequestHandler):
    """One connection, whose requests come one after another."""

    protocol_version, server_version, sys_version, disable_nagle_algorithm = "HTTP/1.1", "whview", "", True
    timeout: ClassVar[float | None] = PATIENCE
    server: Server
    rfile: Incoming

    def setup(self) -> None:
        """What the system holds for a client that does not read is bounded too."""
        super().setup()
        self.rfile.close()
        self.rfile = Incoming(self.connection.makefile("rb", buffering=0))
        self.connection.setsockopt(socket.SOL_SOCKET, socket.SO_SNDBUF, PIECE)

    def handle_one_request(self) -> None:
        """A request and its answer, in time."""
        self.close_connection = True
        if not self.server.wait(self.connection, PATIENCE):
            return
        self.rfile.begin()
        try:
            super().handle_one_request()
        except LineTooLong:
            self.requestline, self.request_version, self.command = "", self.protocol_version, ""
            self.send_error(HTTPStatus.REQUEST_URI_TOO_LONG)

    def do_GET(self) -> None:
        """A request's answer. What it takes of the room for answers is given back when it was sent."""
        if not self.server.wait(self.connection, TAKING):
            return
        try:
            answer = self.answer()
        except Gone:
            self.close_connection = True
            return
        try:
            self.server.wait(self.connection, TAKING)
            self.send(answer)
        finally:
            self.server.answers.room.give(answer.held)

    do_HEAD = do_POST = do_DELETE = do_PUT = do_PATCH = do_OPTIONS = do_GET

    def answer(self) -> Answer:
        """The answer to the request; what the tool did not foresee is told on standard error and ends nothing."""
        refused = self.refused()
        if refused:
            return refused
        about = self.headers.get("Cookie", ""), self.headers.get("Accept", ""), self.client_address[0], self.connection
        try:
            return self.server.answers.answer(Request(self.command, self.path, *about))
        except Gone:
            raise
        except Exception:
            traceback.print_exc()
            return as_json(HTTPStatus.INTERNAL_SERVER_ERROR, {"error": "this could not be read"})

    def refused(self) -> Answer | None:
        """Why a request is refused before it is looked at, or None: another host's name, another site's form, a body that is long."""
        length, *others = self.headers.get_all("Content-Length", ["0"])
        if others or not is_between(length, 0, MOST_BODY) or self.headers.get("Transfer-Encoding"):
            self.close_connection = True
            return as_json(HTTPStatus.REQUEST_ENTITY_TOO_LARGE, {"error": "no request here has a body"})
        self.rfile.read(int(length))
        hosts: list[str] = self.headers.get_all("Host", [])
        if len(hosts) > 1 or (not hosts and self.request_version == "HTTP/1.1"):
            self.close_connection = True
            return as_json(HTTPStatus.BAD_REQUEST, {"error": "a request has one Host"})
        if not self.server.is_own(f"//{''.join(hosts)}"):
            return as_json(HTTPStatus.MISDIRECTED_REQUEST, {"error": "this host is not served here"})
        if self.command in ("POST", "DELETE") and not self.server.is_own(self.headers.get("Origin", "//localhost")):
            return as_json(HTTPStatus.FORBIDDEN, {"error": "this comes from another site"})
        return None

    def head_of(self, answer: Answer) -> bytes:
        """The lines before an answer's body."""
        status = HTTPStatus(answer.status)
        fields = {"Server": self.version_string(), "Date": self.date_time_string(), **HEADERS, **answer.headers}
        fields |= {"Content-Type": answer.kind, "Content-Length": str(len(answer.body))}
        fields |= {"Connection": "close"} if self.close_connection else {}
        lines = [f"{self.protocol_version} {status.value} {status.phrase}", *(f"{name}: {value}" for name, value in fields.items())]
        return "".join(f"{line}\r\n" for line in [*lines, ""]).encode("latin-1", "replace")

    def send(self, answer: Answer) -> None:
        """Sends an answer, without its body where the head alone is asked for. What is short goes in one piece."""
        head, body = self.head_of(answer), b"" if self.command == "HEAD" else answer.body
        self.connection.settimeout(STALLED)
        with self.server.sending(self.connection):
            if len(body) <= PIECE:
                self.put(head + body)
            else:
                self.put(head)
                self.put(body)
        self.connection.settimeout(self.timeout)

    def put(self, content: bytes) -> None:
        """Sends bytes piece by piece, each of which has to be taken in time."""
        left = memoryview(content)
        while left:
            left = left[self.connection.send(left[:PIECE]) :]

    def log_message(self, *_: object) -> None:
        """Requests are not told."""


class Server(ThreadingHTTPServer):
    """The server of a folder, a thread for each connection. `due` has when each connection's request, or its answer, has to be done."""

    daemon_threads, request_queue_size = True, 128

    def __init__(self, address: str, port: int, answers: Answers, clock: Callable[[], float] = time.monotonic) -> None:
        self.address_family = socket.AF_INET6 if ":" in address else socket.AF_INET
        self.answers, self.address, self.clock, self.lock = answers, address, clock, threading.Lock()
        self.due: dict[socket.socket, float] = {}
        # Since when an answer is sent over each connection.
        self.begun: dict[socket.socket, float] = {}
        answers.room.press = self.press
        super().__init__((address, port), Handler)

    def service_actions(self) -> None:
        """Comes twice a second, and with each connection."""
        self.answers.sessions.tidy()
        now = self.clock()
        for connection, due in list(self.due.items()):
            if due < now:
                self.end(connection)

    def verify_request(self, request: Incomer, client_address: object) -> bool:
        """Lets a connection in where there are not too many."""
        count = len(self.due)
        if count >= MOST_CONNECTIONS:
            self.make_room()
        if count >= 2 * MOST_CONNECTIONS:
            return False
        self.due[connection_of(request)] = self.clock() + PATIENCE
        return True

    def process_request(self, request: Incomer, client_address: object) -> None:
        """Answers a connection by a thread of its own; where the system has none left, it is ended."""
        try:
            super().process_request(request, client_address)
        except RuntimeError:
            self.shutdown_request(request)
            self.make_room()

    def make_room(self) -> None:
        """Ends the connection that has waited longest, where there is one."""
        waiting = list(self.due.items())
        if waiting:
            self.end(min(waiting, key=lambda each: each[1])[0])

    def end(self, connection: socket.socket) -> None:
        """Ends a connection for both sides; its thread notices, and goes."""
        self.wait(connection, math.inf)
        with suppress(OSError):
            connection.shutdown(socket.SHUT_RDWR)

    def wait(self, connection: socket.socket, seconds: float) -> bool:
        """Has a connection be waited for so long, and answers whether it is there and was not ended."""
        with self.lock:
            is_there = self.due.get(connection, math.inf) < math.inf
            if is_there:
                self.due[connection] = self.clock() + seconds
            return is_there

    def press(self) -> None:
        """Ends the connection that takes its answer most slowly."""
        slow = [(since, connection) for connection, since in list(self.begun.items()) if since + SLOW < self.clock()]
        if slow:
            self.end(min(slow, key=lambda each: each[0])[1])

    @contextmanager
    def sending(self, connection: socket.socket) -> Iterator[None]:
        """While an answer is sent, it is known since when."""
        self.begun[connection] = self.clock()
        try:
            yield
        finally:
            self.begun.pop(connection, None)

    def server_close(self) -> None:
        super().server_close()
        self.answers.close()

    def shutdown_request(self, request: Incomer) -> None:
        with self.lock:
            self.due.pop(connection_of(request), None)
        super().shutdown_request(request)

    def handle_error(self, request: Incomer, client_address: object) -> None:
        """A reader that goes away in the middle is no fault; anything else is told."""
        if not isinstance(sys.exc_info()[1], OSError):
            super().handle_error(request, client_address)

    def is_own(self, url: str) -> bool:
        """Whether a URL's host is this one, so that no other site's name leads here; at an address for all, any may."""
        try:
            host = urlsplit(url).hostname
        except ValueError:
            return False
        return not self.is_loopback or host in (*LOOPBACK, self.address)

    @property
    def is_loopback(self) -> bool:
        """Whether this machine alone can reach the server."""
        return self.address in LOOPBACK or self.address.startswith("127.")

    @property
    def url(self) -> str:
        host = f"[{self.address}]" if ":" in self.address else self.address
        return f"http://{host}:{self.server_address[1]}/"


def spare_memory() -> None:
    """Has threads take little memory and turns, and what is in a cycle be given back: a server is there for long."""
    gc.enable()
    sys.setswitchinterval(TURN)
    threading.stack_size(STACK)
    with suppress(AttributeError, OSError):
        ctypes.CDLL(None).mallopt(MOST_HEAPS, HEAPS)


def stay(answers: Answers, versions: int, program: Callable[[], Chosen]) -> None:
    """Has programs stay: one with the tables of so many versions, and one that computes nights."""

    def tell(line: str) -> None:
        warn([line])

    answers.memory = Memory(answers.folder, answers.tables, program, versions, tell)
    answers.nights = NightServer(answers.folder, program, tell)


def run(words: Words) -> Status:
    port = whole_number(words.option("--port", str(USUAL_PORT)), "--port", 0, 65535)
    promise = whole_number(words.option("--promise", str(USUAL_PROMISE)), "--promise", 1, LONGEST)
    address = words.option("--address", LOOPBACK[0])
    versions = whole_number(words.option("--versions", str(USUAL)), "--versions", LEAST, MOST)
    spare_memory()
    answers = Answers(words.folder, promise)
    if not words.from_files:
        stay(answers, versions, lambda: ready(words.named, words.unproved))
    try:
        server = Server(address, port, answers)
    except OSError as error:
        raise Failure(NOT_WRITTEN, f"port {port} of {address} cannot be served: {error.strerror}") from error
    if not server.is_loopback:
        warn([f"other machines read it too at {address}: it knows no users and no encryption; put a proxy in front that does"])
    with server:
        if answers.memory and answers.nights:
            answers.memory.start()
            answers.nights.start()
        print(f"{words.folder} is read at {server.url}; a session is promised {promise:,} seconds", flush=True)
        server.serve_forever()
    return DONE
