"""The servers of a warehouse, over HTTP: each statement is sent once, and an answer is whole or an error. A connection that was in use a
moment ago is used again.

Something on the way may send a statement twice all the same. What puts rows in has a token, by which a server does not carry it out beside
itself, and is written so that it takes effect once.
"""

from __future__ import annotations

import json
import os
import re
import secrets
import select
import ssl
import time
from collections.abc import Callable, Iterator, Mapping, Sequence
from concurrent.futures import ThreadPoolExecutor
from http.client import HTTPConnection, HTTPException, HTTPResponse, HTTPSConnection
from typing import Any, NamedTuple, TypeAlias, TypeVar
from urllib.parse import urlencode

from ..finding import Failure
from ..sql.slots import Where
from . import releases
from .status import REFUSED
from .streaming import lines_of

OVERFLOWS = "read read_leaf group_by sort result timeout timeout_leaf set join transfer distinct".split()
# What a statement rests on, whatever a profile says; each is sent where the server has it.
WANTED: dict[str, int | str] = {
    "insert_distributed_sync": 1,
    "distributed_foreground_insert": 1,
    "insert_deduplicate": 0,
    "join_use_nulls": 0,
    "enable_optimize_predicate_expression": 0,
    "joined_subquery_requires_alias": 0,
    "prefer_column_name_to_alias": 0,
    "mutations_sync": 0,
    "async_insert": 0,
    "fsync_metadata": 1,
    "data_type_default_nullable": 0,
    "use_query_cache": 0,
    # A table that was dropped is gone when that is answered, in ZooKeeper too, so that one of its name can be made.
    "database_atomic_wait_for_drop_and_detach_synchronously": 1,
    # What servers say is added up, once for all of them, and where there is nothing that is told by a 0.
    "distributed_group_by_no_merge": 0,
    "distributed_product_mode": "deny",
    "optimize_skip_unused_shards": 0,
    "empty_result_for_aggregation_by_empty_set": 0,
    "aggregate_functions_null_for_empty": 0,
    "group_by_use_nulls": 0,
    "decimal_check_overflow": 1,
    "extremes": 0,
    # Rows that are left out without a word: of a server that is down, of what is more than a limit, of what cannot be read.
    "skip_unavailable_shards": 0,
    **{f"{what}_overflow_mode": "throw" for what in OVERFLOWS},
    "input_format_allow_errors_num": 0,
    "input_format_allow_errors_ratio": 0,
    "limit": 0,
    "offset": 0,
    "max_query_size": 2**30,
    "max_ast_depth": 10**6,
    "max_ast_elements": 10**7,
    "max_expanded_ast_elements": 10**7,
    "max_result_rows": 0,
    "max_result_bytes": 0,
    # What a fold or a read of a large table adds up and sorts goes over the disk from here on.
    "max_bytes_before_external_group_by": 2**28,
    "max_bytes_before_external_sort": 2**28,
    "distributed_aggregation_memory_efficient": 1,
}
# Those of them without which rows could be left out, added up otherwise or told of otherwise.
OF_ROWS = re.compile("skip_|join_use|_overflow_mode|no_merge|product_mode|^limit|^offset|_for_empty|by_empty_set|group_by_use|query_cache|extremes")
CODE = re.compile(rb"Code: (\d+)[.,] (?:e\.displayText\(\) = )?(?:DB::Exception: )?(.*?)(?:, e\.what\(\).*)?\s*", re.DOTALL)
# Codes of a server: a name is taken; a table is not there, or went while a question was begun; of several that are asked none is there;
# a test raised.
TAKEN, GONE, NONE_THERE, RAISED = 57, (60, 218), 36, 395

# So many bytes of an answer are looked at, at a time.
BLOCK = 2**18
# For so many seconds a connection is used again; servers keep one for 3 at least.
YOUNG = 1
# How long a server may take to be reached, and then to answer a statement.
REACHED, PATIENCE = 20, 3600
# The rows of an answer, whose cells are what JSON has: who asks knows their kinds, and makes of each row what it is.
Rows: TypeAlias = list[list[Any]]
T = TypeVar("T")


class Given(NamedTuple):
    """Rows that go over with a statement, which has them as the table `_data`: the types of their columns, and the rows as lines."""

    types: str
    rows: bytes


class Key(NamedTuple):
    """Who asks a server, and by which password."""

    user: str = "default"
    password: str = ""


class Idle(NamedTuple):
    """A connection that waits for the next statement: since when, and of which process."""

    connection: HTTPConnection
    since: float
    process: int


class Told(Exception):
    """An error that a server names by a code."""

    def __init__(self, server: Server, code: int, text: str) -> None:
        text = " ".join(text.split())
        super().__init__(f"{server}: {text} (code {code})")
        self.server, self.code, self.text = server, code, text


class Lost(Exception):
    """No whole answer came: what was sent was carried out or not."""


class Server:
    """A server by its address. It is asked by HTTPS where there is a way to know it, and waited for an answer for so many seconds."""

    def __init__(self, address: str, key: Key = Key(), tls: ssl.SSLContext | None = None, seconds: int = PATIENCE) -> None:
        self.address, self.key, self.tls, self.seconds = address, key, tls, seconds
        self.settings: dict[str, int | str] = {}
        self.only_reads = False
        # Its release, as it tells that; empty where nobody asked.
        self.release = ""
        self.idle: list[Idle] = []

    def __str__(self) -> str:
        return self.address

    def connection(self) -> HTTPConnection:
        host, _, port = self.address.rpartition(":")
        host = host.strip("[]")
        if self.tls:
            return HTTPSConnection(host, int(port), timeout=REACHED, context=self.tls)
        return HTTPConnection(host, int(port), timeout=REACHED)

    def sent(self, said: str, given: Given | None = None, **more: str) -> bytes:
        """The bytes of the answer to a statement, with which rows may go; with it more may be said, as the engine calls it."""
        words: dict[str, int | str] = {"wait_end_of_query": 1, **self.settings, **more}
        headers, content, boundary = self.headers(), said.encode(), secrets.token_hex(16)
        if given:
            headers["Content-Type"] = f"multipart/form-data; boundary={boundary}"
            content = parts_of(content, given, boundary)
            words["_data_types"] = given.types
        connection = self.idle_connection() or self.connection()
        try:
            answer = self.answer(connection, content, words, headers)
            content = answer.read()
        except (OSError, HTTPException, UnicodeError) as error:
            connection.close()
            raise Lost(f"{self}: no whole answer came ({error or type(error).__name__})") from error
        except BaseException:
            connection.close()
            raise
        self.keep(connection, answer)
        return self.judged(answer.status, content)

    def keep(self, connection: HTTPConnection, answer: HTTPResponse) -> None:
        """Keeps a connection for the next statement, where the server does too."""
        if answer.will_close or connection.sock is None:
            connection.close()
        else:
            self.idle.append(Idle(connection, time.monotonic(), os.getpid()))

    def idle_connection(self) -> HTTPConnection | None:
        """A connection that was in use a moment ago, on which nothing came since: no end either. One that lay longer the server may be about
        to close, and what is sent then is lost."""
        while self.idle:
            try:
                found = self.idle.pop()
            except IndexError:
                return None
            is_young = time.monotonic() - found.since < YOUNG and found.process == os.getpid()
            if is_young and not select.select([found.connection.sock], [], [], 0)[0]:
                return found.connection
            found.connection.close()
        return None

    def lines(self, said: str) -> Iterator[bytes]:
        """The lines of an answer as they come. The server waits for its end before it sends any of it, so an error comes alone."""
        connection = self.connection()
        try:
            answer = self.answer(connection, f"{said} FORMAT TabSeparated".encode(), {"wait_end_of_query": 1, **self.settings}, self.headers())
            if answer.status != 200:
                self.judged(answer.status, answer.read())
            yield from lines_of(iter(lambda: answer.read(BLOCK), b""))
        except (OSError, HTTPException, UnicodeError) as error:
            raise Lost(f"{self}: no whole answer came ({error or type(error).__name__})") from error
        finally:
            connection.close()

    def headers(self) -> dict[str, str]:
        """Who asks."""
        return {"X-ClickHouse-User": quote_header(self.key.user), "X-ClickHouse-Key": quote_header(self.key.password)}

    def answer(self, connection: HTTPConnection, content: bytes, words: Mapping[str, int | str], headers: dict[str, str]) -> HTTPResponse:
        """What comes for a statement over a connection."""
        is_new = connection.sock is None
        if is_new:
            connection.connect()
            connection.sock.settimeout(self.seconds)
        connection.request("POST", "/?" + urlencode(words), content, headers)
        return connection.getresponse()

    def judged(self, status: int, content: bytes) -> bytes:
        """What a server answers, where it is no error; an error is told by its code, whatever the status is."""
        code = CODE.fullmatch(content)
        if code and (status != 200 or content.startswith(b"Code: ")):
            raise Told(self, int(code[1]), code[2].decode(errors="replace").strip()[:300])
        if status != 200:
            raise Lost(f"{self}: no server's answer, of status {status}: {content[:120].decode(errors='replace')!r}")
        return content

    def carried(self, said: str, given: Given | None = None, token: str = "") -> None:
        """A statement that answers nothing. While one with its token is carried out, the server carries no second one out."""
        answer = self.sent(said, given, **({"query_id": token} if token else {}))
        if answer.strip():
            raise Told(self, 0, f"an answer where none was meant: {answer[:120].decode(errors='replace')!r}")

    def asked(self, said: str, **more: str) -> Rows:
        """The rows of a question. They come as one value, so that what ends in the middle is no answer."""
        answer = self.sent(f"{said} FORMAT JSONCompact", None, **more)
        try:
            found = json.loads(answer)
            rows: Rows = found["data"]
            if len(rows) != found["rows"]:
                raise ValueError
        except (ValueError, KeyError, TypeError) as error:
            raise Lost(f"{self}: an answer that is not whole: {answer[-120:].decode(errors='replace')!r}") from error
        return rows

    def learn(self) -> None:
        """Of which release the server is, and which of the settings it has. Who may only read cannot say any; theirs have to be so that no rows are left out."""
        there = {name: value for name, value in self.asked(releases.QUESTION)}
        self.release = there.pop(releases.RELEASE, "")
        wanted = {name: value for name, value in WANTED.items() if name in there}
        self.only_reads = there.get("readonly") == "1"
        if not self.only_reads:
            self.settings = wanted
        elif wrong := [name for name, value in wanted.items() if OF_ROWS.search(name) and there[name] != str(value)]:
            told = f"{self.key.user} may only read, by a profile with {wrong[0]} = {there[wrong[0]]}, which has to be {wanted[wrong[0]]}"
            raise Failure(REFUSED, f"whview cluster: {self}: {told}: rows could be left out")


def parts_of(said: bytes, given: Given, boundary: str) -> bytes:
    """A statement and the rows that go with it as the parts of one body."""
    line = f"--{boundary}\r\nContent-Disposition: form-data; name=".encode()
    end = f"\r\n--{boundary}--\r\n".encode()
    return b"".join([line, b'"query"\r\n\r\n', said, b"\r\n", line, b'"_data"; filename="rows"\r\n\r\n', given.rows, end])


def quote_header(said: str) -> str:
    """A header's value, byte by byte."""
    return said.encode().decode("latin-1")


class Servers:
    """The servers in their order; the first one has the versions."""

    def __init__(self, servers: Sequence[Server]) -> None:
        self.all = servers

    @property
    def first(self) -> Server:
        return self.all[0]

    def __len__(self) -> int:
        return len(self.all)

    def each(self, do: Callable[[Server], T]) -> list[T]:
        """What `do` makes of each server, side by side; it is waited for all of them, and then the first error is told."""
        with ThreadPoolExecutor(len(self.all)) as pool:
            jobs = [pool.submit(do, server) for server in self.all]
        return [job.result() for job in jobs]

    def of(self, where: Where) -> Servers:
        """Those that a statement is for."""
        return self if where is Where.EACH else Servers([self.first])


def context(authorities: str | None) -> ssl.SSLContext:
    """How a server is known over https."""
    return ssl.create_default_context(cafile=authorities)
