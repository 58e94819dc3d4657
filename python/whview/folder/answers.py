"""What a folder answers to those who read over the net: rows of one version, what there is, sessions, and pages of nights.

A path is a view's name or one of a few others; it never leads to a file by itself.
"""

from __future__ import annotations

import json
import os
import re
import socket
from collections.abc import Iterator, Mapping
from contextlib import contextmanager
from http import HTTPStatus
from http.cookies import CookieError, SimpleCookie
from pathlib import Path
from threading import BoundedSemaphore
from types import MappingProxyType
from typing import NamedTuple, overload
from urllib.parse import parse_qsl, unquote, urlencode, urlsplit

from ..finding import Failure, of_system
from ..status import BAD_WORDS
from .blocks import Damaged, opened
from .choosing import Choice, choice_of
from .forms import Form
from .held import Held
from .jobs import Job
from .memory import Memory
from .night_server import NightServer
from .pages import DEADLINE, FORMS, Page, Unfit, bytes_of, page_of
from .reading import Far, Missing, Tables, VersionKey, key_of, version_tables, whole_number
from .room import Crowded, Room
from .scans import Busy, Scans
from .serve_page import is_page_of, page_of_versions
from .sessions import Full, Over, Session, Sessions
from .versions import VERSIONS, named, whole

# How many pages of rows are made at once; each takes memory, and one processor makes them all. A table of so few bytes is searched at once.
AT_ONCE, SMALL = 8, 2**18
USUAL, MOST, MOST_FIELDS, SHOWN = 1_000, 10_000, 20, 80
# How large a report is at most that is given, how much room a page takes beside its rows, and when what there is no room or place for is
# asked for again, in seconds.
MOST_OF_A_REPORT, MORE, AGAIN = 2**22, 2**12, {"Retry-After": "1"}
FIELDS, SEVERAL = ("version", "after", "limit", "format", "session", "where", "order", "columns"), ("where",)
REPORT = re.compile(r"/reports/((?:0|[1-9][0-9]{0,18}|preview)\.html)")
SESSION = re.compile(r"/session/([A-Za-z0-9_-]{1,64})")
KIND, HTML = "application/json", "text/html; charset=utf-8"
KINDS = {Form.JSON: KIND, Form.CSV: "text/csv; charset=utf-8; header=present", Form.LINES: "application/jsonl"}


class Refused(Exception):
    """A request that is refused, with its status and a line that says why."""

    def __init__(self, status: int, text: str, **headers: str) -> None:
        super().__init__(status, text)
        self.status, self.text, self.headers = status, text, headers


class Request(NamedTuple):
    """A request: its method, its target, the headers that are looked at, whence it comes, and the connection, which may end before."""

    method: str
    target: str
    cookie: str = ""
    accept: str = ""
    address: str = ""
    connection: socket.socket | None = None


class Answer(NamedTuple):
    """An answer: its status, what its body is, the body, further headers, and how much room is to be given back when it was sent."""

    status: int
    kind: str
    body: bytes
    headers: Mapping[str, str] = MappingProxyType({})
    held: int = 0


class Fields:
    """The fields of a query by their names, in the order in which they first stand, each with its values; only some may have several."""

    def __init__(self, given: Mapping[str, list[str]]) -> None:
        self.given = given

    @overload
    def one(self, name: str) -> str | None: ...

    @overload
    def one(self, name: str, usual: str) -> str: ...

    def one(self, name: str, usual: str | None = None) -> str | None:
        """The value of a field that stands once at most, or the usual one without it."""
        values = self.given.get(name)
        return values[0] if values else usual

    @property
    def where(self) -> list[str]:
        """The conditions."""
        return self.given.get("where", [])

    def without_session(self) -> Fields:
        """All but the session."""
        return Fields({name: values for name, values in self.given.items() if name != "session"})

    def query_behind(self, version: int, after: int, limit: int) -> str:
        """The query that asks for so many rows more of the same, behind a row, in this version."""
        behind = {"version": [str(version)], "after": [str(after)], "limit": [str(limit)]}
        return urlencode({**self.given, **behind}, doseq=True)


def as_json(status: int, found: object, **headers: str) -> Answer:
    """An answer that is one JSON object in a line."""
    return Answer(status, KIND, (json.dumps(found, ensure_ascii=False) + "\n").encode(), headers)


def shown(text: str) -> str:
    """A text of the request as a line of an answer has it."""
    return repr(text[:SHOWN])


def parts_of(target: str) -> tuple[str, str]:
    """The path and the query of a target. What comes is bytes, a character each; they are UTF-8, also where they are not quoted."""
    try:
        parts = urlsplit(target.encode("latin-1").decode())
        return unquote(parts.path, errors="strict"), parts.query
    except ValueError:
        raise Refused(HTTPStatus.BAD_REQUEST, "the target is no path with a query") from None


def fields_of(query: str) -> Fields:
    """The fields of a query, each once at most, but for those that may stand several times."""
    try:
        pairs = parse_qsl(query, keep_blank_values=True, strict_parsing=bool(query), max_num_fields=MOST_FIELDS, errors="strict")
    except ValueError:
        raise Refused(HTTPStatus.BAD_REQUEST, "the query is not NAME=VALUE&NAME=VALUE, or has too many of these") from None
    found: dict[str, list[str]] = {}
    for name, value in pairs:
        if name not in FIELDS:
            raise Refused(HTTPStatus.BAD_REQUEST, f"there is no field {shown(name)}; there are {', '.join(FIELDS)}")
        if name in found and name not in SEVERAL:
            raise Refused(HTTPStatus.BAD_REQUEST, f"{name} stands twice")
        found.setdefault(name, []).append(value)
    return Fields(found)


def form_asked(request: Request, fields: Fields) -> Form:
    """In which form rows are asked for."""
    asked = fields.one("format", Form.CSV if "text/csv" in request.accept else Form.JSON)
    if asked not in FORMS:
        raise Refused(HTTPStatus.BAD_REQUEST, f"format is {', '.join(FORMS[:-1])} or {FORMS[-1]}, and not {shown(asked)}")
    return Form(asked)


def cookie_of(text: str) -> str | None:
    """The session that a browser's cookie names, or None."""
    try:
        cookies: SimpleCookie[str] = SimpleCookie(text[:4096])
    except CookieError:
        return None
    cookie = cookies.get("session")
    return cookie.value if cookie else None


@contextmanager
def refusing() -> Iterator[None]:
    """Has what a command would refuse be refused over the net."""
    try:
        yield
    except Missing as failure:
        raise Refused(HTTPStatus.NOT_FOUND, str(failure.lines[0])) from None
    except Damaged as failure:
        raise Refused(HTTPStatus.INTERNAL_SERVER_ERROR, str(failure.lines[0])) from None
    except Unfit as unfit:
        raise Refused(HTTPStatus.SERVICE_UNAVAILABLE, str(unfit)) from None
    except Busy:
        raise Refused(HTTPStatus.SERVICE_UNAVAILABLE, "there are as many searches as there may be; try again", **AGAIN) from None
    except Crowded:
        raise Refused(HTTPStatus.SERVICE_UNAVAILABLE, "there is no room for the answer; try again", **AGAIN) from None
    except Failure as failure:
        status = HTTPStatus.BAD_REQUEST if failure.status == BAD_WORDS else HTTPStatus.SERVICE_UNAVAILABLE
        raise Refused(status, str(failure.lines[0])) from None


class Answers:
    """What is answered of a folder."""

    def __init__(self, folder: Path, promise: float) -> None:
        self.folder, self.sessions, self.places = folder, Sessions(folder, promise), BoundedSemaphore(AT_ONCE)
        # What is known of the tables of versions, by their numbers and by what their folders are known.
        self.kept: dict[tuple[int, VersionKey], Tables] = {}
        self.room = Room()
        self.scans = Scans(self.room)
        # What a program that stays has of the newest versions, where there is one.
        self.memory: Memory | None = None
        # Who computes the folder's nights, where somebody does here.
        self.nights: NightServer | None = None

    def answer(self, request: Request) -> Answer:
        """The answer to a request, whatever it is."""
        try:
            path, query = parts_of(request.target)
            return self.route(request, path, fields_of(query))
        except Refused as refused:
            return as_json(refused.status, {"error": refused.text}, **refused.headers)
        except Over as over:
            return as_json(HTTPStatus.GONE, {"error": self.over_text(over), "version": over.version}, **cookie("", 0))

    def route(self, request: Request, path: str, fields: Fields) -> Answer:
        """Finds what is asked for by the path and the method."""
        found = SESSION.fullmatch(path)
        if request.method == "POST" and path == "/session":
            return self.begin(request)
        if request.method == "POST" and path == "/session/leave":
            return self.leave(request, fields.one("session") or cookie_of(request.cookie) or "")
        if request.method == "DELETE" and found:
            return self.leave(request, found[1])
        if request.method not in ("GET", "HEAD"):
            more = "DELETE" if found else "POST" if path in ("/session", "/session/leave") else ""
            allowed = ", ".join(filter(None, ("GET", "HEAD", more)))
            raise Refused(HTTPStatus.METHOD_NOT_ALLOWED, f"{request.method[:SHOWN]} is not answered here", Allow=allowed)
        if path == "/":
            return self.page(request, fields)
        if path == "/versions.json":
            return self.versions(request, fields)
        if found:
            return self.told_session(found[1])
        report = REPORT.fullmatch(path)
        return self.report(report[1]) if report else self.rows(request, path.removeprefix("/"), fields)

    # ---- sessions

    def begin(self, request: Request) -> Answer:
        """Opens a session at the current version."""
        try:
            with refusing():
                session = self.sessions.begin(request.address)
        except Full:
            text = "there are as many sessions as there may be, or as one address may have; try again later"
            raise Refused(HTTPStatus.SERVICE_UNAVAILABLE, text, **AGAIN) from None
        headers = cookie(session.name, int(self.sessions.promise))
        if "text/html" in request.accept:
            return Answer(HTTPStatus.SEE_OTHER, HTML, b"", headers | {"Location": "/"})
        return as_json(HTTPStatus.CREATED, self.about(session), Location=f"/session/{session.name}", **headers)

    def leave(self, request: Request, name: str) -> Answer:
        """Ends a session."""
        is_browser = "text/html" in request.accept
        try:
            is_left = self.sessions.leave(name)
        except Over:
            if not is_browser:
                raise
            is_left = True
        if is_browser:
            return Answer(HTTPStatus.SEE_OTHER, HTML, b"", {"Location": "/", **cookie("", 0)})
        if not is_left:
            raise Refused(HTTPStatus.NOT_FOUND, f"there is no session {shown(name)}")
        return as_json(HTTPStatus.OK, {"left": name}, **cookie("", 0))

    def about(self, session: Session) -> dict[str, str | int]:
        """What is told of a session."""
        return {"session": session.name, "version": session.pin.number, "seconds": int(self.sessions.left(session))}

    def told_session(self, name: str) -> Answer:
        """A session by its name, which there is."""
        session = self.sessions.find(name)
        if session is None:
            raise Refused(HTTPStatus.NOT_FOUND, f"there is no session {shown(name)}")
        return as_json(HTTPStatus.OK, self.about(session))

    def over_text(self, over: Over) -> str:
        """That a session is over, and why."""
        why = "left" if over.has_left else f"had its promised time, {self.sessions.promise:,} seconds"
        return f"this session {why}; it pinned version {over.version}, and another one is opened by POST /session"

    def session_of(self, request: Request, fields: Fields) -> Session | None:
        """The session that a request is of, or None."""
        name = fields.one("session") or cookie_of(request.cookie)
        if not name:
            return None
        session = self.sessions.find(name)
        if session is None and fields.one("session") is not None:
            raise Refused(HTTPStatus.NOT_FOUND, f"there is no session {shown(name)}")
        return session

    # ---- versions

    def held(self, request: Request, fields: Fields) -> Held:
        """The version that is read: the session's, one that is asked for, or the current one; held by the request itself."""
        session, asked = self.session_of(request, fields), fields.one("version")
        with refusing():
            number = None if asked is None else whole_number(asked, "version", 0, 2**63 - 1)
        if session and number not in (None, session.pin.number):
            text = f"this session pins version {session.pin.number}, and version {number} is asked for; leave it first"
            raise Refused(HTTPStatus.CONFLICT, text)
        number = session.pin.number if session else number
        try:
            held = Held(self.folder, number)
        except Failure as failure:
            raise self.lost(number, failure) from None
        except OSError as error:
            raise Refused(HTTPStatus.SERVICE_UNAVAILABLE, of_system(error)) from None
        if session and not os.path.sameopenfile(held.handle, session.pin.held.handle):
            held.release()
            raise Refused(HTTPStatus.GONE, f"version {number} is another one than this session pinned, which was moved away")
        return held

    def lost(self, number: int | None, failure: Failure) -> Refused:
        """Why a version cannot be read."""
        newest = max(whole(self.folder), default=-1)
        if number is None:
            return Refused(HTTPStatus.SERVICE_UNAVAILABLE, str(failure.lines[0]))
        if number < newest:
            return Refused(HTTPStatus.GONE, f"version {number} is no longer kept")
        return Refused(HTTPStatus.NOT_FOUND, f"there is no version {number}")

    def tables(self, held: Held) -> Tables:
        """The tables of a held version, which are the same as long as it is there."""
        key = held.number, key_of(os.fstat(held.handle))
        if key not in self.kept:
            there = set(whole(self.folder))
            self.kept = {each: tables for each, tables in list(self.kept.items()) if each[0] in there}
            self.kept[key] = version_tables(self.folder, held.number)
        return self.kept[key]

    # ---- what is read

    def rows(self, request: Request, name: str, fields: Fields) -> Answer:
        """A page of a view."""
        with refusing():
            after = whole_number(fields.one("after", "0"), "after", 0, 2**63 - 1)
            limit = whole_number(fields.one("limit", str(USUAL)), "limit", 1, MOST)
        form = form_asked(request, fields)
        with self.held(request, fields) as held, refusing():
            table = self.tables(held).table(name)
            choice = choice_of(table, fields.where, fields.one("order"), fields.one("columns"), after)
            page = self.remembered(choice, form, limit, held) or self.made(choice, form, limit, held)
            page = page or self.searched(request, fields, choice, form, limit, held)
        headers = {"X-Version": str(held.number)}
        if page.following is not None:
            query = fields.query_behind(held.number, page.following, limit)
            headers |= {"X-Next": str(page.following), "Link": f'</{name}?{query}>; rel="next"'}
        return Answer(HTTPStatus.OK, KINDS[form], page.body, headers, len(page.body))

    def remembered(self, choice: Choice, form: Form, limit: int, held: Held) -> Page | None:
        """The page of rows that a program has in memory; None of others."""
        if self.memory is None or not self.memory.has(held, choice):
            return None
        with self.room.share(bytes_of(limit) + MORE) as share, self.places:
            page = self.memory.page(held, choice, form, limit)
            share.kept = len(page.body) if page else 0
            return page

    def made(self, choice: Choice, form: Form, limit: int, held: Held) -> Page | None:
        """The page of rows that are soon found; None of others."""
        if not choice.is_plain and choice.table.size > SMALL:
            return None
        try:
            with self.room.share(bytes_of(limit) + MORE) as share, self.places:
                page = page_of(choice, form, limit, held.number, DEADLINE, choice.is_plain)
                share.kept = len(page.body)
                return page
        except Far:
            return None

    def searched(self, request: Request, fields: Fields, choice: Choice, form: Form, limit: int, held: Held) -> Page:
        """The page of rows that are searched for, by a process of its own. What it learns of places in the table is kept."""
        job = Job(
            str(self.folder),
            held.number,
            key_of(os.fstat(held.handle)),
            choice.table.name,
            choice.after,
            limit,
            form,
            tuple(fields.where),
            fields.one("order"),
            fields.one("columns"),
        )
        found = self.scans.page(job, request.connection)
        if found.told.mark:
            choice.table.mark(*found.told.mark)
        return Page(found.body, found.told.following)

    def versions(self, request: Request, fields: Fields) -> Answer:
        """The versions that there are, and the views of the one that is read."""
        with self.held(request, fields) as held, refusing():
            tables = self.tables(held)
            views = {name: tables.columns(name) for name in tables.paths}
            told = {name: dict(zip(columns.names, columns.kinds)) for name, columns in views.items()}
            found = {"current": named(self.folder), "versions": whole(self.folder), "version": held.number, "views": told}
        return as_json(HTTPStatus.OK, found)

    def page(self, request: Request, fields: Fields) -> Answer:
        """The page for a browser."""
        over: Over | None = None
        try:
            session = self.session_of(request, fields)
        except Over as found:
            session, over, request = None, found, request._replace(cookie="")
            fields = fields.without_session()
        with self.held(request, fields) as held, refusing():
            left = self.sessions.left(session) if session else None
            told = self.over_text(over) if over else ""
            text = page_of_versions(self.folder, self.tables(held), left, self.sessions.promise, told)
        return Answer(HTTPStatus.OK, HTML, text.encode(), cookie("", 0) if over else {})

    def report(self, name: str) -> Answer:
        """A page of a night, which `report` made; a link is none, nor is the page of a night whose number came again."""
        file, version = self.folder / "reports" / name, self.folder / VERSIONS / name.removesuffix(".html")
        try:
            if version.is_dir() and not is_page_of(file, version):
                raise FileNotFoundError
            found = opened(file, os.O_NOFOLLOW)
        except (OSError, Damaged):
            asked = "new" if version.name == "preview" else version.name
            made = f"`whview folder report {self.folder} {asked}` makes it"
            raise Refused(HTTPStatus.NOT_FOUND, f"there is no report {name}; {made}") from None
        with found, refusing(), self.room.share(MOST_OF_A_REPORT) as share:
            body = found.read(MOST_OF_A_REPORT + 1)
            if len(body) > MOST_OF_A_REPORT:
                text = f"report {name} has more than {MOST_OF_A_REPORT:,} bytes; read it by its file"
                raise Refused(HTTPStatus.SERVICE_UNAVAILABLE, text)
            share.kept = len(body)
        return Answer(HTTPStatus.OK, HTML, body, {}, len(body))

    def close(self) -> None:
        """Ends the searches, and the programs that stay."""
        self.scans.close()
        if self.nights:
            self.nights.close()
        if self.memory:
            self.memory.close()


def cookie(name: str, seconds: int) -> dict[str, str]:
    """The header by which a browser keeps a session, or forgets it."""
    return {"Set-Cookie": f"session={name}; HttpOnly; SameSite=Strict; Path=/; Max-Age={seconds}"}
