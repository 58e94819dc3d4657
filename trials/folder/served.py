"""Served folders beside drawn nights: what comes from the memory of a program that stays has to be what files give, byte for byte.

Nights are drawn and kept, and some versions are rolled back. Beside them readers ask for drawn pages, each at a connection of its own, in
sessions and without; each answer is compared at once with that of the same folder read from files alone. A client asks for much and reads
nothing. The program is killed at drawn moments, or stopped, so that it answers no more: no request may fail, and another program has to
begin. In quiet nights, in which nobody kills it, one program has to follow all, and the pages of the versions that it keeps come from it.

The gate runs another part by folder/nights: a hundred readers beside ten nights, of whom each is given one version's rows, whole.
"""

import json
import os
import random
import signal
import socket
import subprocess
import tempfile
import threading
import time
from contextlib import contextmanager
from http.client import HTTPConnection
from pathlib import Path

from trials.drawn.shop import BASES, Shop, lay, put_changes
from trials.oracle.tables import bag_of, text_of
from upkeep.words import ROOT, program, words_with_program
from whview.folder.answers import Answers, Request
from whview.folder.memory import Memory
from whview.folder.serve import Server
from whview.program import Chosen

# Between two views a reader looks at what was read, for so many seconds at most.
READERS, NIGHTS, ORDERS, KEPT, PAUSE = 100, 10, 300, 2, 1
VIEWS = (*BASES, "sales", "daily_by_product", "daily_by_region")


class Wrong(Exception):
    """An answer that is no version's, or one that there should not be."""


class Reader(threading.Thread):
    """A reader, who reads views page by page until the nights are over: in a session, or each view in the version of its first page."""

    def __init__(self, port, seed, is_over, seen):
        super().__init__(daemon=True)
        self.port, self.source, self.is_over, self.seen = port, random.Random(seed), is_over, seen
        self.fault, self.views, self.gone, self.longest = None, 0, 0, 0.0

    def run(self):
        try:
            self.connection = HTTPConnection("127.0.0.1", self.port, timeout=60)
            while not self.is_over.is_set():
                self.in_a_session() if self.source.random() < 0.5 else self.whole_view("", None)
                self.is_over.wait(self.source.random() * PAUSE)
        except Exception as fault:
            self.fault = f"{type(fault).__name__}: {fault}"

    def asked(self, path, method="GET"):
        """The status of an answer and what it says."""
        began = time.monotonic()
        self.connection.request(method, path)
        answer = self.connection.getresponse()
        said = json.loads(answer.read())
        self.longest = max(self.longest, time.monotonic() - began)
        return answer.status, said

    def in_a_session(self):
        """Two views in one session are of one version."""
        status, session = self.asked("/session", "POST")
        if status != 201:
            raise Wrong(f"a session is answered {status}: {session}")
        for _ in range(2):
            self.whole_view(f"&session={session['session']}", session["version"])
        self.asked(f"/session/{session['session']}", "DELETE")

    def whole_view(self, more, version):
        """Reads a view to its end, and notes it with its version. Without a session its version may be pruned in between."""
        name, rows, after, limit = self.source.choice(VIEWS), [], 0, self.source.choice([100, 1000])
        while after is not None:
            pinned = "" if version is None else f"&version={version}"
            status, page = self.asked(f"/{name}?after={after}&limit={limit}{pinned}{more}")
            if status == 410 and not more:
                self.gone += 1
                return
            if status != 200 or version not in (None, page["version"]):
                raise Wrong(f"{name} of version {version} is answered {status}: {str(page)[:200]}")
            version, after = page["version"], page["next"]
            rows += [tuple(map(str, row.values())) for row in page["rows"]]
        self.seen.append((version, name, rows))
        self.views += 1


def tables(folder):
    """The rows of all views of the current version, with their counts."""
    kinds = {name: "data" if name in BASES else "views" for name in VIEWS}
    return {name: bag_of(text_of(folder / "current" / kind / f"{name}.csv")) for name, kind in kinds.items()}


def night(built, folder, changes):
    """A night that is kept; two versions stay, and those that readers hold."""
    put_changes(folder, changes)
    words = [ROOT / "whview", "folder", "night", folder, "--commit", "--keep", str(KEPT), "--program", built]
    subprocess.run(words, check=True, stdout=subprocess.DEVNULL)


def first(built, folder):
    """A folder with its first night, and its shop."""
    shop = Shop(random.Random(49), ORDERS, 3 * ORDERS)
    lay(folder)
    night(built, folder, {name: [(1, row) for row in rows] for name, rows in shop.rows.items()})
    return shop


def judge(readers, seen, expected):
    """What is wrong with what readers saw, or None."""
    faults = [reader.fault for reader in readers if reader.fault]
    if faults:
        return faults[0]
    for version, name, rows in seen:
        if version not in expected:
            return f"a reader was given version {version}, which there never was"
        found = {tuple(cells): int(count) for count, *cells in rows}
        if found != expected[version][name] or len(found) != len(rows):
            return f"{name} of version {version} was given to a reader with other rows than it has"
    return None


def nights_beside_readers(built, folder):
    """How many views were read and how many of their versions were gone, of how many versions, and the longest answer."""
    shop = first(built, folder)
    words = [ROOT / "whview", "folder", "serve", folder, "--port", "0", "--program", built]
    expected, seen, is_over = {1: tables(folder)}, [], threading.Event()
    with subprocess.Popen(words, stdout=subprocess.PIPE, text=True) as server:
        try:
            port = int(server.stdout.readline().partition("127.0.0.1:")[2].partition("/")[0])
            readers = [Reader(port, seed, is_over, seen) for seed in range(READERS)]
            for reader in readers:
                reader.start()
            for number in range(2, NIGHTS + 2):
                night(built, folder, shop.night(ORDERS // 20, ORDERS // 10))
                expected[number] = tables(folder)
            is_over.set()
            for reader in readers:
                reader.join(60)
        finally:
            is_over.set()
            server.terminate()
    fault = judge(readers, seen, expected)
    if fault:
        raise Wrong(fault)
    versions = len({version for version, _, _ in seen})
    return len(seen), sum(reader.gone for reader in readers), versions, max(reader.longest for reader in readers)


# ---- a program that stays, beside files

COUNT, SEED, CLIENTS, VERSIONS, SOON = 12, 20261201, 6, 3, 60
FORMS, LIMITS = ("json", "csv", "jsonl"), (1, 20, 256, 257, 1000)


class Comparing:
    """A folder that is served with a program's memory, and the same from files: the sessions of both are the same ones."""

    def __init__(self, built, folder):
        self.folder, self.told, self.server = folder, [], None
        self.answers, self.files = Answers(folder, 900), Answers(folder, 900)
        self.files.sessions = self.answers.sessions
        self.memory = Memory(folder, self.answers.tables, lambda: Chosen(built, "named"), VERSIONS, self.told.append)
        self.answers.memory = self.memory

    @contextmanager
    def served(self):
        """The port of a server of it."""
        self.server = Server("127.0.0.1", 0, self.answers)
        thread = threading.Thread(target=self.server.serve_forever, daemon=True)
        with self.server:
            self.memory.start()
            thread.start()
            try:
                yield self.server.server_address[1]
            finally:
                self.server.shutdown()
                thread.join()

    def judge(self, path, status, headers, body):
        """Compares an answer with that of files."""
        wanted = self.files.answer(Request("GET", path))
        same = {name: headers[name] for name in wanted.headers} == dict(wanted.headers)
        if (status, body) != (wanted.status, wanted.body) or not same:
            raise Wrong(f"{path} is answered {status} {body[:200]!r}, and by files {wanted.status} {wanted.body[:200]!r}")

    def has(self, version):
        """Whether the program keeps a version."""
        return version in [number for number, _ in self.memory.kept]

    def await_version(self, version):
        """Waits until the program keeps a version."""
        due = time.monotonic() + SOON
        while not self.has(version):
            if time.monotonic() > due:
                raise Wrong(f"version {version} did not come into memory: {self.told}")
            time.sleep(0.01)


class Client(threading.Thread):
    """A reader of drawn pages, until the nights are over."""

    def __init__(self, comparing, port, seed, is_over):
        super().__init__(daemon=True)
        self.comparing, self.port, self.source, self.is_over = comparing, port, random.Random(seed), is_over
        self.fault, self.answers = None, 0

    def run(self):
        try:
            self.connection = HTTPConnection("127.0.0.1", self.port, timeout=60)
            while not self.is_over.is_set():
                self.in_a_session()
        except Exception as fault:
            self.fault = f"{type(fault).__name__}: {fault}"

    def asked(self, path, method="GET"):
        """The status, the headers and the body of an answer."""
        self.connection.request(method, path)
        answer = self.connection.getresponse()
        return answer.status, answer.headers, answer.read()

    def in_a_session(self):
        """Some pages in one session, which is left then."""
        status, _, body = self.asked("/session", "POST")
        if status != 201:
            raise Wrong(f"a session is answered {status}: {body}")
        name = json.loads(body)["session"]
        for _ in range(self.source.randrange(1, 12)):
            path = self.path(name)
            self.comparing.judge(path, *self.asked(path))
            self.answers += 1
            self.is_over.wait(self.source.random() * 0.05)
        self.asked(f"/session/{name}", "DELETE")

    def path(self, session):
        """A page that is drawn."""
        after = self.source.choice((0, self.source.randrange(1200), self.source.randrange(1200)))
        form, limit = self.source.choice(FORMS), self.source.choice(LIMITS)
        return f"/{self.source.choice(VIEWS)}?after={after}&limit={limit}&format={form}&session={session}"


def idle_client(port):
    """A client that asks for much, and reads nothing."""
    connection = socket.create_connection(("127.0.0.1", port))
    connection.setsockopt(socket.SOL_SOCKET, socket.SO_RCVBUF, 4096)
    connection.sendall(b"GET /lines?limit=10000 HTTP/1.1\r\nHost: localhost\r\n\r\n" * 20)
    return connection


def disturb(comparing, source, is_over):
    """Kills or stops the program at drawn moments."""
    while not is_over.wait(source.random() * 3):
        keeping = comparing.memory.keeping
        if keeping and not keeping.lost:
            keeping.talk.process.send_signal(source.choice((signal.SIGKILL, signal.SIGKILL, signal.SIGSTOP)))


def rolled_back(folder):
    """Rolls back to the version before the last one, which makes the next one."""
    versions = sorted(int(name) for name in os.listdir(folder / "versions") if name.isdecimal())
    subprocess.run([ROOT / "whview", "folder", "rollback", folder, str(versions[-2])], check=True, stdout=subprocess.DEVNULL)


def nights(built, comparing, shop, source, count):
    """Draws and keeps nights, and waits for a while behind each."""
    for number in range(count):
        before = {name: list(rows) for name, rows in shop.rows.items()}
        night(built, comparing.folder, shop.night(ORDERS // 20, ORDERS // 10))
        time.sleep(source.random())
        if number % 4 == 3:
            rolled_back(comparing.folder)
            shop.rows = before


def quiet_nights(built, comparing, shop, count):
    """Nights that one program follows, each of which is waited for."""
    begun = comparing.memory.begun
    for _ in range(count):
        night(built, comparing.folder, shop.night(ORDERS // 20, ORDERS // 10))
        comparing.await_version(int(os.readlink(comparing.folder / "current").rpartition("/")[2]))
    if comparing.memory.begun != begun:
        raise Wrong(f"a program did not follow quiet nights: {comparing.told}")


def judged(comparing, clients):
    """How many answers there were, and how many pages came from memory, where none was wrong."""
    faults = [client.fault for client in clients if client.fault]
    if faults:
        raise Wrong(faults[0])
    answers, pages = sum(client.answers for client in clients), comparing.memory.pages
    if not 0 < pages <= answers + CLIENTS * 20:
        raise Wrong(f"of {answers} answers {pages} came from memory: {comparing.told}")
    return answers, pages


def tried(built, folder, count, seed):
    """Nights and readers of one folder; what came of it."""
    source, shop, is_over = random.Random(seed), first(built, folder), threading.Event()
    comparing = Comparing(built, folder)
    with comparing.served() as port:
        comparing.await_version(1)
        clients = [Client(comparing, port, seed + number, is_over) for number in range(CLIENTS)]
        idle, calm = idle_client(port), threading.Event()
        try:
            for client in clients:
                client.start()
            quiet_nights(built, comparing, shop, count // 3)
            disturbing = threading.Thread(target=disturb, args=(comparing, source, calm), daemon=True)
            disturbing.start()
            nights(built, comparing, shop, random.Random(seed), count - count // 3)
            calm.set()
            disturbing.join()
            quiet = comparing.memory.pages
            comparing.await_version(int(os.readlink(folder / "current").rpartition("/")[2]))
            time.sleep(1)
            if comparing.memory.pages == quiet:
                raise Wrong(f"nothing comes from memory any more: {comparing.told}")
        finally:
            calm.set()
            is_over.set()
            for client in clients:
                client.join(60)
            idle.close()
    answers, pages = judged(comparing, clients)
    print(f"{answers} answers beside {count} nights, {pages} of them from memory, by {comparing.memory.begun} programs: all as from files")


def main():
    asked = words_with_program(__doc__, COUNT, SEED).parse_args()
    with tempfile.TemporaryDirectory() as room:
        try:
            tried(program(asked.program), Path(room) / "shop", asked.count, asked.seed)
        except Wrong as wrong:
            print(f"trials/run folder/served: {wrong}")
            return 1
    return 0
