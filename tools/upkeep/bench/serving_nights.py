"""Fifty clients of `whview folder serve` beside nights one after another: each asks for pages of 100 of 330,000 facts at drawn places, five times
a second, in sessions of two seconds. Once pages come from the memory of a program that stays, and once from files alone.
"""

import json
import os
import random
import socket
import subprocess
import tempfile
import threading
import time
from contextlib import contextmanager
from pathlib import Path

from upkeep.words import ROOT, program

CLIENTS, PAUSE, IN_A_SESSION, SECONDS, CHANGED = 50, 0.2, 10, 20, 14
ROWS, PAGE, KEPT = 330_000, 100, 3
CATALOGUE = """[[view]]
name = "facts"
columns = ["id", "day:text", "region:text", "product:text", "pieces"]

[[view]]
name = "by_region"
over = ["facts"]
group = [["region", "facts.region"]]
count = "n"
sum = [["pieces", "facts.pieces"]]
"""
HEADER = "#,id,day,region,product,pieces\n"
REQUEST = "{} {} HTTP/1.1\r\nHost: localhost\r\n\r\n"


def fact(source: random.Random, number: int) -> str:
    """The cells of a fact."""
    day = f"2026-{source.randrange(1, 13):02}-{source.randrange(1, 29):02}"
    return f"{number},{day},region {source.randrange(40)},product {source.randrange(5000)},{source.randrange(100)}"


class Nights:
    """A folder, and its nights: in each some facts leave, and others come."""

    def __init__(self, built: Path, folder: Path) -> None:
        self.built, self.folder, self.source, self.next = built, folder, random.Random(1), ROWS
        (folder / "data").mkdir()
        (folder / "changes").mkdir()
        (folder / "catalogue.toml").write_text(CATALOGUE)
        self.facts = [fact(self.source, number) for number in range(ROWS)]
        (folder / "data/facts.csv").write_text(HEADER + "".join(f"1,{each}\n" for each in self.facts))
        self.night()

    def night(self) -> None:
        """One night, which is kept."""
        lines = [HEADER]
        for _ in range(CHANGED):
            place = self.source.randrange(ROWS)
            lines.append(f"-1,{self.facts[place]}\n")
            self.facts[place], self.next = fact(self.source, self.next), self.next + 1
            lines.append(f"1,{self.facts[place]}\n")
        (self.folder / "changes/facts.csv").write_text("".join(lines))
        words = [ROOT / "whview", "folder", "night", self.folder, "--commit", "--keep", str(KEPT), "--program", self.built]
        subprocess.run(words, check=True, stdout=subprocess.DEVNULL)


class Client(threading.Thread):
    """A client, and how many milliseconds each of its pages took."""

    def __init__(self, port: int, seed: int, is_over: threading.Event) -> None:
        super().__init__(daemon=True)
        self.port, self.source, self.is_over = port, random.Random(seed), is_over
        self.took: list[float] = []

    def run(self) -> None:
        self.connection = socket.create_connection(("127.0.0.1", self.port), timeout=60)
        self.connection.setsockopt(socket.IPPROTO_TCP, socket.TCP_NODELAY, 1)
        self.is_over.wait(self.source.random())
        while not self.is_over.is_set():
            self.in_a_session(json.loads(self.ask("POST", "/session"))["session"])

    def in_a_session(self, name: str) -> None:
        """Pages in a session, which is left then."""
        for _ in range(IN_A_SESSION):
            began = time.perf_counter()
            self.ask("GET", f"/facts?after={self.source.randrange(ROWS - PAGE)}&limit={PAGE}&session={name}")
            self.took.append((time.perf_counter() - began) * 1e3)
            self.is_over.wait(PAUSE * (0.5 + self.source.random()))
        self.ask("DELETE", f"/session/{name}")

    def ask(self, method: str, path: str) -> bytes:
        """The body of an answer, which is no refusal."""
        self.connection.sendall(REQUEST.format(method, path).encode())
        found = b""
        while b"\r\n\r\n" not in found:
            found += self.connection.recv(65536)
        head, _, body = found.partition(b"\r\n\r\n")
        if not head.startswith(b"HTTP/1.1 20"):
            raise ValueError(f"{path} is answered {head[:40]!r}")
        length = int(head.partition(b"Content-Length: ")[2].partition(b"\r\n")[0])
        while len(body) < length:
            body += self.connection.recv(65536)
        return body


@contextmanager
def served(folder: Path, *words: object):
    """The port of a folder that is served, once a program has it in memory where one is to have it."""
    command = [ROOT / "whview", "folder", "serve", folder, "--port", "0", *words]
    with subprocess.Popen(command, stdout=subprocess.PIPE, stderr=subprocess.PIPE, text=True) as running:
        try:
            port = int(running.stdout.readline().partition("127.0.0.1:")[2].partition("/")[0])
            if "--program" in words:
                print(f"    {running.stderr.readline().strip()}", flush=True)
            yield port
        finally:
            running.kill()


def beside_nights(nights: Nights, port: int) -> str:
    """What pages took, and how many nights there were meanwhile."""
    is_over, until, count = threading.Event(), time.monotonic() + SECONDS, 0
    clients = [Client(port, seed, is_over) for seed in range(CLIENTS)]
    for client in clients:
        client.start()
    while time.monotonic() < until:
        nights.night()
        count += 1
    is_over.set()
    for client in clients:
        client.join(60)
    took = sorted(each for client in clients for each in client.took)
    middle, late = (took[len(took) * part // 100] for part in (50, 99))
    return f"{len(took)} pages beside {count} nights: {middle:.2f} ms, one of a hundred {late:.1f} or more, the longest {took[-1]:.0f}"


def measure(asked) -> None:
    built = program(asked.program)
    with tempfile.TemporaryDirectory() as room:
        os.chmod(room, 0o700)
        nights = Nights(built, Path(room))
        for words in (["--program", built, "--versions", "4"], ["--from-files"]):
            with served(Path(room), *words) as port:
                print(f"    {CLIENTS} clients{' from files alone' * ('--from-files' in words)}: {beside_nights(nights, port)}", flush=True)
