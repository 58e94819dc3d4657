"""Measures `whview folder serve` over 330,000 rows: an answer on a kept connection, a page of 256 rows alone and beside twenty clients that
search for texts, how many searches these had, and the memory that six clients hold who ask for 10,000 rows of 2,000 bytes and do not read.

Then fifty clients ask for pages at drawn places of another folder of 330,000 rows, beside nights one after another: once from the memory of a
program that stays, and once from files alone. Last come nights of 28 rows over 25 MB, of a folder that is served and of one that is not.

Milliseconds are medians and 99ths of a hundred, by the clock. `--beside FOLDER`, a checkout of another state of this repository, is measured
after this one, but for these clients and nights.
"""

import os
import random
import socket
import subprocess
import tempfile
import threading
import time
from collections import Counter
from collections.abc import Callable
from contextlib import contextmanager
from http.client import HTTPConnection, HTTPException
from pathlib import Path

from upkeep.bench import serving_nights, serving_retail
from upkeep.bench.checkouts import checkouts

ROUNDS = 200
ROWS, WIDE_ROWS, CLIENTS, UNREAD, PATIENCE, LONGEST = 330_000, 20_000, 20, 6, 120, 30
CATALOGUE = """[[view]]
name = "facts"
columns = ["id", "day:text", "region:text", "product:text", "pieces"]

[[view]]
name = "wide"
columns = ["id", "text:text"]
"""
SEARCH = "/facts?where=product=none{}"


def lay(folder: Path) -> None:
    """A folder with one version."""
    source, tables = random.Random(1), folder / "versions/1/data"
    tables.mkdir(parents=True)
    for place in (folder, tables.parent):
        (place / "catalogue.toml").write_text(CATALOGUE)
    with (tables / "facts.csv").open("w") as file:
        file.write("#,id,day,region,product,pieces\n")
        for number in range(ROWS):
            day = f"2026-{source.randrange(1, 13):02}-{source.randrange(1, 29):02}"
            file.write(f"1,{number},{day},region {source.randrange(40)},product {source.randrange(5000)},{source.randrange(100)}\n")
    rows = "".join(f"1,{number},{'x' * 2000}\n" for number in range(WIDE_ROWS))
    (tables / "wide.csv").write_text(f"#,id,text\n{rows}")
    (folder / "current").symlink_to("versions/1")


class Client:
    """A connection that is kept."""

    def __init__(self, port: int):
        self.port, self.connection = port, HTTPConnection("127.0.0.1", port, timeout=PATIENCE)

    def get(self, path: str) -> tuple[float, int]:
        """The seconds of an answer, and its status."""
        began = time.monotonic()
        self.connection.request("GET", path)
        answer = self.connection.getresponse()
        answer.read()
        return time.monotonic() - began, answer.status

    def times(self, path: str, count: int) -> str:
        """What so many answers took, or as many as there are in a while."""
        took, until = [], time.monotonic() + LONGEST
        while len(took) < count and (not took or time.monotonic() < until):
            try:
                took.append(self.get(path)[0] * 1e3)
            except TimeoutError:
                return f"none within {PATIENCE} s"
        took.sort()
        return f"{took[len(took) // 2]:.1f} ms ({took[len(took) * 99 // 100]:.1f})"


@contextmanager
def served(root: Path, folder: Path):
    """The process that serves a folder, and its port."""
    command = [root / "tools/warehouse", "serve", folder, "--port", "0"]
    with subprocess.Popen(command, stdout=subprocess.PIPE, text=True) as running:
        try:
            yield running.pid, int(running.stdout.readline().partition("127.0.0.1:")[2].partition("/")[0])
        finally:
            running.kill()


def search(port: int, seed: int, is_over: threading.Event, statuses: Counter) -> None:
    """Searches, one after another, each for another text. One that is refused is tried again a moment later."""
    client, source = Client(port), random.Random(seed)
    while not is_over.is_set():
        try:
            status = client.get(SEARCH.format(source.randrange(10**6)))[1]
        except (OSError, HTTPException):
            status, client = 0, Client(port)
        statuses[status] += 1
        is_over.wait(0.2 if status != 200 else 0)


def beside_searches(port: int, measured: Callable[[], str]) -> str:
    """What is measured while clients search, and how many searches they had and were refused meanwhile."""
    is_over, statuses = threading.Event(), Counter()
    clients = [threading.Thread(target=search, args=(port, seed, is_over, statuses), daemon=True) for seed in range(CLIENTS)]
    for client in clients:
        client.start()
    time.sleep(2)
    told = measured()
    found = f"{told}; {statuses[200]} searches, {statuses.total() - statuses[200]} refused"
    is_over.set()
    return found


def spent(pid: int) -> float:
    """The milliseconds of the processor that a process has had."""
    user, system = Path(f"/proc/{pid}/stat").read_text().rpartition(")")[2].split()[11:13]
    return (int(user) + int(system)) * 1e3 / os.sysconf("SC_CLK_TCK")


def alone(pid: int, client: Client, path: str, rounds: int) -> str:
    """What answers take while nothing else is asked."""
    before = spent(pid)
    told = client.times(path, rounds)
    return f"{told}, of the processor {(spent(pid) - before) / rounds:.2f}"


def megabytes(pid: int) -> int:
    """The memory of a process."""
    return int(Path(f"/proc/{pid}/status").read_text().partition("VmRSS:")[2].split()[0]) // 1024


def unread(pid: int, port: int) -> str:
    """The memory before and with clients that do not read."""
    before, held, most = megabytes(pid), [], 0
    for _ in range(UNREAD):
        held.append(socket.create_connection(("127.0.0.1", port)))
        held[-1].sendall(b"GET /wide?limit=10000 HTTP/1.1\r\nHost: localhost\r\n\r\n")
    for _ in range(100):
        time.sleep(0.1)
        most = max(most, megabytes(pid))
    return f"{before} MB, then {most}"


def measure(asked) -> None:
    with tempfile.TemporaryDirectory() as folder:
        lay(Path(folder))
        for name, checkout in checkouts(asked).items():
            with served(checkout.root, Path(folder)) as (pid, port):
                client = Client(port)
                print(f"serve, {name}: an answer {alone(pid, client, '/facts?limit=1', asked.rounds)}", flush=True)
                print(f"    a page {alone(pid, client, '/facts?limit=256', asked.rounds)}", flush=True)
                print(f"    beside searches {beside_searches(port, lambda: client.times('/facts?limit=256', asked.rounds))}", flush=True)
            with served(checkout.root, Path(folder)) as (pid, port):
                print(f"    six clients that do not read: {unread(pid, port)}", flush=True)
    serving_nights.measure(asked)
    serving_retail.measure(asked)
