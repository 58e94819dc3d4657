"""The shop with its nights, and a script in the program's place, which prints the shop's answer."""

import fcntl
import io
import os
import shutil
import signal
import subprocess
import sys
import time
from collections import Counter
from collections.abc import Iterator
from contextlib import contextmanager
from pathlib import Path
from types import SimpleNamespace
from unittest import mock

from trials.oracle.tables import records_of
from whview.folder import command
from whview.folder.identity import identity_of

ROOT = Path(__file__).resolve().parents[2]
WHVIEW = ROOT / "whview"
SHOP = ROOT / "examples/shop"
ANSWER = ROOT / "examples/night_shop.answer"
PRINTED = ANSWER.read_bytes().removesuffix(b"status 0\n")
SIZES = """view,pre,post,change
orders,5,7,2
lines,7,9,6
products,3,4,3
sales,7,9,8
daily_by_product,6,8,8
daily_by_region,4,6,8
"""
NEXT = b"#,id,day,region\n1,8,Thursday,south\n"


def contents(folder: Path) -> dict[str, bytes]:
    return {str(path.relative_to(folder)): path.read_bytes() for path in sorted(folder.rglob("*")) if path.is_file()}


def rows_in(folder: Path) -> Counter:
    """The rows of the files of changes in a folder, with how often each stands there."""
    found = Counter()
    for path in folder.glob("*.csv") if folder.is_dir() else ():
        for row, number in records_of(path.read_text()):
            found[path.name.partition(".")[0], row] += number
    return found


def carried_out(words: list, given: bytes = b"") -> tuple[int, str, str]:
    """The status of a command of `whview folder` in this process, and what it prints and tells."""
    printed, told = (io.TextIOWrapper(io.BytesIO(), "utf-8", "surrogateescape", newline="") for _ in range(2))
    streams = mock.patch.multiple(sys, stdin=io.TextIOWrapper(io.BytesIO(given)), stdout=printed, stderr=told)
    # A command has its own standard files be there, and no garbage be looked for.
    alone = mock.patch.multiple(command, opened=lambda: None, gc=SimpleNamespace(disable=lambda: None))
    with streams, alone:
        status = command.main([str(word) for word in words])
    for stream in (printed, told):
        stream.seek(0)
    return status, printed.read(), told.read()


@contextmanager
def held(path: Path, how: int) -> Iterator[int]:
    """A file or a folder that somebody has open, and locks so."""
    handle = os.open(path, os.O_RDONLY)
    try:
        fcntl.flock(handle, how)
        yield handle
    finally:
        os.close(handle)


def heeds_signals() -> None:
    """A test that runs in the background of a shell has SIGINT passed over, and so would all that it starts."""
    for number in (signal.SIGINT, signal.SIGTERM, signal.SIGHUP):
        signal.signal(number, signal.SIG_DFL)


class Shop:
    """A copy of the shop."""

    def __init__(self, room: Path) -> None:
        self.folder, self.program = room / "shop", room / "program"
        shutil.copytree(SHOP, self.folder)
        self.answer_as_the_shop()

    def answer_as_the_shop(self) -> None:
        self.answers(PRINTED, 0)

    def answers(self, text: bytes, status: int) -> None:
        """Makes the program one that says this."""
        (self.program.parent / "answer").write_bytes(text)
        self.program.write_text(f"#!/bin/sh\ncat > /dev/null\ncat {self.program.parent}/answer\nexit {status}\n")
        self.program.chmod(0o755)

    def edit(self, file: str, old: str, new: str) -> None:
        path = self.folder / file
        text = path.read_text()
        assert text.count(old) == 1
        path.write_text(text.replace(old, new))

    def said(self, *words: object, folder: Path | None = None) -> tuple[int, list[str], list[str]]:
        """The status of a command, and the lines that it prints and tells."""
        status, printed, told = carried_out([words[0], folder or self.folder, *words[1:], "--program", self.program])
        return status, printed.splitlines(), told.splitlines()

    def ran(self, *words: object, folder: Path | None = None) -> tuple[int, list[str]]:
        """The status of a command, and the lines on standard error."""
        status, _, told = self.said(*words, folder=folder)
        return status, told

    def process(self, *words: object, **options) -> subprocess.CompletedProcess:
        """A command that is a process of its own."""
        options = {"capture_output": True, "text": True} | options
        return subprocess.run([WHVIEW, "folder", words[0], self.folder, *words[1:]], **options)

    def night(self, *words: object) -> list[str]:
        """A night that is kept, which is done, also where nothing changed."""
        status, told = self.ran("night", "--commit", "--always", *words)
        assert status == 0, told
        return told

    def changes(self) -> dict[str, bytes]:
        return {path.name: path.read_bytes() for path in sorted((self.folder / "changes").iterdir())}

    def versions(self) -> list[str]:
        return sorted(os.listdir(self.folder / "versions"))

    def current(self, folder: Path | None = None) -> str:
        return os.readlink((folder or self.folder) / "current")

    def turn_to(self, number: int) -> None:
        """Makes a version the current one."""
        (self.folder / "current").unlink()
        (self.folder / "current").symlink_to(f"versions/{number}")

    def add_colours(self) -> None:
        """Adds a base view to the catalogue, and to the strategy."""
        with (self.folder / "catalogue.toml").open("a") as file:
            file.write('\n[[view]]\nname = "colours"\ncolumns = ["name:text"]\n')
        self.edit("strategy.txt", "inst orders\n", "inst orders\ninst colours\n")

    @contextmanager
    def unchanged(self, folder: Path | None = None) -> Iterator[None]:
        """What is done leaves all files as they are."""
        before = contents(folder or self.folder)
        yield
        assert contents(folder or self.folder) == before

    def rest(self, number: int, end: str = "part") -> Path:
        """Where a version of the folder is being made, or is removed."""
        return self.folder / f"versions/{number}.{identity_of(self.folder).name}.{end}"

    def put(self, content: bytes = NEXT, name: str = "orders.csv") -> None:
        (self.folder / "changes").mkdir(exist_ok=True)
        (self.folder / "changes" / name).write_bytes(content)

    def more(self, content: bytes = NEXT, *words: object) -> list[str]:
        """A night that carries out one more file of changes."""
        self.put(content)
        return self.night(*words)

    def change(self, name: str, old: bytes = b"8", new: bytes = b"9") -> Path:
        """Changes bytes of a file of the current version, and puts its time back. Answers the file."""
        file = self.folder / "current" / name
        look, content = file.stat(), file.read_bytes()
        file.chmod(0o644)
        file.write_bytes(content.replace(old, new))
        assert file.read_bytes() != content
        os.utime(file, ns=(look.st_atime_ns, look.st_mtime_ns))
        file.chmod(0o444)
        return file

    def waiting(self) -> None:
        """Has the program tell that it was begun, and wait until it may go on."""
        waits = f"touch {self.program}.begun\nwhile [ ! -e {self.program}.go ]; do sleep 0.02; done"
        self.program.write_text(self.program.read_text().replace("cat > /dev/null", f"cat > /dev/null\n{waits}"))
        for name in ("begun", "go"):
            Path(f"{self.program}.{name}").unlink(missing_ok=True)

    def begun(self, *words: object) -> subprocess.Popen:
        command = [WHVIEW, "folder", "night", self.folder, *words, "--program", self.program]
        return subprocess.Popen(command, stdout=subprocess.PIPE, stderr=subprocess.PIPE, text=True, preexec_fn=heeds_signals)

    @contextmanager
    def under_way(self, *words: object) -> Iterator[subprocess.Popen]:
        """A night that has taken its changes and waits for the program."""
        self.waiting()
        with self.begun(*words) as running:
            while running.poll() is None and not Path(f"{self.program}.begun").exists():
                time.sleep(0.01)
            try:
                yield running
            finally:
                Path(f"{self.program}.go").touch()
                running.told = running.communicate()[1]
        self.answer_as_the_shop()
