"""The program, run on a bundle. What is no answer of its own is told, with the word that nothing was changed."""

from __future__ import annotations

import os
import signal
import time
from collections.abc import Iterable, Iterator, Sequence
from importlib import import_module
from mmap import ACCESS_READ, mmap
from pathlib import Path
from typing import TYPE_CHECKING, BinaryIO, NamedTuple, TypeAlias, cast

from .bundle import has_changes, readers, spans_of
from .disk import AnyPath, telling
from .finding import Failure, warn
from .limits import judge
from .status import DONE, NO_ANSWER, NOT_WRITTEN

if TYPE_CHECKING:
    from .folder.command import Words
    from .folder.folder import Folder

# How much of an answer is looked at to tell whether there is one, and how much of a table is held at a time.
BEGINNING, BLOCK = 64, 2**18
# A bundle, or its pieces.
Bundle: TypeAlias = bytes | Iterable[bytes]
ROOT = Path(__file__).resolve().parents[2]
PROVED, UNPROVED = "proved", "unproved"
# Which program is taken: what WHVIEW_PROGRAM says, one of these two words or a file, or else the word that `whview use` keeps here.
SETTING, KEPT = "WHVIEW_PROGRAM", ROOT / "out/use"
# What is installed has one program, and a file that says whether it is proved.
INSTALLED, KIND = ROOT / "program/whview", ROOT / "program/kind"
NOT_THERE = (
    "the proved program is not there: `whview use proved` proves and builds it, which takes half an hour or more; after `whview use unproved`,"
    " or with --unproved, another is taken, which is built within minutes; --program FILE names a program"
)
# What is told of a program that is not proved.
SAID = "this is done by a program that is not proved"


class Chosen(NamedTuple):
    """A program, and what it is: proved, unproved, or one that somebody named."""

    path: Path
    kind: str

    @property
    def told(self) -> str:
        """What is said of it where something was done by it."""
        return {PROVED: "the proved program", UNPROVED: "a program that is not proved"}.get(self.kind, f"the program {self.path}")


def setting() -> str:
    """The word that says which program is taken where none is named."""
    if said := os.environ.get(SETTING):
        return said
    if KIND.is_file():
        return KIND.read_text().strip()
    return KEPT.read_text().strip() if KEPT.is_file() else PROVED


def there(kind: str) -> Path | None:
    """The program of this kind that is there, as its sources are; nothing is built."""
    if KIND.is_file():
        return INSTALLED if KIND.read_text().strip() == kind else None
    import subprocess

    words: list[AnyPath] = [ROOT / "tools/built", *(["--unproved"] if kind == UNPROVED else [])]
    found = subprocess.run(words, stdout=subprocess.PIPE, stderr=subprocess.DEVNULL, text=True)
    return None if found.returncode else Path(found.stdout.removesuffix("\n"))


def built(kind: str) -> Path:
    """The program of this kind, which is built where it is not there."""
    import subprocess

    found = subprocess.run([ROOT / "tools" / kind], stdout=subprocess.PIPE, text=True)
    if found.returncode:
        raise Failure(NO_ANSWER, f"the {kind} program could not be built; nothing was changed")
    return Path(found.stdout.removesuffix("\n"))


def chosen(is_unproved: bool = False) -> Chosen:
    """The program that is taken where none is named: the one that is not proved where that is asked for, and else by the setting. The
    proved one is not built unasked.
    """
    word = UNPROVED if is_unproved else setting()
    if word not in (PROVED, UNPROVED):
        return Chosen(Path(word).resolve(), "named")
    if KIND.is_file():
        kind = KIND.read_text().strip()
        if kind != word and word == PROVED:
            raise Failure(NO_ANSWER, "the program that is installed here is not proved; nothing was changed")
        return Chosen(INSTALLED, kind)
    if word == UNPROVED:
        return Chosen(built(UNPROVED), UNPROVED)
    found = there(PROVED)
    if found is None:
        raise Failure(NO_ANSWER, NOT_THERE)
    return Chosen(found, PROVED)


def ready(named: Path | None = None, is_unproved: bool = False) -> Chosen:
    """The program that is named, or taken where none is, if it is there: nothing is built."""
    word = UNPROVED if is_unproved else setting()
    if named or word not in (PROVED, UNPROVED):
        return Chosen(named or Path(word).resolve(), "named")
    found = there(word)
    if found is None:
        raise Failure(NO_ANSWER, NOT_THERE if word == PROVED else "the program without proofs is not there; `whview use unproved` builds it")
    return Chosen(found, word)


def own(is_unproved: bool = False) -> Path:
    """The path of the program that is taken where none is named. One that is not the proved one is told."""
    found = chosen(is_unproved)
    if found.kind != PROVED:
        warn([SAID if found.kind == UNPROVED else f"this is done by {found.told}"])
    return found.path


def told_of(named: Path | None, is_unproved: bool) -> str:
    """What is said of the program that was named, or is taken."""
    return Chosen(named, "named").told if named else chosen(is_unproved).told


def how_it_ended(status: int) -> str:
    """What is wrong with an end that is none of the program's, or that is without an answer."""
    if status < 0:
        named = {number.value: f" ({number.name})" for number in signal.Signals}
        return f"was killed by signal {-status}{named.get(-status, '')}"
    if status > NOT_WRITTEN:
        return f"ended with status {status}, which is none of the program's"
    return f"ended with status {status} and without an answer"


def without_name() -> tuple[BinaryIO, str]:
    """A file without a name, and the folder that it is in. What a file system without such files takes is imported where it is needed."""
    folder = os.environ.get("TMPDIR") or "/tmp"
    try:
        return open(os.open(folder, os.O_TMPFILE | os.O_RDWR | os.O_CLOEXEC, 0o600), "w+b"), folder
    except OSError:
        import tempfile

        return cast(BinaryIO, tempfile.TemporaryFile()), tempfile.gettempdir()


def temporary(pieces: Iterable[bytes] = ()) -> BinaryIO:
    """A file without a name, which has these pieces."""
    file, folder = without_name()
    with telling(f"a temporary file in {folder} (TMPDIR names another folder)"):
        file.writelines(pieces)
        file.seek(0)
    return file


def status_of(words: Sequence[AnyPath], given: BinaryIO, printed: BinaryIO) -> int:
    """The status of a command over these files as it ends; of one that a signal ends it is below 0. It takes less to begin than by
    `subprocess`.
    """
    files = [(os.POSIX_SPAWN_DUP2, file.fileno(), number) for number, file in enumerate((given, printed))]
    process = os.posix_spawn(words[0], tuple(words), os.environ, file_actions=files, setsigdef=[signal.SIGPIPE, signal.SIGXFSZ])
    try:
        return os.waitstatus_to_exitcode(os.waitpid(process, 0)[1])
    except BaseException:
        os.kill(process, signal.SIGKILL)
        os.waitpid(process, 0)
        raise


def run(program: AnyPath, command: str, bundle: Bundle, options: Sequence[str] = (), most: int | None = None) -> tuple[int, BinaryIO]:
    """The status, which is one of the program's, and the file with what was printed. Pieces that come one by one the program judges alone. Where
    it is said how many bytes a night may have, the program is told.
    """
    limit = [] if most is None else ["--most", str(most)]
    pieces = [bundle] if isinstance(bundle, bytes) else bundle
    if isinstance(pieces, list):
        judge(pieces, most)
    given, printed = temporary(pieces), temporary()
    try:
        status = status_of([program, command, *options, *limit], given, printed)
    except OSError as error:
        raise Failure(NO_ANSWER, f"{program} cannot be run for {command}: {error.strerror}; nothing was changed") from error
    finally:
        given.close()
    printed.seek(0)
    if not DONE <= status <= NOT_WRITTEN or not os.pread(printed.fileno(), BEGINNING, 0).strip():
        ended = status if DONE < status <= NOT_WRITTEN else NO_ANSWER
        raise Failure(ended, f"{program} {command} {how_it_ended(status)}; nothing was changed")
    return status, printed


def done(program: AnyPath, command: str, bundle: Bundle, options: Sequence[str] = (), most: int | None = None) -> BinaryIO:
    """The file with what the program answers; where it is not done, that ends the command."""
    status, printed = run(program, command, bundle, options, most)
    if status != DONE:
        raise Failure(status, *printed.read().decode(errors="replace").strip().splitlines())
    return printed


def answer(program: AnyPath, command: str, bundle: Bundle, options: Sequence[str] = ()) -> bytes:
    """What the program answers; where it is not done, that ends the command."""
    return done(program, command, bundle, options).read()


class Night:
    """The answer of a night: what stands above its tables, the readers' lines below them, and the tables, or in their places the changes,
    each read where it is asked for.
    """

    def __init__(self, file: BinaryIO, seconds: float, names: Sequence[str]) -> None:
        self.file, self.seconds = file, seconds
        with mmap(file.fileno(), 0, access=ACCESS_READ) as whole:
            self.head, self.readers = whole[: whole.find(b"\nversion ")].decode(), readers(whole)
            self.places, self.has_changes = spans_of(whole, names), has_changes(whole)

    def table(self, name: str) -> bytes:
        start, end = self.places[name]
        return os.pread(self.file.fileno(), end - start, start)

    def size(self, name: str) -> int:
        start, end = self.places[name]
        return end - start

    def blocks(self, name: str) -> Iterator[bytes]:
        """The table of a view in blocks of whole lines, each behind the line end that stands before it."""
        start, end = self.places[name]
        while start < end:
            block = os.pread(self.file.fileno(), min(BLOCK, end - start) + 1, start - 1)
            if start + len(block) - 1 < end:
                block = block[: block.rfind(b"\n") + 1]
            if len(block) == 1:
                block = os.pread(self.file.fileno(), end - start + 1, start - 1)
            yield block
            start += len(block) - 1

    def changed(self) -> dict[str, int]:
        """How many rows each view's Inst changed, by its name."""
        steps = self.head.partition("\nwork ")[0].split("\n")
        return {name: int(count) for name, count in (line[5:].split(": ") for line in steps if line.startswith("inst "))}


def night(folder: Folder, words: Words, strategy: str, options: Sequence[str] = (), with_changes: bool = True) -> Night:
    """The answer of a night, which has the tables of all derived views, or their changes."""
    program, began, names = words.program, time.monotonic(), [view.name for view in folder.views if not view.is_base]
    printed = done(program, "night", folder.bundle(strategy, with_changes), options, folder.catalogue.max_bytes)
    found = Night(printed, time.monotonic() - began, names)
    missing = [name for name in names if name not in found.places]
    if missing:
        raise Failure(NO_ANSWER, f"{words.program} night gave no table of {missing[0]}; nothing was changed")
    return found


def explained_night(folder: Folder, words: Words, strategy: str, options: Sequence[str] = ()) -> Night:
    """A night. Where the program refuses it, what leads there is told too; where it finds a fault in a table, that is looked for."""
    try:
        return night(folder, words, strategy, options)
    except Failure as failure:
        found = import_module("whview.folder.refusals").why(folder, failure)
        raise Failure(failure.status, *failure.lines, *found) from failure
