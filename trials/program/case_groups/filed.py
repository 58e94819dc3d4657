"""Bundles whose parts stand in files of their own: what they are answered is what the bundle with the files' lines in place is answered."""

import subprocess
from dataclasses import dataclass, field
from pathlib import Path
from tempfile import TemporaryDirectory

from trials.program.case_groups import SECONDS, Case
from upkeep.words import ROOT
from whview.bundle import pieces

# In files and in answers this stands for the folder that they are in.
ROOM = b"ROOM"
CATALOGUE = b'@catalogue\n[[view]]\nname = "a"\ncolumns = ["x:text"]\n[[view]]\nname = "v"\nover = ["a"]\nkeep = [["x", "a.x"]]\n'
STRATEGY = b"@strategy\ncomp v from a\ninst a\ninst v\n"


@dataclass(frozen=True)
class AmongFiles(Case):
    """A case that is run in a folder of these files, by their paths in it: None is a folder."""

    files: dict = field(default_factory=dict)

    def laid(self, room):
        for path, held in self.files.items():
            file = Path(room, path)
            file.parent.mkdir(parents=True, exist_ok=True)
            if held is None:
                file.mkdir()
            else:
                file.write_bytes(held.replace(ROOM, room.encode()))

    def ran(self, started):
        with TemporaryDirectory() as room:
            self.laid(room)
            words = [word.replace(ROOM.decode(), room) for word in self.words]
            ran = subprocess.run([started, *words], input=self.given, capture_output=True, timeout=SECONDS, cwd=room)
        ran.stdout = ran.stdout.replace(room.encode(), ROOM)
        return ran


def escaped(held):
    """The lines of a file as a part has them."""
    lines = [b"@" + line if line.startswith(b"@") else line for line in held.splitlines(keepends=True)]
    return b"".join(lines) + (b"" if not lines or lines[-1].endswith(b"\n") else b"\n")


def filled(bundle, files):
    """A bundle with the lines of its files in place, or the first path that is none of these. Its lines end in LF alone."""
    whole = b""
    for part in pieces(bundle):
        line, _, body = part.partition(b"\n")
        heading, sign, path = line.partition(b"<")
        heading, path = heading.rstrip(b" \t"), path.strip(b" \t")
        if not (sign and path and heading.startswith((b"@data ", b"@changes "))) or body.strip(b" \t\n"):
            whole += part
        elif files.get(path.decode()) is None:
            return None, path
        else:
            whole += heading + b"\n" + escaped(files[path.decode()])
    return whole, None


class AsFilled(AmongFiles):
    """A case whose answer is that to the bundle with the lines of its files in place, on standard input."""

    def mistake(self, started):
        bundle, missing = filled(self.files["night.bundle"], self.files)
        if missing is not None:
            wanted = (b"fault read " + missing + b"\n", 3)
        else:
            ran = subprocess.run([started, self.words[0]], input=bundle, capture_output=True, timeout=SECONDS)
            wanted = (ran.stdout, ran.returncode)
        ran = self.ran(started)
        if (ran.stdout, ran.returncode, ran.stderr) == (*wanted, b""):
            return None
        return f"{self.what} {self.words}: {ran.stdout[:300]!r} status {ran.returncode}, where {wanted[0][:300]!r} status {wanted[1]} is wanted"


def example(name):
    """An example's bundle, and its answer, with the status."""
    folder = ROOT / "examples"
    text, _, status = (folder / f"{name}.answer").read_text().rpartition("status ")
    return (folder / f"{name}.bundle").read_bytes(), (text, int(status))


def put_out(bundle, path, which=lambda heading: True):
    """A bundle whose data and changes stand in files, by the path that this gives for a heading and a number; and the files."""
    parts, files = [], {}
    for number, part in enumerate(pieces(bundle)):
        heading, _, body = part.partition(b"\n")
        if heading.startswith((b"@data ", b"@changes ")) and which(heading):
            name = path(heading[1:].decode().replace(" ", "_"), number)
            files[name] = body
            part = heading + b" < " + name.encode() + b"\n"
        parts.append(part)
    return b"".join(parts), files


def in_the_room(paths):
    """Files by their paths in the folder."""
    return {path.removeprefix("ROOM/"): held for path, held in paths.items()}


def whole():
    """Nights and replays with all their tables in files, or some: beside the bundle, below it, above it, and by absolute paths."""
    for command, name in (("night", "night_two_tables"), ("night", "night_shop"), ("replay", "replay_two_nights"), ("replay", "replay_give_up")):
        bundle, answer = example(name)
        for what, path in (
            ("beside the bundle", lambda heading, number: f"{number}.csv"),
            ("in folders", lambda heading, number: f"tables/{heading}/{number} of them.csv"),
            ("by absolute paths", lambda heading, number: f"ROOM/{heading}.{number}"),
        ):
            filed, files = put_out(bundle, path)
            yield AmongFiles([command, "--input", "night.bundle"], b"", *answer, what, files={"night.bundle": filed, **in_the_room(files)})
            yield AmongFiles([command, "--input", "ROOM/night.bundle"], b"", *answer, what, files={"night.bundle": filed, **in_the_room(files)})
        filed, files = put_out(bundle, lambda heading, number: f"../tables/{number}")
        files = {path.removeprefix("../"): held for path, held in files.items()}
        for words in (["--input", "nights/night.bundle"], ["--input", "ROOM/nights/night.bundle"], ["--input", "./nights//night.bundle"]):
            yield AmongFiles([command, *words], b"", *answer, "above the bundle", files={"nights/night.bundle": filed, **files})
        filed, files = put_out(bundle, lambda heading, number: f"{number}", lambda heading: heading.startswith(b"@changes"))
        yield AmongFiles([command, "--input", "night.bundle"], b"", *answer, "changes alone", files={"night.bundle": filed, **files})


def lines():
    """What stands in a file and in a heading that names it."""
    for what, heading, held in (
        ("plain", b"@data a < a\n", b"x\none\ntwo\n"),
        ("no last line feed", b"@data a < a\n", b"x\none\ntwo"),
        ("lines of at signs", b"@data a < a\n", b"x\n@one\n@@two\n@night\n@\n"),
        ("an at sign and no line feed", b"@data a < a\n", b"x\n@"),
        ("quoted lines of at signs", b"@data a < a\n", b'x\n"one\n@two\n@@"\n'),
        ("carriage returns", b"@data a < a\n", b"x\r\none\r\n@two\r\n"),
        ("bytes that are no text", b"@data a < a\n", b"x\n\xff\n"),
        ("nothing", b"@data a < a\n", b""),
        ("an empty line", b"@data a < a\n", b"\n"),
        ("no header", b"@data a < a\n", b"y\none\n"),
        ("a bad record", b"@data a < a\n", b"x\none,two\n"),
        ("no blanks", b"@data a<a\n", b"x\none\n"),
        ("many blanks", b"@data a \t<\t  a \t\n", b"x\none\n"),
        ("blank lines below", b"@data a < a\n\n \t\n\n", b"x\none\n"),
        ("a line below", b"@data a < a\nx\n", b"x\none\n"),
        ("no path", b"@data a <\n", b"x\none\n"),
        ("no path but blanks", b"@data a < \t\n", b"x\none\n"),
        ("no name", b"@data < a\n", b"x\none\n"),
        ("another name", b"@data z < a\n", b"x\none\n"),
        ("two blanks before the name", b"@data  a < a\n", b"x\none\n"),
        ("another part", b"@sizes < a\n", b"x\none\n"),
        ("an escaped heading", b"@@data a < a\n", b"x\none\n"),
    ):
        for end in (STRATEGY + b"@changes a\n#,x\n1,six\n", b""):
            bundle = CATALOGUE + heading + end if end else CATALOGUE + STRATEGY + heading
            yield AsFilled(["night", "--input", "night.bundle"], b"", None, 0, what, files={"night.bundle": bundle, "a": held})
    bundle = CATALOGUE + STRATEGY + b"@data a < a"
    yield AsFilled(["night", "--input", "night.bundle"], b"", None, 0, "no line feed", files={"night.bundle": bundle, "a": b"x\none\n"})
    for path in ("a < b", "<", "a b.csv", "\u00fc.csv", "a@b", "@a"):
        files = {"night.bundle": CATALOGUE + STRATEGY + b"@data a < " + path.encode() + b"\n", path: b"x\none\n"}
        yield AsFilled(["night", "--input", "night.bundle"], b"", None, 0, f"a file {path}", files=files)
    carried = "comp v from a: 0\ninst a: 0\ninst v: 0\nwork 0\nversion 1\nview v\n#,x\n1,one\n"
    files = {"night.bundle": CATALOGUE + STRATEGY + b"@data a < a\r\n\r\n", "a": b"x\none\n"}
    yield AmongFiles(["night", "--input", "night.bundle"], b"", carried, 0, "carriage returns in the bundle", files=files)
    twice = b'@catalogue\n[[view]]\nname = "a"\ncolumns = ["x"]\n[[view]]\nname = "b"\ncolumns = ["x"]\n@strategy\ninst a\ninst b\n@data a < t\n@data b < t\n'
    yield AsFilled(["night", "--input", "night.bundle"], b"", None, 0, "one file twice", files={"night.bundle": twice, "t": b"x\n1\n"})
    files = {"night.bundle": CATALOGUE + STRATEGY + b"@data a < night.bundle\n"}
    yield AmongFiles(["night", "--input", "night.bundle"], b"", "fault header\n", 3, "the bundle itself", files=files)


def unread():
    """Files that cannot be read: the first of them is told, by the path that the bundle has, before all that the bundle holds."""
    words = ["night", "--input", "night.bundle"]
    for what, bundle, text in (
        ("no file", CATALOGUE + STRATEGY + b"@data a < b.csv\n", "fault read b.csv\n"),
        ("no folder", CATALOGUE + STRATEGY + b"@data a < b/../a\n", "fault read b/../a\n"),
        ("no absolute file", CATALOGUE + STRATEGY + b"@data a < ROOM/b\n", "fault read ROOM/b\n"),
        ("a folder", CATALOGUE + STRATEGY + b"@data a < folder\n", "fault read folder\n"),
        ("a folder above", CATALOGUE + STRATEGY + b"@data a < ..\n", "fault read ..\n"),
        ("a file as a folder", CATALOGUE + STRATEGY + b"@data a < a/b\n", "fault read a/b\n"),
        ("a zero byte", CATALOGUE + STRATEGY + b"@data a < a\0b\n", "fault read a\0b\n"),
        ("bytes that are no text", CATALOGUE + STRATEGY + b"@data a < \xff\n", "fault read \ufffd\n"),
        ("the first of two", CATALOGUE + STRATEGY + b"@changes a < c\n@data a < b\n", "fault read c\n"),
        ("the second", CATALOGUE + STRATEGY + b"@data a < a\n@changes a < b\n", "fault read b\n"),
        ("behind an unknown part", b"@zz\n@data a < b\n", "fault read b\n"),
        ("behind no catalogue", b"what is this\n@data a < b\n", "fault read b\n"),
        ("of no view", CATALOGUE + STRATEGY + b"@data z < b\n", "fault read b\n"),
    ):
        yield AmongFiles(words, b"", text, 3, what, files={"night.bundle": bundle, "a": b"x\none\n", "folder": None})
    bundle = CATALOGUE + STRATEGY + b"@data a < a\n"
    yield AmongFiles(["night", "--input", "other.bundle"], b"", "fault read\n", 3, "no bundle", files={"night.bundle": bundle, "a": b"x\n"})
    yield AmongFiles(["night", "--input", "folder"], b"", "fault read\n", 3, "a folder for a bundle", files={"folder": None})
    files = {"nights/night.bundle": bundle, "a": b"x\n"}
    yield AmongFiles(["night", "--input", "nights/night.bundle"], b"", "fault read a\n", 3, "a file of another folder", files=files)


def lengths():
    """Bundles that have exactly as many bytes with their files as the words say, and one more."""
    for command, name in (("night", "night_two_tables"), ("replay", "replay_two_nights")):
        bundle, answer = example(name)
        for path in (lambda heading, number: f"{number}", lambda heading, number: f"{number}" * 100):
            filed, files = put_out(bundle, path)
            files = {"night.bundle": filed, **files}
            for most in (len(bundle), len(filed)):
                right = most >= len(bundle) and most >= len(filed)
                for least, wanted in ((0, answer if right else ("fault toolong\n", 3)), (1, ("fault toolong\n", 3))):
                    yield AmongFiles([command, "--input", "night.bundle", f"--most={most - least}"], b"", *wanted, "a limit", files=files)
    bundle, held = CATALOGUE + STRATEGY + b"@data a < a", b"x\n@one\n@two"
    most = len(CATALOGUE + STRATEGY + b"@data a\nx\n@@one\n@@two\n")
    carried = "comp v from a: 0\ninst a: 0\ninst v: 0\nwork 0\nversion 1\nview v\n#,x\n1,@one\n1,@two\n"
    for least, wanted in ((0, (carried, 0)), (1, ("fault toolong\n", 3)), (3, ("fault toolong\n", 3)), (4, ("fault toolong\n", 3))):
        words = ["night", "--input", "night.bundle", f"--most={most - least}"]
        yield AmongFiles(words, b"", *wanted, "a limit of escaped lines", files={"night.bundle": bundle, "a": held})
    below = b"@changes a < c\n" + b"\n" * 40
    for most, wanted in ((len(CATALOGUE + STRATEGY + below) + 9, ("fault read c\n", 3)), (len(CATALOGUE + STRATEGY + below) + 8, ("fault toolong\n", 3))):
        files = {"night.bundle": CATALOGUE + STRATEGY + b"@data a<a\n" + below, "a": b"x\n"}
        yield AmongFiles(["night", "--input", "night.bundle", f"--most={most + 1}"], b"", *wanted, "the bundle alone", files=files)
    for path in (b"/dev/zero", b"/dev/urandom"):
        files = {"night.bundle": CATALOGUE + STRATEGY + b"@data a < " + path + b"\n"}
        yield AmongFiles(["night", "--input", "night.bundle"], b"", "fault toolong\n", 3, "a file without end", files=files)


def unopened():
    """Where no file is opened: on standard input, and by commands that read no rows."""
    for command in ("night", "replay"):
        bundle = CATALOGUE + STRATEGY + b"@data a < /dev/zero\n@schedule\ndesks 1\nworkers 1\nkeys 1\n"
        yield Case([command], bundle, "fault part data\n", 3, "standard input")
        yield Case([], command.encode() + b"\n" + bundle, "fault part data\n", 3, "standard input with words")
    for command, name in (("check", "one_way_check"), ("plan", "plan_all"), ("certify", "certify_pairs")):
        bundle, answer = example(name)
        for more in (b"@data A < /dev/zero\n", b"@data A < none\n@changes B < none\n"):
            yield AmongFiles([command, "--input", "night.bundle"], b"", *answer, "a file unopened", files={"night.bundle": bundle + more})
            yield Case([command], bundle + more, *answer, "standard input")


def talks():
    """Warehouses whose tables are opened from files."""
    words, commands = ["live", "--input", "night.bundle"], b"open 0\nread 0 v 10\nclose 0\n"
    for what, bundle, text, status in (
        ("a table", CATALOGUE + b"@data a < a\n", "session 0\n#,x\n1,@one\n1,two\nend\nclosed\n", 0),
        ("a table and a strategy", CATALOGUE + b"@data a < ROOM/a\n@strategy\ninst a\ncomp v from a\ninst v\n", None, 0),
        ("no file", CATALOGUE + b"@data a < b\n", "fault read b\n", 3),
        ("a bad file", CATALOGUE + b"@data a < c\n", "fault header\n", 3),
        ("changes", CATALOGUE + b"@changes a < a\n", "fault part changes\n", 3),
        ("changes of no file", CATALOGUE + b"@changes a < b\n", "fault read b\n", 3),
    ):
        yield AmongFiles(words, commands, text, status, what, files={"night.bundle": bundle, "a": b"x\n@one\ntwo\n", "c": b"y\n"})
    bundle, files = CATALOGUE + b"@data a < a\n", {"a": b"x\n@one\ntwo\n"}
    most = len(CATALOGUE + b"@data a\nx\n@@one\ntwo\n")
    for limit, text, status in ((most, None, 0), (most - 1, "fault toolong\n", 3)):
        yield AmongFiles([*words, f"--most={limit}"], commands, text, status, "a limit", files={"night.bundle": bundle, **files})


def cuts():
    """Each beginning of a bundle with files."""
    bundle, _ = example("night_two_tables")
    filed, files = put_out(bundle, lambda heading, number: f"{heading}.csv")
    for end in range(len(filed) + 1):
        yield AsFilled(["night", "--input", "night.bundle"], b"", None, 0, f"cut at {end}", files={"night.bundle": filed[:end], **files})


def cases():
    yield from whole()
    yield from lines()
    yield from unread()
    yield from lengths()
    yield from unopened()
    yield from talks()
    yield from cuts()
