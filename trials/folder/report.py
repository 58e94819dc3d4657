"""Looks at pages of nights in a browser without a window: chromium, which is installed where it is missing and that can be done.

Each page is looked at by day and by night, 1,200 and 390 pixels wide: no text is paler than 4.5 to 1 or too small, nothing is wider than
its place, and each place that the keyboard comes to shows it. Before that spoilt pages have to be noticed. The pages are those of a
drawn shop's nights, of one by another catalogue, of a night whose plan is least of the one-way ones, of one with long and hostile names
and texts, of a preview, and the page of `serve`, where a session is opened and left by the keyboard while a night commits. Where no
browser can be had this is said, and nothing is looked at.

    trials/run folder/report --picture docs/report.png    keeps the picture of the shop's page beside the docs

A picture is not compared, since fonts differ; but it has in it of which page it was taken, and has to be of this one, but for numbers.
"""

import random
import re
import struct
import subprocess
import sys
import tempfile
import zlib
from hashlib import sha256
from pathlib import Path

from trials.drawn.shop import BASES, Shop, put_changes, write
from trials.folder.browser import browser, faults, picture
from trials.folder.driven import Driven, Silent
from upkeep.words import ROOT, program, words_with_program
from whview.folder.answers import Answers, Request

WIDTH, HEIGHT = 1000, 1612
PICTURE = ROOT / "docs/report.png"
MOST_BYTES = 250_000
LONG = "long_" * 12 + "name"
HOSTILE = f"""\
[[view]]
name = "{LONG}"
columns = ["id", "{LONG}:text"]
[[view]]
name = "s"
over = ["{LONG}"]
group = [["x", "{LONG}.{LONG}"]]
count = "n"
"""
ONE_WAY = """\
view = [
  { name = "B", columns = ["x"] },
  { name = "C", columns = ["x"] },
  { name = "V1", over = ["B", "C"], join = [["B.x", "C.x"]], where = ["<", "B.x", 100], keep = [["x", "B.x"]] },
  { name = "V2", over = ["B", "V1"], join = [["B.x", "V1.x"]], keep = [["x", "B.x"]] },
]
"""
# Pages that are spoilt, each by one text in the place of another.
SPOILT = {
    "texts that are pale by day": ("--soft: #566273", "--soft: #a6b2c3"),
    "texts that are pale by night": ("--soft: #9ca8b7", "--soft: #5c6877"),
    "texts of the graph that are pale": (".graph text { fill: var(--ink)", ".graph text { fill: #888"),
    "a keyboard that is not seen": ("outline: 3px solid var(--focus)", "outline: none"),
    "a part that is too wide": ('<main id="content">', '<main id="content"><pre style="width:1400px">x</pre>'),
    "letters that are too small": ("code, .mono {", "code { font-size: 5px !important } code, .mono {"),
    "a night that is as bright as the day": ("--paper: #12161c", "--paper: #f2f6fc"),
}


def fail(text):
    sys.exit(f"try_report: {text}")


def tool(*words):
    """Runs a command of whview folder that has to be done, and answers what it prints."""
    return subprocess.run([ROOT / "whview", "folder", *words], check=True, stdout=subprocess.PIPE, text=True).stdout


def night(built, folder, changes, *words):
    """A night over these changes, by the columns and rows of each view."""
    put_changes(folder, {name: changed for name, (_, changed) in changes.items()}, {name: columns for name, (columns, _) in changes.items()})
    tool("night", folder, *words, "--program", built)


def report(built, folder, *words):
    return Path(tool("report", folder, *words, "--program", built).strip())


# ---- the pages


def shop(built, folder):
    """Eight nights of a drawn shop."""
    drawn = Shop(random.Random(11), 60, 150)
    folder.mkdir()
    (folder / "catalogue.toml").write_bytes((ROOT / "examples/shop/catalogue.toml").read_bytes())
    for name, columns in BASES.items():
        write(folder / "data" / f"{name}.csv", columns, [(1, row) for row in drawn.rows[name]])
    for number in range(8):
        changes = drawn.night(4 + 3 * number % 8, 9 + 5 * number % 12)
        night(built, folder, {name: (BASES[name], changed) for name, changed in changes.items()}, "--commit")
    return report(built, folder)


def anew(built, folder):
    """A preview of the shop by another catalogue."""
    catalogue = folder / "catalogue.toml"
    text = catalogue.read_text()
    catalogue.write_text(text.replace('join = [["orders.id", "lines.id"]', 'where = ["<", "lines.pieces", 4]\njoin = [["orders.id", "lines.id"]'))
    night(built, folder, {"orders": (BASES["orders"], [(1, (10**6 + 1, "day 1", "north"))])})
    page = report(built, folder, "new")
    (folder / "changes/orders.csv").unlink()
    catalogue.write_text(text)
    return page


def one_way(built, folder):
    """A night whose plan is least of the one-way ones: V1 shrinks, B grows, and C grows more."""
    folder.mkdir()
    (folder / "catalogue.toml").write_text(ONE_WAY)
    for name in "BC":
        write(folder / "data" / f"{name}.csv", ["x"], [(1, (number,)) for number in range(10)])
    coming = {"B": [(-1, (1,))] + [(1, (100 + number,)) for number in range(3)], "C": [(1, (200 + number,)) for number in range(6)]}
    night(built, folder, {name: (["x"], changed) for name, changed in coming.items()}, "--commit")
    return report(built, folder)


def hostile(built, folder):
    """Long names and texts, and texts that look like HTML, as a preview."""
    folder.mkdir()
    (folder / "catalogue.toml").write_text(HOSTILE)
    columns, texts = ["id", LONG], ["x" * 500, "<script>alert(1)</script>", "a\nb", "‮right to left", "", " " * 20, "&amp;"]
    write(folder / "data" / f"{LONG}.csv", columns, [(1, (1, text)) for text in texts])
    night(built, folder, {LONG: (columns, [(-1, (1, texts[0])), (3, (2**62, texts[1])), (7, (-3, texts[3]))])})
    return report(built, folder)


def served(folder):
    """The page of `serve`, in a session and without one."""
    answers = Answers(folder, 900)
    yield answers.answer(Request("GET", "/", accept="text/html")).body.decode()
    session = answers.sessions.begin()
    yield answers.answer(Request("GET", f"/?session={session.name}", accept="text/html")).body.decode()


def pages(built, room):
    """All pages by their names, and the file of the shop's."""
    file = shop(built, room / "shop")
    one, other = one_way(built, room / "one_way").read_text(), hostile(built, room / "hostile").read_text()
    if "<h2>Why no strategy costs less" not in file.read_text() or 'class="tree"' not in one or "<script" in other:
        fail("the shop's page has no certificate by pairs, or another no tree, or a text is taken for HTML")
    another = anew(built, room / "shop").read_text()
    if "was computed anew" not in another or "rows differ" not in another:
        fail("the page of a night by another catalogue does not say so, or compares no rows")
    found = {"the shop": file.read_text(), "a one-way plan": one, "hostile texts": other, "another catalogue": another}
    return found | dict(zip(("serve", "serve in a session"), served(room / "shop"))), file


# ---- what is looked at


def judge_spoilt(looker, text):
    """Sees that each spoilt page is noticed."""
    for name, (old, new) in SPOILT.items():
        if old not in text or not faults(looker, text.replace(old, new))[0]:
            fail(f"nothing is seen of {name}")


def judge_session(looker, built, folder):
    """Opens a session in the browser, by the keyboard, carries a night out, and leaves it: the page shows the version that was pinned,
    and then the new one."""
    words = [ROOT / "whview", "folder", "serve", folder, "--port", "0"]
    with subprocess.Popen(words, stdout=subprocess.PIPE, text=True) as server, Driven(looker) as reader:
        try:
            url = re.search(r"http://[^;]+", server.stdout.readline())[0]
            reader.open(url)
            reader.waits_for("The views of version 8")
            reader.press("Open a session")
            reader.waits_for("Your session pins version 8")
            night(built, folder, {"orders": (BASES["orders"], [(1, (10**6, "day 1", "north"))])}, "--commit", "--keep", "1")
            reader.open(url)
            reader.waits_for("version 9")
            reader.waits_for("Your session pins version 8")
            reader.press("Leave it")
            reader.waits_for("The views of version 9")
        except Silent as silent:
            fail(f"a session by the keyboard: {silent}")
        finally:
            server.terminate()


def mark_of(file):
    """A part of a picture that says of which page it is: what the page has but for numbers, the folder that it was made of, and the program
    that was asked.
    """
    text = re.sub("By [^<]*, as far as", "By a program, as far as", file.read_text().replace(str(file.parents[1]), ""))
    text = re.sub(r"[0-9][0-9.,]*", "0", text)
    part = b"tEXtpage\0" + sha256(text.encode()).hexdigest().encode()
    return struct.pack(">I", len(part) - 4) + part + struct.pack(">I", zlib.crc32(part))


def keep_picture(looker, file, kept):
    """Takes the picture of a page, and writes into it, before its last part, of which page it is."""
    picture(looker, file, kept, WIDTH, HEIGHT)
    content = kept.read_bytes()
    kept.write_bytes(content[:-12] + mark_of(file) + content[-12:])


def judge_picture(file):
    """Sees that the picture beside the docs is one of these pages' size, small, and of a page as this one."""
    content = PICTURE.read_bytes()
    if not content.startswith(b"\x89PNG") or len(content) > MOST_BYTES or struct.unpack(">II", content[16:24]) != (WIDTH, HEIGHT):
        fail(f"{PICTURE} is no picture of {WIDTH} by {HEIGHT} of {MOST_BYTES:,} bytes at most; --picture {PICTURE} makes it")
    if mark_of(file) not in content:
        fail(f"{PICTURE} is the picture of another page than the shop's is now; --picture {PICTURE} makes it anew")


def main():
    given = words_with_program(__doc__)
    given.add_argument("--picture", type=Path, help="where the picture of the shop's page is kept")
    asked = given.parse_args()
    built, looker = program(asked.program), browser()
    with tempfile.TemporaryDirectory() as kept:
        found, file = pages(built, Path(kept))
        if looker is None:
            print(f"try_report: no browser can be had; {len(found)} pages were made, and are not looked at (skipped)")
            return
        if asked.picture:
            keep_picture(looker, file, asked.picture.resolve())
        judge_spoilt(looker, found["the shop"])
        judge_session(looker, built, Path(kept) / "shop")
        places = 0
        for name, text in found.items():
            wrong, stops = faults(looker, text)
            places += stops
            if wrong:
                fail(f"the page of {name}: " + "\n".join(wrong[:9]))
        judge_picture(file)
    seen = f"nothing is wrong, and the keyboard shows {places} places; {len(SPOILT)} spoilt pages are noticed"
    print(f"{len(found)} pages by day and by night, wide and narrow: {seen}")
