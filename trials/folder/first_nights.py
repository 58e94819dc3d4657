"""First nights of folders whose tables have mistakes: the program judges them, and what it refuses is told as `lint` tells it."""

import shutil
import subprocess
from pathlib import Path
from tempfile import TemporaryDirectory
from types import SimpleNamespace

from upkeep.words import ROOT
from whview import program
from whview.bundle import part_pieces
from whview.finding import Failure
from whview.folder.inputs import Source
from whview.folder.records import Records

SHOP = ROOT / "examples/shop"
COLUMNS = [("x", "int"), ("t", "text"), ("u", "text")]
CATALOGUE = b'@catalogue\n[[view]]\nname = "v"\ncolumns = ["x", "t:text", "u:text"]\n@strategy\ninst v\n'
PIECES = [b"1,", b",", b'"', b'""', b"\n", b"\r", b"\r\n", b"\0", b"\xff", b"x", b"0", b"-", b"+", b"7", b"9" * 19, b" ", b"\xc3\xa9", b"#", b"@", b"@data v\n"]
CELLS = [b"oak", b'"elm, old"', b'"the ""ash"""', b"", b"7", b"@x", b'"two\nlines"', b"view v"]
MARK = b"\xef\xbb\xbf"

# Tables of products in the place of the shop's, and whether each has a fault.
TABLES = {
    "a price with a point": (b"product,price\njam,4.50\nbread,300\n", True),
    "a price that is too large": (b"product,price\nbread,9223372036854775808\n", True),
    "a cell too few": (b"product,price\nbread,300\njam\n", True),
    "a cell too many": (b"#,product,price\n1,bread,300,5\n", True),
    "a count of 0": (b"#,product,price\n1,bread,300\n0,jam,450\n", True),
    "a count below 0": (b"#,product,price\n-1,bread,300\n", True),
    "counts that leave 64 bits": (b"#,product,price\n9223372036854775807,jam,1\n1,jam,1\n", True),
    "another header": (b"product,cost\nbread,300\n", True),
    "columns in another order": (b"price,product\n300,bread\n", True),
    "no header": (b"", True),
    "a quote that is never closed": (b'product,price\n"bread,300\njam,450\n', True),
    "more behind a quote": (b'product,price\n"bread" white,300\n', True),
    "a quote over lines": (b'product,price\n"bread\nwhite",300,4\n', True),
    "what is not UTF-8": (b"product,price\nbr\xe4d,300\n", True),
    "several mistakes": (b"product,price\nbread,3.00\njam\ntea,x\n", True),
    "a blank line, and no line end": (b"product,price\n\nbread,300", False),
    "carriage returns": (b"product,price\r\nbread,300\r\n", False),
    "a byte order mark": (MARK + b"product,price\nbread,300\n", False),
    "heads of parts": (b'product,price\n@data orders,300\n@@night,1\n"x\n@strategy\n",2\n', False),
    "numbers in other forms": (b"#,product,price\n+1,bread,+300\n02,jam,0450\n", False),
    "quotes": (b'product,price\n"tea, ""black""",800\n', False),
}


class Wrong(Exception):
    """What does not hold."""


def files(folder):
    """The bytes of all files, but for the one that is locked."""
    return {str(path.relative_to(folder)): path.read_bytes() for path in folder.rglob("*") if path.is_file() and path.name != ".lock"}


def told(built, folder, *words):
    ran = subprocess.run([ROOT / "whview", "folder", words[0], folder, *words[1:], "--program", built], capture_output=True, text=True)
    return ran.returncode, ran.stderr.splitlines()


def judge_table(built, name, content, is_faulty):
    """Judges a first night over a table: it is done, or told is what `lint` tells, and nothing is changed."""
    with TemporaryDirectory() as kept:
        folder = shutil.copytree(SHOP, Path(kept) / "shop")
        shutil.rmtree(folder / "changes")
        (folder / "data/products.csv").write_bytes(content)
        before, found = files(folder), told(built, folder, "lint")
        if (found[0] == 3) != is_faulty:
            raise Wrong(f"lint tells of {name}: {found}")
        for words in (["night"], ["night", "--commit"]):
            if (night := told(built, folder, *words)) != found:
                raise Wrong(f"{' '.join(words)} tells of {name} {night}, and lint {found}")
        if is_faulty and (files(folder) != before or (folder / "versions").exists()):
            raise Wrong(f"a night that has {name} changes files")
        if not is_faulty and (folder / "versions/0/data/products.csv").read_bytes() != content:
            raise Wrong(f"versions/0 has not {name}")


def drawn(source):
    """A table that is drawn, with some mistakes."""
    counted, end = source.random() < 0.5, source.choice([b"\n", b"\r\n"])
    lines = [source.choice([b"", MARK]) * (source.random() < 0.2) + (b"#," if counted else b"") + b"x,t,u"]
    for _ in range(source.randint(0, 4)):
        cells = [source.choice([b"1", b"3"])] * counted + [source.choice([b"5", b"-7", b"007"]), *source.choices(CELLS, k=2)]
        lines.append(b",".join(cells))
    content = bytearray(end.join([*lines, b""]))
    for _ in range(source.randint(0, 2)):
        place = source.randrange(len(content) + 1)
        content[place : place + source.randint(0, 2)] = source.choice(PIECES)
    return bytes(content)


def is_taken(built, records, view):
    """Whether the program takes a table."""
    folder = SimpleNamespace(views=[view], catalogue=SimpleNamespace(max_bytes=None))
    folder.bundle = lambda *_: [CATALOGUE, *part_pieces("data v", records.content)]
    try:
        program.night(folder, SimpleNamespace(program=built), "")
    except Failure as failure:
        if failure.status != 3:
            raise
        return False
    return True


def judge_drawn(built, source, count):
    """Judges that a table which waits for the program has a fault exactly where the program finds one, and how many waited and had one."""
    view, waited, faulty = SimpleNamespace(name="v", columns=COLUMNS, is_base=True), 0, 0
    with TemporaryDirectory() as kept:
        file = Path(kept) / "v.csv"
        for _ in range(count):
            file.write_bytes(drawn(source))
            records = Records(Source(file, "v.csv"), view, False)
            if not records.wait():
                continue
            waited += 1
            findings = records.whole.findings
            faulty += bool(findings)
            if is_taken(built, records, view) == bool(findings):
                raise Wrong(f"of {records.content} is found {findings}, and the program says otherwise")
            if not findings and (records.total, records.rows) != (records.whole.rows.total(), records.whole.rows):
                raise Wrong(f"the rows of {records.content} are {records.rows}")
    return waited, faulty


def tried(built, source, count):
    for name, (content, is_faulty) in TABLES.items():
        judge_table(built, name, content, is_faulty)
    waited, faulty = judge_drawn(built, source, count)
    of = f"{count} drawn tables, {waited} of them left to the program, {faulty} with a fault, which it found"
    return f"first nights: {len(TABLES)} tables told as lint tells them; {of}"
