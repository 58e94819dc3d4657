"""Nights in a row over a shop, each committed by whview folder, compared with what sqlite3 makes from scratch of the same rows.

The first of the nights fills an empty warehouse, and each second one has workers and readers. Before them the README's session with a
folder of one's own is gone through, its commands as they are written; what `explain` and `sizes` tell of the shop is what its night
has; wide documents and narrow visits are planned by rows and by bytes; and catalogues with drawn mistakes are judged: `lint --lenient`
has a fault in one exactly where the program has. So are tables with mistakes: a first night tells of them what `lint` tells. Changes are
put in, each batch twice, and the nights of restored backups are those of their folders. At the end
a hundred readers are served beside ten nights, and each answer is one version's.
"""

import random
import os
import re
import shutil
import socket
import subprocess
import sys
import tempfile
import time
import tomllib
from collections import Counter
from pathlib import Path

from trials.bundles import examples
from trials.drawn.mistakes import drawn
from trials.drawn.shop import BASES, Shop, expected, lay as lay_shop, put_changes, table
from trials.drawn.views import Drawer
from trials.folder import backed_nights, first_nights, nights_beside_program as folder_nights, served
from upkeep.words import ROOT, program, words_with_program
from whview.bundle import parts_of
from whview.catalogue.from_toml import Catalogue
from whview.catalogue.parts import Warehouse
from whview.folder.records import table_text

REFUSALS, DRAWN_TABLES = 40, 400
CATALOGUES, FAULTS = 300, ("fault toml", "fault key", "fault column", "fault kind", "fault shape")
READERS = ["--readers", "3", "--workers", "2", "--page-keys", "50"]
SIZES = "orders,5,7,2 lines,7,9,6 products,3,4,3 sales,7,9,8 daily_by_product,6,8,8 daily_by_region,4,6,8"


def judge(folder, shop, night):
    for name, rows in expected(shop.rows).items():
        path = folder / "current" / ("data" if name in BASES else "views") / f"{name}.csv"
        if table(path) != rows:
            fail(f"after night {night} {name} differs from sqlite3's")


def judge_deltas(folder, night):
    """Judges that the deltas of a version, where it is not the first one, make its views of those before."""
    before, after = (folder / "versions" / str(number) for number in (night - 1, night))
    if (after / "deltas").exists() != (night > 1):
        fail(f"night {night} has deltas, or has none")
    for path in sorted((after / "views").iterdir()) if night > 1 else ():
        rows, delta = table(before / "views" / path.name), after / "deltas" / path.name
        rows.update(table(delta) if delta.exists() else {})
        if {row: count for row, count in rows.items() if count} != table(path):
            fail(f"after night {night} {path.stem} is not the one before with its delta")


def judge_versions(folder, night):
    """Judges that the newest three versions are there, of which the first one is that of the first tables."""
    there = sorted(int(path.name) for path in (folder / "versions").iterdir())
    if there != list(range(night + 1))[-3:]:
        fail(f"after night {night} there are the versions {there}")


def fail(text):
    sys.exit(f"folder/nights: {text}")


# ---- the README


def session(built, folder, block):
    """Runs the commands of a block in a copy of what they need, and answers what they print."""
    shutil.copytree(ROOT / "examples", folder / "examples")
    (folder / "whview").symlink_to(ROOT / "whview")
    if not block.startswith("cp "):
        shutil.copytree(ROOT / "examples/shop", folder / "shop")
    more = {"WHVIEW_PROGRAM": str(built), "PATH": f"{ROOT}:{os.environ['PATH']}"}
    ran = subprocess.run(["bash", "-e", "-o", "pipefail", "-c", block], cwd=folder, capture_output=True, text=True, env={**os.environ, **more})
    if ran.returncode or any(not line.startswith(("sizes ", "this is done by ", "version ")) for line in ran.stderr.splitlines()):
        fail(f"the README's commands {block!r} end with {ran.returncode}: {ran.stderr}")
    return ran.stdout


def serving(block):
    """A block that serves the shop, behind a first night, at a port that is free."""
    with socket.socket() as free:
        free.bind(("127.0.0.1", 0))
        port = str(free.getsockname()[1])
    served_there = block.replace("serve shop", f"serve shop --port {port}").replace("8000", port)
    return f"./whview folder night shop --commit >first\n{served_there}"


def judge_readme(built):
    """Goes through the README's commands, each block by itself, and through those at the head of docs/WAREHOUSE.md."""
    page = (ROOT / "README.md").read_text().partition("\n## Your own warehouse\n")[2].partition("\n## ")[0]
    blocks = re.findall(r"```\n(.*?)```", page, re.DOTALL)
    said = {"certify": "certified all work 96\n", "--commit": "work 98\n", "lint": "daily_by_region,,6,8\n", "unpack": ""}
    said |= {"serve": "1,7,Wednesday,south\n#,id,day,region\n"}
    blocks = [block if "serve" not in block else serving(block) for block in blocks]
    blocks.append(re.search(r"```\n(.*?)```", (ROOT / "docs/WAREHOUSE.md").read_text(), re.DOTALL)[1])
    wanted = [(next(block for block in blocks if word in block), answer) for word, answer in said.items()]
    for block, answer in [*wanted, (blocks[-1], "\nwork 98\n")]:
        with tempfile.TemporaryDirectory() as kept:
            if answer not in session(built, Path(kept), block):
                fail(f"the README's commands {block!r} do not print {answer!r}")


# ---- the shop


def told(built, command):
    """What a command prints of a fresh copy of the shop."""
    with tempfile.TemporaryDirectory() as kept:
        folder = shutil.copytree(ROOT / "examples/shop", Path(kept) / "shop")
        words = [ROOT / "whview", "folder", command, folder, "--program", built]
        return subprocess.run(words, check=True, stdout=subprocess.PIPE, stderr=subprocess.DEVNULL).stdout.splitlines()


def judge_told(built):
    """Compares the rows that `explain` tells of the shop's steps with those that the program read, and its sizes."""
    steps = (ROOT / "examples/night_shop.answer").read_bytes().partition(b"\nwork ")[0].splitlines()
    explained = [line.partition(b",")[0] for line in told(built, "explain") if not line.startswith(b" ")]
    if explained != [*steps, b"work 98"]:
        fail("explain tells other rows than the night has")
    if told(built, "sizes")[1:] != SIZES.encode().split(b" "):
        fail("sizes tells other sizes than the night has")


# ---- weights


def judge_weights(built):
    """Compares the plans of wide documents and narrow visits, by rows and by bytes, with those of docs/WAREHOUSE.md."""
    wide, narrow = (f"comp seen from {name}\ninst {name}\n" for name in ("documents", "visits"))
    by_rows = f"scope all\nwork 168\n{narrow}{wide}inst seen\npair seen visits documents 100\n"
    by_bytes = f"scope all\nwork 440\n{wide}{narrow}inst seen\npair seen documents visits 220\n"
    for wanted, *weights in ((by_rows,), (by_bytes, "--weights", "bytes")):
        words = [ROOT / "whview", "folder", "plan", ROOT / "examples/documents", "--program", built, *weights]
        ran = subprocess.run(words, check=True, stdout=subprocess.PIPE, stderr=subprocess.DEVNULL, text=True)
        if ran.stdout != wanted:
            fail(f"the plan of documents {weights} is {ran.stdout}")


# ---- catalogues with mistakes


def catalogue_texts():
    """The catalogues of the shop and of the bundles whose views are defined."""
    found = [(ROOT / "examples/shop/catalogue.toml").read_text()]
    for example in examples():
        if example.words[0] in ("night", "replay"):
            try:
                text = "\n".join(parts_of(example.bundle.decode())[0]["catalogue"])
                found += [text] if tomllib.loads(text).get("view") else []
            except (ValueError, KeyError):
                pass
    return found


def judge_mistakes(built):
    """Compares what `lint` finds in catalogues with what the program refuses, and counts the faults."""
    source, texts, faults = random.Random(31), catalogue_texts(), 0
    with tempfile.TemporaryDirectory() as kept:
        for _ in range(CATALOGUES):
            text = drawn(source, texts)
            (Path(kept) / "catalogue.toml").write_text(text)
            found = [str(finding) for finding in Catalogue(Path(kept), lenient=True).findings if not finding.warns]
            ran = subprocess.run([built, "night"], input=f"@catalogue\n{text}@strategy\n".encode(), stdout=subprocess.PIPE)
            said = ran.stdout.decode()
            faults += said.startswith(FAULTS)
            if said.startswith(FAULTS) != bool(found):
                fail(f"lint finds {found} where the program says {said!r}, in\n{text}")
    return faults


# ---- refusals


def judge_refusals(built):
    """Compares what is told of refused nights over drawn views, whose numbers are large, with the program's refusals: where an expression
    or a sum leaves 64 bits, which one it is has to be found. Counts them."""
    source, found = random.Random(64), 0
    for _ in range(REFUSALS):
        drawer = Drawer(source)
        bases = [drawer.base(3) for _ in range(2)]
        source.choice([drawer.joined, drawer.summary])(bases)
        records = [[(large(source, row), count) for row, count in drawer.records(view)] for view in drawer.views[:2]]
        with tempfile.TemporaryDirectory() as kept:
            lay(Path(kept), Warehouse(drawer.views), [*records, []])
            words = [ROOT / "whview", "folder", "night", kept, "--program", built]
            told = subprocess.run(words, capture_output=True, text=True).stderr
        refused = "\nrefused range " in f"\n{told}"
        found += refused
        if refused != (" leaves 64 bits" in told):
            fail(f"a night is refused, and told is {told}")
    return found


def large(source, row):
    return tuple(cell * source.choice([10**9, 3 * 10**18]) if isinstance(cell, int) else cell for cell in row)


def lay(folder, warehouse, records):
    """Writes the folder of views and of their records."""
    (folder / "data").mkdir()
    (folder / "catalogue.toml").write_bytes(warehouse.catalogue().partition(b"\n")[2].replace(b"\n@@", b"\n@"))
    for view, listed in zip(warehouse.views, records):
        if not view.over:
            rows = Counter()
            for row, count in listed:
                rows[row] += count
            (folder / f"data/{view.name}.csv").write_bytes(table_text(view.columns, rows))


# ---- first nights


def first_nights_told(built):
    """Compares what a first night tells of tables with mistakes with what `lint` tells, and says what was tried."""
    try:
        return first_nights.tried(built, random.Random(12), DRAWN_TABLES)
    except first_nights.Wrong as wrong:
        return fail(f"first nights: {wrong}")


# ---- nights in a row


def carried_nights(built, orders, lines, nights):
    """Nights in a row, each committed and compared; the first fills an empty warehouse."""
    shop = Shop(random.Random(7), orders, lines)
    changes = {name: [(1, row) for row in rows] for name, rows in shop.rows.items()}
    with tempfile.TemporaryDirectory() as kept:
        folder = Path(kept)
        lay_shop(folder)
        for night in range(1, nights + 1):
            put_changes(folder, changes)
            beside = READERS if night % 2 == 0 else []
            words = [ROOT / "whview", "folder", "night", folder, "--commit", "--keep", "3", "--program", built, *beside]
            ran = subprocess.run(words, stdout=subprocess.PIPE, stderr=subprocess.PIPE, text=True)
            if ran.returncode or ran.stdout.count("\nreader ") != (3 if beside else 0):
                fail(f"night {night} ends with {ran.returncode}: {ran.stderr}, and prints {ran.stdout}")
            judge(folder, shop, night)
            judge_deltas(folder, night)
            judge_versions(folder, night)
            changes = shop.night(orders // 100, lines // 100)
        judge_redefined(built, folder, changes)


def judge_redefined(built, folder, changes):
    """Defines one view otherwise and takes another one out: no sizes are told whose rows before and after are further apart than what
    changed, and the night's report leaves open how many rows the views had that nobody counted.
    """
    catalogue = folder / "catalogue.toml"
    text = catalogue.read_text().rpartition("\n# What was sold in each region")[0]
    catalogue.write_text(text.replace('join = [["orders.id"', 'where = ["<", "lines.pieces", 3]\njoin = [["orders.id"'))
    put_changes(folder, changes)
    for words in (["sizes"], ["night", "--commit"], ["sizes"]):
        ran = subprocess.run([ROOT / "whview", "folder", words[0], folder, *words[1:], "--program", built], capture_output=True, text=True)
        told = [line.split(",") for line in ran.stdout.partition("view,pre,post,change\n")[2].splitlines()]
        left = [name for name, before, *_ in told if not before]
        apart = [name for name, before, after, change in told if before and abs(int(before) - int(after)) > int(change)]
        if ran.returncode or len(told) != 5 or apart or left != ["sales", "daily_by_product"] * (words[0] == "night"):
            fail(f"after another definition {words} ends with {ran.returncode} and tells {told}: {ran.stderr}")


def backed_nights_told(built):
    """Puts changes in and restores backups, and says what was tried."""
    try:
        return backed_nights.tried(built)
    except backed_nights.Wrong as wrong:
        return fail(f"backups: {wrong}")


# ---- readers


def judge_readers(built):
    """Serves readers beside nights, and tells what they read."""
    with tempfile.TemporaryDirectory() as kept:
        try:
            views, gone, versions, longest = served.nights_beside_readers(built, Path(kept))
        except served.Wrong as wrong:
            fail(f"readers: {wrong}")
    told = f"{views} views of {versions} versions, each whole; {gone} were begun in a version that was pruned before their end"
    print(f"{served.READERS} readers beside {served.NIGHTS} nights: {told}; the longest answer took {longest:.2f} s")


def main():
    given = words_with_program(__doc__)
    for name, count in (("orders", 1000), ("lines", 3000), ("nights", 10)):
        given.add_argument(name, nargs="?", type=int, default=count, help="how many there are (%(default)s)")
    given.add_argument("--megabytes", nargs="*", type=int, default=[1, 25], help="how large drawn shop chains are (%(default)s)")
    asked = given.parse_args()
    built, orders, lines, nights = program(asked.program), asked.orders, asked.lines, asked.nights
    began = time.monotonic()
    judge_readme(built)
    judge_told(built)
    judge_weights(built)
    faults = judge_mistakes(built)
    refused = judge_refusals(built)
    print(f"refusals: {REFUSALS} drawn nights, {refused} of them refused for a number, with the expression and its rows")
    print(first_nights_told(built))
    print(f"lint: {CATALOGUES} catalogues with drawn mistakes, a fault in {faults} of them, where the program has one")
    carried_nights(built, orders, lines, nights)
    print(f"{nights} nights of {orders} orders and {lines} lines: six views are sqlite3's after each ({time.monotonic() - began:.0f} s)")
    print(backed_nights_told(built))
    for megabytes in asked.megabytes:
        for line in folder_nights.tried(built, megabytes):
            print(f"a shop chain of {line}", flush=True)
    judge_readers(built)
