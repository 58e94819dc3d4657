"""Mistakes that are drawn in the examples: a byte, a cell, a key, a name."""

import random
import re
import shutil
import tempfile
from collections import Counter
from pathlib import Path

from trials.bundles import examples
from whview.bundle import parts_of
from whview.catalogue.from_toml import Catalogue
from whview.folder.folder import Folder

from .shop import SHOP


def give_headers(folder):
    """Gives each base view without a table an empty one."""
    for view in Catalogue(folder).views:
        file = folder / "data" / f"{view.name}.csv"
        if view.is_base and view.columns and not file.exists():
            file.parent.mkdir(exist_ok=True)
            file.write_text(",".join(name for name, _ in view.columns) + "\n")


def example_folders(room):
    """The shop, and each bundle of a night as a folder, where it has no fault."""
    found = [shutil.copytree(SHOP, room / "shop")]
    for example in (each for each in examples() if each.name.startswith("night_")):
        folder = room / example.name
        try:
            once, nights = parts_of(example.path.read_text())
            unpacked = {"catalogue.toml" if part == "catalogue" else f"{part.replace(' ', '/')}.csv": once[part] for part in once}
            unpacked |= {f"{part.replace(' ', '/')}.csv": lines for part, lines in nights[0].items() if part != "strategy"}
            for file, lines in unpacked.items():
                (folder / file).parent.mkdir(parents=True, exist_ok=True)
                (folder / file).write_text("".join(f"{line}\n" for line in lines), newline="")
        except (OSError, ValueError, KeyError):
            continue
        give_headers(folder)
        if Folder(folder).views and not Folder(folder).faults:
            found.append(folder)
    return found


def places(folder, kind):
    """Where a mistake of a kind can be made: the file, the number of the line, and where in it what is to be changed stands."""
    form = {"key": rb"^[a-z]+(?= =)", "name": rb"(?<=\.)[a-z]+(?=\")"}.get(kind)
    if form:
        lines = (folder.path / "catalogue.toml").read_bytes().split(b"\n")
        return [("catalogue.toml", number, each.span()) for number, line in enumerate(lines) for each in re.finditer(form, line)]
    found = []
    for records in [*folder.data.values(), *(each for changes in folder.changes.values() for each in changes.files)]:
        lines = records.content.split(b"\n")
        kinds = ["int"] * lines[0].startswith(b"#") + [kind for _, kind in records.view.columns]
        for number, line in enumerate(lines[1:-1], 1):
            cells = [] if b'"' in line else list(re.finditer(rb"[^,\r]+", line))
            spans = [each.span() for each, kind in zip(cells, kinds) if kind == "int" and len(cells) == len(kinds)]
            found += [(records.file, number, span) for span in (spans if kind == "cell" else [(len(line), len(line))] * bool(line))]
    return found


def mistaken(source, folder):
    """Makes a mistake, and answers its kind, file and line; what was there can be put back."""
    kind = source.choice(["byte", "cell", "key", "name"])
    fitting = places(folder, kind)
    if not fitting:
        return None
    file, number, (start, end) = source.choice(fitting)
    content = (folder.path / file).read_bytes()
    lines = content.split(b"\n")
    put = {"byte": b"\xff", "cell": b"1x"}.get(kind, b"qqq")
    lines[number] = lines[number][:start] + put + lines[number][end:]
    (folder.path / file).write_bytes(b"\n".join(lines))
    return kind, file, number + 1, content


def test_mistakes_are_found_in_their_files_and_lines():
    source, made = random.Random(30), Counter()
    with tempfile.TemporaryDirectory() as room:
        sound = [Folder(path) for path in example_folders(Path(room))]
        assert len(sound) >= 20
        while made.total() < 400:
            folder = source.choice(sound)
            mistake = mistaken(source, folder)
            if mistake:
                kind, file, line, content = mistake
                found = Folder(folder.path).findings
                assert (file, line) in [finding.place[:2] for finding in found]
                (folder.path / file).write_bytes(content)
                made[kind] += 1
    assert min(made.values()) > 50
