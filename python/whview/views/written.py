"""A decomposition as files of a folder, by which captures and nights go, and as the script that makes the read views."""

from __future__ import annotations

import json
import os
from collections.abc import Sequence
from pathlib import Path

from ..sql.several import WAREHOUSE, toml
from ..strategy.rules import Rules
from . import captured
from .asked import named
from .divided import Divided
from .record import Decomposition, Formula, Kept, Mirror

CATALOGUE, STRATEGY, READS = "catalogue.toml", "strategy.txt", "views.sql"
# What stands behind the name of a view of a file for the table of its columns' types.
SHAPE = "~shape"
# The first line of the file of read views, and what names one of them there.
MADE_HERE, NAMED_VIEW = "-- whview sql take made these views, which are read.", "-- view "


def mirror_lines(mirror: Mirror) -> list[str]:
    """A base view."""
    columns: list[Formula] = [f"{each.name}:text" if each.kind == "text" else each.name for each in mirror.columns]
    key = [f"key = {toml([*mirror.key])}"] if mirror.key and len(mirror.key) < len(mirror.columns) else []
    return ["[[view]]", f"name = {toml(mirror.name)}", f"columns = {toml(columns)}", *key, ""]


def kept_lines(kept: Kept) -> list[str]:
    """A derived view."""
    lines = ["[[view]]", f"name = {toml(kept.name)}", f"over = {toml([*kept.over])}"]
    lines += [f"join = {toml([[left, right] for left, right in kept.join])}"] if kept.join else []
    lines += [f"where = {toml(['all', *kept.where])}"] if kept.where else []
    outputs = toml([[name, formula] for name, formula in kept.outputs])
    if not kept.is_summary:
        return [*lines, f"keep = {outputs}", ""]
    sums = [f"sum = {toml([[name, formula] for name, formula in kept.sums])}"] if kept.sums else []
    return [*lines, f"group = {outputs}", 'count = "n"', *sums, ""]


def catalogue(decomposition: Decomposition) -> str:
    """The catalogue: mirrors, and what is kept over them."""
    lines = [line for each in decomposition.mirrors for line in mirror_lines(each)]
    return "\n".join([*lines, *(line for each in decomposition.kept for line in kept_lines(each))])


def strategy(decomposition: Decomposition) -> str:
    """An order of a night that is right for any views: the changes of one after another are brought into all views over it."""
    names = [*(each.name for each in decomposition.mirrors), *(each.name for each in decomposition.kept)]
    over = [list[int]() for _ in decomposition.mirrors] + [[names.index(name) for name in each.over] for each in decomposition.kept]
    lines = [f"inst {names[v]}" if sources is None else f"comp {names[v]} from {' '.join(names[u] for u in sources)}" for v, sources in Rules(over).one_way()]
    return "\n".join([*lines, ""])


def catalogues(decomposition: Decomposition) -> dict[str, str]:
    """The files of a warehouse with its strategy, or those of several, whose nights go by the order of all of them."""
    parts = Divided(decomposition).parts()
    if len(parts) == 1:
        return {CATALOGUE: catalogue(decomposition), STRATEGY: strategy(decomposition)}
    return {f"{WAREHOUSE}{at}/{CATALOGUE}": catalogue(each) for at, each in enumerate(parts, 1)}


def former(folder: Path, schema: str) -> list[str]:
    """The names of the views of a schema that were made before by the files of a folder."""
    file = folder / READS
    said = [line.removeprefix(NAMED_VIEW) for line in file.read_text().splitlines() if line.startswith(NAMED_VIEW)] if file.is_file() else []
    return [name for where, name in map(json.loads, said) if where == schema]


def gone(names: Sequence[str], prefix: str) -> list[str]:
    """The statements by which read views of these names go from a file of SQLite, behind a word before their names."""
    listed = [(named("main", prefix + each), named("main", prefix + each + SHAPE)) for each in names]
    return [line for view, shape in listed for line in (f"DROP VIEW IF EXISTS {view}", f"DROP TABLE IF EXISTS {shape}")]


def stranger(folder: Path) -> Path | None:
    """A file of a folder that would be written over, where nothing says that it was made here."""
    reads = folder / READS
    if reads.is_file() and reads.read_text().startswith(MADE_HERE):
        return None
    return next((folder / name for name in (CATALOGUE, STRATEGY, captured.FILE, READS, f"{WAREHOUSE}1") if (folder / name).exists()), None)


def put(folder: Path, decomposition: Decomposition, schema: str, views: Sequence[str]) -> None:
    """Writes the files, with these lines that make the read views."""
    folder.mkdir(parents=True, exist_ok=True)
    names = [f"{NAMED_VIEW}{json.dumps([schema, each.name])}" for each in decomposition.reads]
    reads, made = "\n".join([MADE_HERE, *names, *views, ""]), catalogues(decomposition)
    # What names the views that are there is written first, so that a stop leaves a folder that is known as one of these.
    for name, content in {READS: reads, captured.FILE: captured.written(decomposition.mirrors), **made}.items():
        (folder / name).parent.mkdir(exist_ok=True)
        partly = folder / f"{name}.new"
        partly.write_text(content)
        os.replace(partly, folder / name)
    for gone in (CATALOGUE, STRATEGY, *(f"{each.name}/{CATALOGUE}" for each in folder.glob(f"{WAREHOUSE}*"))):
        if gone not in made:
            (folder / gone).unlink(missing_ok=True)
