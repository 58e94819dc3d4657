"""`init`: a folder with a first catalogue, made of CSV files as other programs write them. The files stay as they are."""

from __future__ import annotations

import os
from collections.abc import Iterable, Iterator, Sequence
from pathlib import Path
from typing import TYPE_CHECKING

from ..catalogue.from_toml import MOST_VIEWS
from ..disk import remove, telling
from ..finding import Failure, warn
from ..status import BAD_INPUT, BAD_WORDS, DONE, Status
from .declared.home import SQL
from .declared.proposed import catalogue_text as sql_text
from .declared.proposed import key_of, kind_of, named_anew
from .declared.said import CATALOGUE as TOML
from .exports import Export
from .folder import Folder, judged
from .proposals import Joined, catalogue_text, proposed, unjoined

if TYPE_CHECKING:
    from .command import Words
    from .proposals import Proposed


def judge_words(words: Words) -> None:
    """Refuses what cannot be made, before anything is read."""
    if words.folder.exists() and (not words.folder.is_dir() or os.listdir(words.folder)):
        raise Failure(BAD_WORDS, f"{words.folder} is there already, and stays as it is; name a folder that is not there")
    if len(words.folders) - 1 > MOST_VIEWS:
        raise Failure(BAD_WORDS, f"{len(words.folders) - 1} files are given, and a catalogue has {MOST_VIEWS} views at most")
    for path in words.folders[1:]:
        if not path.is_file():
            raise Failure(BAD_WORDS, f"there is no file {path}")


def exports(paths: Iterable[Path]) -> list[Export]:
    """The files as tables, each with a name of its own."""
    found: dict[str, Export] = {}
    for path in paths:
        export = Export(path)
        if export.name in found:
            raise Failure(BAD_INPUT, f"{path} and {found[export.name].path} would both be the view {export.name}; rename one")
        found[export.name] = export
    return list(found.values())


def told(tables: Sequence[Export], views: Iterable[Proposed]) -> Iterator[str]:
    """What was made of what, a line each."""
    for table in tables:
        yield f"{table.name}: {len(table.columns)} columns, {table.rows} rows of {table.path}"
        yield from (f"    {column.note}" for column in table.columns if column.note)
    yield from unjoined(tables)
    for view in views:
        if isinstance(view, Joined):
            pairs = (f"{way.table.name}.{way.column.name} = {way.other.name}.{way.key.name}" for way in view.taken)
            yield f"{view.name}: {view.table.name} joined by {', '.join(pairs)}"
        else:
            yield f"{view.name}: {view.over} by {view.group}" + f", with the sums of {', '.join(view.sums)}" * bool(view.sums)
            yield from (f"    {name} is not added up: {why}" for name, why in view.left.items())


def told_kinds(tables: Sequence[Export]) -> Iterator[str]:
    """What was made of what, a line for each table, and one for each column that has a kind of its own."""
    for table in tables:
        key = key_of(table)
        yield f"{table.name}: {len(table.columns)} columns, {table.rows} rows of {table.path}" + (f", told by {key.name}" if key else "")
        yield from (f"    {column.name}: {kind_of(column)}" for column in table.columns)


def make(folder: Path, tables: Sequence[Export], name: str, text: str) -> None:
    """Makes the folder with its tables and this catalogue, whole or not at all."""
    part = folder.with_name(f".{folder.name}.part")
    remove(part)
    try:
        os.makedirs(part / "data")
        os.makedirs(part / "changes")
        texts = {f"data/{table.name}.csv": table.text for table in tables} | {name: text}
        for file, content in texts.items():
            with telling(folder / file):
                (part / file).write_bytes(content.encode())
        if name == TOML:
            warn(judged(Folder(part)).warnings)
        os.rename(part, folder)
    finally:
        remove(part)


def run(words: Words) -> Status:
    judge_words(words)
    tables = exports(words.folders[1:])
    folder = Path(os.path.abspath(words.folder))
    if words.is_sql:
        named_anew(tables)
        make(folder, tables, SQL, sql_text(tables))
        print("\n".join(told_kinds(tables)))
    else:
        views = proposed(tables)
        make(folder, tables, TOML, catalogue_text(tables, views))
        print("\n".join(told(tables, views)))
    then = f"`whview folder lint {words.folder}` looks at it, and `whview folder night {words.folder}` makes its views"
    print(f"{words.folder} is made; {then}")
    return DONE
