"""Folders as a commit left them before there were versions, and commits of that time that were stopped after any of their steps."""

import os
import shutil

from trials.folder.stopping.stopped_shop import BASES, after, base_tables, changes_in, views_of, write

COLUMNS = BASES | {
    "sales": ["day", "region", "product", "pieces", "cost"], "daily_by_product": ["day", "product", "lines", "pieces", "cost"],
    "daily_by_region": ["day", "region", "lines", "cost"],
}
STEPS, OLD_CHANGES_ARE_AWAY = 10, 4


def write_tables(folder, tables):
    """Writes tables with their counts, sorted."""
    folder.mkdir(parents=True, exist_ok=True)
    for name, rows in tables.items():
        write(folder / f"{name}.csv", COLUMNS[name], sorted((count, row) for row, count in rows.items()))


def night_is_made(hand):
    """Gives the changes of a night, and writes new/, report.txt and commit.part/ of it."""
    folder, part = hand.folder, hand.folder / "commit.part"
    hand.put("orders")
    hand.put("lines")
    tables = after(base_tables(folder), changes_in(folder / "changes"))
    write_tables(part / "data", tables)
    write_tables(part / "views", views_of(tables))
    write_tables(folder / "new", tables | views_of(tables))
    for place in (folder, part / "views"):
        (place / "report.txt").write_text("strategy from strategy.txt\nwork 1\n")
    for name in ("changes", "old"):
        (part / name).mkdir()


def moved(folder, name):
    """The two renames by which one part is put in its place."""
    there, coming, going = folder / name, folder / "commit" / name, folder / "commit/old" / name
    return [lambda: there.exists() and os.rename(there, going), lambda: os.rename(coming, there)]


def steps_of(folder):
    """The steps of a commit, before each of which it may have been stopped."""
    steps = [lambda: os.rename(folder / "commit.part", folder / "commit")]
    for name in ("data", "changes", "views"):
        steps += moved(folder, name)
    removed = [lambda: shutil.rmtree(folder / "new"), lambda: shutil.rmtree(folder / "before", ignore_errors=True)]
    return [*steps, *removed, lambda: os.rename(folder / "commit", folder / "before")]


def stopped_commit(hand, count):
    """A commit that was stopped after so many of its steps."""
    night_is_made(hand)
    for step in steps_of(hand.folder)[:count]:
        step()


def committed(hand):
    """A night that was committed. Answers the tables before it, and the changes that it carried out."""
    first, given = base_tables(hand.folder), hand.given.copy()
    stopped_commit(hand, STEPS)
    return first, hand.given - given
