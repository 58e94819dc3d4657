"""What takes no drawing: files of another user, files of two names, and next changes in the place of a stopped commit's."""

import os
import shutil
from pathlib import Path

from trials.folder.stopping import old_layout
from trials.folder.stopping.at_a_place import Room
from trials.folder.stopping.judge import contents, demand, judged, state, versions
from trials.folder.stopping.starts import COMMIT, Starts
from trials.folder.stopping.stopped_shop import after, base_tables, changes_in

NOBODY = 65534
STEPS = (1, 2, 3)


def another_user(tool, start, folder):
    """What does not hold of a night whose changes another user put in, or None. It takes root to try it."""
    return judged(f"changes of another user, {start.name}", folder, lambda: nobodys_night(Room(tool, start, folder)))[1]


def nobodys_night(room):
    """A night that is another user's than a file of its changes."""
    folder = room.folder
    for path in (folder, *folder.rglob("*")):
        os.chown(path, NOBODY, NOBODY, follow_symlinks=False)
    os.chown(folder / "changes/orders.csv", 0, 0)
    (folder / "changes").chmod(0o777)
    told = room.tool.run("night", folder, *room.start.options, user=NOBODY)
    room.judge.said(told, room.start.statuses)
    room.was_ended(told)
    room.recover()


def second_name(tool, start, folder):
    """What does not hold where a file of changes has a second name elsewhere, or None."""
    return judged(f"changes of two names, {start.name}", folder, lambda: written_by_its_other_name(Room(tool, start, folder)))[1]


def written_by_its_other_name(room):
    """A version stays as it is when a file that was put in by a link is written by its other name."""
    elsewhere = Path(f"{room.folder}.elsewhere")
    os.link(room.folder / "changes/orders.csv", elsewhere)
    room.judge.said(room.tool.run("night", room.folder, *COMMIT), (0,))
    was = {number: contents(path) for number, path in versions(room.folder).items()}
    elsewhere.chmod(0o644)
    with elsewhere.open("a") as file:
        file.write("1,999,Friday,west\n")
    demand(was == {number: contents(path) for number, path in versions(room.folder).items()}, "a version was written into")
    room.recover()


def replaced(tool, steps, folder):
    """What does not hold where the next changes took the place of those that a stopped commit had carried out, or None."""
    return judged(f"changes replaced, commit stopped after {steps}", folder, lambda: next_changes(tool, steps, folder))[1]


def next_changes(tool, steps, folder):
    """Such a folder is refused, nothing of it is touched, and what is said to do helps."""
    hand = Starts(tool, folder.parent).bare(folder.name)
    old_layout.committed(hand)
    old_layout.stopped_commit(hand, steps)
    (folder / "changes/orders.csv").unlink()
    hand.put("orders")
    carried_out = base_tables(newest(folder))
    was = contents(folder)
    told = tool.run("night", folder, *COMMIT)
    demand(told.status == 3 and len(told.told.splitlines()) == 1, f"status {told.status}: {told.told}")
    there = {name: text for name, text in contents(folder).items() if name != ".lock"}
    demand(there == was, f"a refused folder is touched: {[name for name in was if there.get(name) != was[name]]}")
    follow_advice(tool, folder)
    tables = base_tables(state(folder))
    coming = changes_in(versions(folder)[max(versions(folder))] / "changes")
    demand(sum(coming.values()) == 2, "the next changes are not those of the last version")
    demand(tables == after(carried_out, coming), "the tables are not those of the commit with the next changes")


def newest(folder):
    """Where the tables of a stopped commit are."""
    return folder / "commit" if (folder / "commit/data").is_dir() else folder


def follow_advice(tool, folder):
    """The next changes go out, a night, the next changes come back, a night."""
    aside = Path(f"{folder}.aside")
    aside.mkdir()
    shutil.move(folder / "changes/orders.csv", aside)
    for again in (False, True):
        if again:
            shutil.move(aside / "orders.csv", folder / "changes/orders.csv")
        told = tool.run("night", folder, *COMMIT)
        demand(told.status == 0, f"what was said to do does not help: {told.status}, {told.told}")
