"""A folder on a disk that is full after a few more files."""

import os
import subprocess

from trials.folder.stopping.at_a_place import Room
from trials.folder.stopping.judge import demand, judged

SIZE = "size=2m,nr_inodes=400"
PAGE = 4096
KINDS, FILLS = ("first night", "later night"), ("fill_bytes", "fill_names")


class SmallDisk:
    """A file system in memory of two megabytes and 400 files, which only root can mount."""

    def __init__(self, place):
        self.place = place

    def __enter__(self):
        self.place.mkdir()
        mounted = ["mount", "-t", "tmpfs", "-o", SIZE, "none", self.place]
        self.there = os.geteuid() == 0 and subprocess.run(mounted, capture_output=True, check=False).returncode == 0
        return self

    def __exit__(self, *_):
        if self.there:
            subprocess.run(["umount", self.place], check=True)

    def fill_bytes(self, pages):
        """Leaves room for so many pages."""
        with (self.place / "filling").open("wb", buffering=0) as file:
            while self.free().f_bavail > pages:
                file.write(bytes(PAGE * min(self.free().f_bavail - pages, 64)))

    def fill_names(self, files):
        """Leaves room for so many files."""
        (self.place / "fillings").mkdir()
        number = 0
        while self.free().f_ffree > files:
            (self.place / f"fillings/{number}").touch()
            number += 1

    def free(self):
        return os.statvfs(self.place)

    def make_room(self):
        (self.place / "filling").unlink(missing_ok=True)
        subprocess.run(["rm", "-rf", self.place / "fillings"], check=True)


def tried(tool, item, folder):
    """Whether there was room enough for a night, None where no disk can be mounted, and what does not hold of it."""
    start, fill, left = item
    with SmallDisk(folder) as disk:
        if not disk.there:
            return None, None
        name, place = f"a full disk ({fill} to {left}), {start.name}", disk.place / "folder"
        return judged(name, place, lambda: filled_up(Room(tool, start, place), disk, fill, left))


def filled_up(room, disk, fill, left):
    """A night on a disk with so much room left: it says why it ends and nothing is changed, and with room made it goes through."""
    getattr(disk, fill)(left)
    told = room.tool.run("night", room.folder, *room.start.options)
    room.was_ended(told)
    if told.status:
        demand(len(told.told.splitlines()) == 1, f"not one line: {told.told}")
        room.judge.undone(room.hand.given)
    disk.make_room()
    room.recover()
    return told.status == 0
