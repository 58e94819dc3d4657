"""That a night has everything written to the disk before that counts, as its calls tell: what is left of it when the power goes."""

import os
import re
from pathlib import Path

from trials.folder.stopping.at_a_place import Room
from trials.folder.stopping.judge import demand, judged
from trials.folder.stopping.traced import OPENS, WRITES, places

HANDLE, NAME = re.compile(r"^\w+\(\d+<([^>]*)>"), re.compile(r'"([^"]*)"')
DECIDES, TURNS = re.compile(r"^/versions(/\d+)?$"), "/current"


class Disk:
    """Which files and folders have something that is not yet on the disk."""

    def __init__(self):
        self.waiting, self.claimed = set(), set()

    def called(self, place):
        call, text = place.call, place.text.partition(" = ")[0]
        handle, names = HANDLE.match(text), NAME.findall(text)
        if call in ("fsync", "fdatasync"):
            self.waiting.discard(handle[1])
        elif call in ("write", "sendfile", "copy_file_range", "pwrite64", "ftruncate", "fchmod"):
            self.waiting.add(handle[1])
        elif call in OPENS and any(way in text for way in WRITES):
            self.waiting.update((names[0], os.path.dirname(names[0])))
        elif call == "mkdir":
            self.waiting.update((names[0], os.path.dirname(names[0])))
        elif call in ("rename", "link"):
            self.moved(*names)
        elif call in ("symlink", "unlink", "rmdir"):
            self.waiting.discard(names[-1])
            self.waiting.add(os.path.dirname(names[-1]))

    def moved(self, one, other):
        """A file or a folder comes to stand under another name, with what there is in it; what an operator wrote may wait as well."""
        demand(not (one in self.waiting and other in self.claimed), f"{one} waits to be written as it takes the place of {other}")
        self.waiting.update(map(os.path.dirname, (one, other)))
        below = {path for path in self.waiting if f"{path}/".startswith(f"{one}/")}
        self.waiting.update(other + path.removeprefix(one) for path in below)
        if one.startswith("/changes/"):
            self.waiting.add(other)
            self.claimed.add(other)

    def demand_written(self, folder, when):
        """Nothing below a folder waits."""
        waiting = sorted(path for path in self.waiting if f"{path}/".startswith(f"{folder}/") and not path.endswith("/.lock"))
        demand(not waiting, f"{waiting[:3]} waits to be written {when}")


def follow(found):
    """Goes through the calls of a committing night."""
    disk, decided = Disk(), False
    for place in found:
        names = NAME.findall(place.text)
        if place.call == "rename" and DECIDES.match(names[1]):
            disk.demand_written(names[0], "as the night is decided")
            decided = True
        elif place.call == "rename" and names[1] == TURNS:
            demand(decided, "current is turned before the night is decided")
            demand("/versions" not in disk.waiting, "the decision waits to be written as current is turned")
        disk.called(place)
    demand(decided, "no rename decides the night")
    demand("" not in disk.waiting, "the folder waits to be written at the end of its night")


def in_order(tool, start, folder):
    """What does not hold of the order in which a night is written, or None."""

    def work():
        follow(places(tool, Room(tool, start, folder).folder, start.words, Path(f"{folder}.trace"))[0])

    return judged(f"written through, {start.name}", folder, work)[1]
