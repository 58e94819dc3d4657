"""What is put beside the versions of a folder with a history, and what is done to their files."""

import os
import re
import shutil

from trials.folder.stopping.history import History
from trials.folder.stopping.judge import contents, demand
from trials.folder.stopping.stopped_shop import base_tables
from trials.folder.stopping.starts import COMMIT

LETTER = re.compile(rb"(?<=\n)[^\n]*?([a-z])")
STRAYS = 3


class Damages(History):
    """Strays, and files that are not as they were made. `self.source` draws, `self.put` brings changes in, `self.older` is a rollback."""

    def stray(self):
        """Something in versions/ that is none of the folder's versions."""
        name = str(max(self.known) + self.source.randint(1, 4))
        path = self.folder / "versions" / name
        if len(self.strays) >= STRAYS or os.path.lexists(path):
            return
        kind = self.source.choice(["copy", "empty", "file"])
        if kind == "copy":
            shutil.copytree(self.folder / "versions" / str(self.source.choice(sorted(self.there))), path)
        elif kind == "empty":
            path.mkdir()
        else:
            path.write_text("notes\n")
        self.strays[name] = self.looks(name)
        was = self.current
        self.went(0, "night")
        demand(self.current == was, "a preview turned")

    def damage(self):
        """A file of the current version of which a letter is another one, with its time put back."""
        number = self.current
        version = self.folder / "versions" / str(number)
        files = [file for kind in ("data", "views") for file in sorted((version / kind).glob("*.csv"))]
        name = str(self.source.choice(files).relative_to(version))
        was = (version / name).read_bytes()
        found = LETTER.search(was)
        if not found:
            return
        spoilt = was[: found.start(1)] + (b"b" if found[1] == b"a" else b"a") + was[found.end(1) :]
        self.write(version / name, spoilt)
        self.notice(number)
        for words, status in ((("lint",), 3 if name.startswith("data") else 0), (("verify", str(number)), 1)):
            told = self.went(status, *words)
            demand(f"versions/{number}/{name}" in told.told + told.printed, f"{words} does not tell of {name}: {told.told}")
        self.mend(number, name, was)

    def write(self, file, content):
        """Writes a file of a version, and puts its time back."""
        look = file.stat()
        # Another version may have the same file, and is not to be damaged.
        file.unlink()
        file.write_bytes(content)
        os.utime(file, ns=(look.st_atime_ns, look.st_mtime_ns))
        file.chmod(0o444)

    def notice(self, number):
        """Knows the bytes of a version as they are now."""
        version = self.folder / f"versions/{number}"
        self.known[number] = self.known[number]._replace(bytes=contents(version))

    def mend(self, number, name, was):
        """A view is made anew; a base table stops the night, and is put back, left by a rollback, or taken as it is by a word."""
        version, is_base = self.folder / f"versions/{number}", name.startswith("data")
        self.put()
        if is_base:
            self.went(3, "night", *COMMIT)
        if is_base and self.source.random() < 1 / 3:
            self.write(version / name, was)
            self.notice(number)
            return self.went(0, "night", *COMMIT)
        self.damaged.add(number)
        back = self.older()
        if is_base and back[0] == "rollback" and self.source.random() < 1 / 2:
            return self.went(0, *back)
        self.known[number] = self.known[number]._replace(tables=base_tables(version))
        return self.went(0, "night", *COMMIT, *["--accept", name] * is_base)
