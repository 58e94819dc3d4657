"""Checkouts of the repository, of which the state of before is measured beside what it is now, in one run and on one server."""

import subprocess
import sys
from pathlib import Path

from upkeep.words import ROOT
from trials.servers.postgresql import Server

NOW, BESIDE = "now", "beside"


class Waiting(Server):
    """A server that waits for the disk, as one does that is in use, and has the buffers that PostgreSQL has by itself."""

    settings = Server.settings.replace("fsync=off", "fsync=on").replace("shared_buffers=32MB", "shared_buffers=128MB")


class Checkout:
    """A checkout, whose whview sql writes scripts for a database."""

    def __init__(self, root):
        self.root = Path(root)

    def sql(self, database, *words):
        """What its whview sql writes."""
        command = [sys.executable, self.root / "tools/sql", "--database", database.name, *words]
        return subprocess.run(list(map(str, command)), check=True, stdout=subprocess.PIPE, stderr=subprocess.DEVNULL, text=True).stdout

    def carried_out(self, database, *words):
        if told := database.run(self.sql(database, *words)):
            sys.exit(f"tools/bench: {told}")


def checkouts(asked):
    """This one, and another one if it is named."""
    return {NOW: Checkout(ROOT)} | ({BESIDE: Checkout(asked.beside)} if asked.beside else {})
