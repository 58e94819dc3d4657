"""Tables that are larger than what the command may hold of them: how much memory it takes to load one and to read it."""

import itertools
import subprocess
import sys
from tempfile import TemporaryDirectory

from trials.cluster.inputs import Folder
from upkeep.words import ROOT

# A table of so many rows, of which the command may hold a part alone: so many bytes at most.
ROWS, MOST = 500_000, 100 << 20
NUMBERS = itertools.count()


# The command, as somebody types it.
COMMAND = [ROOT / "whview", "cluster"]
# Starts what it is told and tells at its end how many KB that took. Where a trial started it, the trial's own memory would be counted.
MEASURED = """import os, sys
child = os.spawnv(os.P_NOWAIT, sys.argv[2], sys.argv[2:])
_, status, usage = os.wait4(child, 0)
open(sys.argv[1], "w").write(str(usage.ru_maxrss))
sys.exit(os.waitstatus_to_exitcode(status))"""


def taken(folder, *command):
    """The status of a command as a process of its own, what it prints, and the most memory that it took."""
    words = [sys.executable, "-S", "-c", MEASURED, folder.path / "most", *COMMAND, *map(str, folder.words(*command))]
    ran = subprocess.run(words, stdout=subprocess.PIPE, stderr=subprocess.STDOUT, text=True)
    return ran.returncode, ran.stdout, int((folder.path / "most").read_text()) * 1024


def in_little_memory(servers):
    """A large table is loaded and read in little memory, and comes out as it went in."""
    with TemporaryDirectory() as path:
        folder = Folder(path, servers, f"large{next(NUMBERS)}")
        rows = sorted((key % 1000, key * 7919 % ROWS) for key in range(ROWS))
        folder.write("data/a.csv", "k,x\n" + "".join(f"{k},{x}\n" for k, x in reversed(rows)))
        folder.write("data/b.csv", "k,t\n1,oak\n")
        wrong = []
        for command in (["create", "--shard", "a:k"], ["load"], ["read", "a"]):
            status, said, most = taken(folder, *command)
            wrong += [f"{command[0]}: status {status}, {said[-300:]}"] if status else []
            wrong += [f"{command[0]} took {most >> 20} MB"] if most > MOST else []
        meant = "#,k,x\n" + "".join(f"1,{k},{x}\n" for k, x in rows)
        return wrong + ([] if said == meant else [f"the table comes out as {said[:200]!r}.., and not {meant[:200]!r}.."])
