"""Times nights of views that `whview sql take` took, beside REFRESH of a materialized view for each, on a PostgreSQL server of its own.

The views are those of `trials/run views --parts public`: ten of each of four public applications. One in a hundred rows changes (`taken_rows.py`). Printed are processor
seconds of the server for the night, medians of the rounds, over those of REFRESH of all ten, and what each part of the night takes by its own clock; and the same for
each view by itself, where `--facts` says how many rows the largest table has. After each night each view has to be what it says.
"""

import os
import statistics
import sys
import tempfile
import time
from pathlib import Path

from trials.servers.postgresql import postgresql, without_psql
from trials.views.kept import Kept
from trials.views.public import APPLICATIONS, schema
from upkeep.bench.hand import MEMORY, OfItsOwn
from upkeep.bench.taken_rows import ROWS

ROUNDS = 3
# So many rows at most has the largest table.
MOST = 200_000
STEPS = 'SELECT s.told, s.seconds FROM wh."~steps" AS s WHERE s.night = (SELECT max(night) FROM wh."~steps") AND s.seconds IS NOT NULL ORDER BY s.seconds DESC LIMIT 8'


class Taken:
    """An application whose views are taken, and are materialized beside that."""

    def __init__(self, server, folder, application, many):
        self.application, self.many = application, many
        self.kept = Kept(server, "taken", folder)
        said = self.kept.said
        said(schema(application))
        self.process = self.kept.session.rows("SELECT pg_backend_pid()")[0][0]
        said(MEMORY + ROWS[application.package][0].format(many=many) + "ANALYZE;")
        for name, query in application.views.items():
            said(f"CREATE VIEW {name} AS {query};")
        if refused := self.kept.refused(list(application.views)):
            sys.exit(f"tools/bench: {refused}")
        for name in application.views:
            said(f'CREATE MATERIALIZED VIEW "m_{name}" AS SELECT * FROM {name};')
        said("ANALYZE;")

    def timed(self, text):
        """The seconds of a processor that statements take in the session."""
        spent = Path(f"/proc/{self.process}/schedstat")
        before = int(spent.read_text().split()[0])
        self.kept.said(without_psql(text))
        return (int(spent.read_text().split()[0]) - before) / 1e9

    def round(self, night):
        """The seconds of a night, and of REFRESH of each view."""
        self.kept.said(ROWS[self.application.package][1].format(many=self.many, night=night))
        began = time.process_time()
        script = "\n".join(self.kept.script(night=True))
        written, seconds = time.process_time() - began, self.timed(script)
        refreshed = {name: self.timed(f'REFRESH MATERIALIZED VIEW "m_{name}";') for name in self.application.views}
        if wrong := self.kept.differences():
            sys.exit(f"tools/bench: {wrong[:3]}")
        return written, seconds, refreshed

    def read(self):
        """The seconds of reading each view as it is kept, and as it is written."""
        return {name: [self.timed(f"SELECT count(*) FROM (SELECT * FROM {where}.{name} OFFSET 0) AS q;") for where in ("wh", "public")] for name in self.application.views}


def told(taken, rounds):
    """Measures the nights of an application."""
    found = [taken.round(night) for night in range(1, rounds + 1)]
    night, written = (statistics.median(each[at] for each in found) for at in (1, 0))
    refreshed = {name: statistics.median(each[2][name] for each in found) for name in taken.application.views}
    total = sum(refreshed.values())
    print(f"taken: {taken.application.package}: night {night:.3f} s, REFRESH {total:.3f} s: {night / total:.2f}; the script is written in {written:.2f} s", flush=True)
    print("taken:   REFRESH: " + ", ".join(f"{name} {seconds:.3f}" for name, seconds in sorted(refreshed.items(), key=lambda each: -each[1])), flush=True)
    print("taken:   night: " + ", ".join(f"{step} {seconds:.3f}" for step, seconds in taken.kept.session.rows(STEPS)), flush=True)
    print("taken:   read: " + ", ".join(f"{name} {kept:.3f} of {own:.3f}" for name, (kept, own) in taken.read().items()), flush=True)


def measure(asked):
    many = min(asked.facts, MOST)
    with OfItsOwn(postgresql()) as server:
        os.environ.update(PGHOST=str(server.folder), PGUSER="postgres")
        for application in APPLICATIONS:
            with tempfile.TemporaryDirectory() as folder:
                taken = Taken(server, folder, application, many)
                told(taken, asked.rounds)
                taken.kept.close()
