"""What pgbench's own transactions are slowed down by: by captures from the log, by triggers, and by none, beside each other in rounds."""

import re
import subprocess
from pathlib import Path
from statistics import median
from typing import NamedTuple

from trials.capture.places import LivePostgreSQL
from trials.tables.given_nights import lay, written

ROUNDS, SECONDS, CLIENTS = 8, 2, 4
VIEWS = (
    "CREATE VIEW by_branch AS SELECT bid, count(*) AS accounts, sum(abalance) AS balance FROM pgbench_accounts WHERE bid IS NOT NULL AND abalance IS NOT NULL GROUP BY bid;"
    " CREATE VIEW by_teller AS SELECT tid, count(*) AS changes, sum(delta) AS delta FROM pgbench_history WHERE tid IS NOT NULL AND delta IS NOT NULL GROUP BY tid;"
    " CREATE VIEW branches AS SELECT bid, bbalance FROM pgbench_branches; CREATE VIEW tellers AS SELECT tid, bid, tbalance FROM pgbench_tellers;"
)
WAYS = {"none": None, "log": ["--from-log"], "triggers": []}


def pgbench(server, name, *words):
    return subprocess.run(server.client("pgbench", "-n", "-U", "postgres", *words, name), capture_output=True, text=True, check=True, cwd=server.folder).stdout


def made(server, path, way):
    """A database of pgbench's, captured this way."""
    name = f"bench_{way}"
    database = LivePostgreSQL(server, name)
    pgbench(server, name, "-i", "-q", "-s", "2")
    database.asked(VIEWS)
    folder = lay(Path(path) / name, written("--catalogue", "--database", name).text)
    told = None
    if WAYS[way] is not None:
        told = database.run(written("--capture", *WAYS[way], "--database", name, folder).text) or database.run(written("--live", "--open", folder).text)
    if told:
        raise ValueError(told)
    return database


class Rate(NamedTuple):
    """Transactions a second, and the seconds of the server's processor that each took."""

    tps: float
    seconds: float


def rate(server, name):
    before = server.seconds()
    said = pgbench(server, name, "-c", CLIENTS, "-j", "2", "-T", SECONDS)
    (many,), (tps,) = (re.findall(pattern, said) for pattern in (r"actually processed: (\d+)", r"tps = ([\d.]+)"))
    return Rate(float(tps), (server.seconds() - before) / int(many))


def writers_told(server, path):
    """The medians of the rounds as parts of what was carried out without a capture, by the clock and by the processor's time."""
    databases = {way: made(server, path, way) for way in WAYS}
    rounds = [{way: rate(server, database.name) for way, database in databases.items()} for _ in range(ROUNDS)]
    shares = {way: [median(each[way].tps / each["none"].tps for each in rounds), median(each["none"].seconds / each[way].seconds for each in rounds)] for way in WAYS}
    for database in databases.values():
        database.session.close()
    (log, log_by_time), (triggers, triggers_by_time) = shares["log"], shares["triggers"]
    return (
        f"pgbench carried out {log:.2f} of its transactions from the log and {triggers:.2f} by triggers, by the processor's time {log_by_time:.2f} and"
        f" {triggers_by_time:.2f} (medians of {ROUNDS} rounds)"
    )
