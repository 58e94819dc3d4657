"""What tools/bench measures of a cluster comes to its end, on facts that the servers make themselves."""

from pathlib import Path
from tempfile import TemporaryDirectory

from upkeep.bench.clickhouse import SALES, Star, client, loaded, sales_in
from whview.cluster import checking, keeping
from whview.cluster.reading import Session

FACTS, CHANGED = 2000, 100


def measured(processes):
    """What is wrong with a star of few facts behind a night, views from scratch beside it, a fold and a read."""
    with TemporaryDirectory() as folder:
        if client():
            loaded(processes.all[0], Path(folder), sales_in(Path(folder) / "sales.csv", FACTS), FACTS, 0)
        return of_star(Star(processes, FACTS, folder))


def of_star(stars):
    had = stars.warehouse.versions.newest().totals[SALES]
    stars.night(CHANGED)
    stars.scratch()
    keeping.fold(stars.warehouse)
    stars.night(CHANGED, True)
    stars.read()
    has = stars.warehouse.versions.newest().totals[SALES]
    wrong = [] if (had, has) == (FACTS, FACTS) else [f"the star has {had} facts, and {has} behind nights, and not {FACTS}"]
    return wrong + checking.faults(Session(stars.warehouse))
