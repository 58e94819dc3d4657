"""What folds and sweeps leave: no empty parts, no tables of before, and nobody who waits. A scenario answers what came otherwise, in a list."""

from unittest.mock import patch

from whview.cluster import keeping, nights
from whview.cluster.generations import generations_of
from whview.cluster.keeping import Sweep

from trials.cluster.held import beside
from trials.cluster.scenarios import SHARES
from trials.cluster.small_warehouse import A, AT_ONCE, Small

NIGHTS, BETWEEN_FOLDS = 12, 4


def swept(small, times=2):
    """The first sweep puts tables aside, and the next one drops them."""
    for _ in range(times):
        Sweep(small.warehouse, AT_ONCE).run()


def generations(small):
    """The generations whose tables are there, also of those that were put aside, in rising order."""
    names = [name for server in small.servers for name, in server.asked(f"SELECT name FROM system.tables WHERE database = '{small.database}'")]
    return sorted(generations_of(name.removeprefix("~d~") for name in names))


def left(small):
    """What is left behind a fold and two sweeps beside what the newest version lists."""
    newest = small.versions.newest()
    wrong = [] if generations(small) == [newest.generation] else [f"tables of {generations(small)} are there, and {newest.generation} is the newest"]
    for server in small.servers:
        asked = f"SELECT sum(rows = 0), count() FROM system.parts WHERE active AND database = '{small.database}'"
        (empty, parts), = server.asked(asked)
        wrong += [f"{empty} of {parts} parts are empty"] if empty != "0" else []
        wrong += [f"there are {parts} parts, and {len(small.catalogue.views)} views"] if int(parts) > len(small.catalogue.views) + 1 else []
    return wrong


def nothing_empty(servers):
    """Nights with folds, sweeps and nights that are given up leave no empty part, and no part of before."""
    small = Small(servers, SHARES)
    for number in range(NIGHTS):
        small.night({(1 + number % 4, 100 + number): 1, (2, 7): -1 if number == 3 else 0}, {(number, "oak"): 1})
        if number == NIGHTS // 2:
            small.night({(99, 99): -1})
        if number % BETWEEN_FOLDS == BETWEEN_FOLDS - 1:
            keeping.fold(small.warehouse)
            Sweep(small.warehouse, AT_ONCE).run()
    swept(small)
    return small.differs() + left(small)


def a_late_night(servers):
    """What a night put into tables of before, which commits behind a fold, stays until it is folded too."""
    small = Small(servers, SHARES)
    changes = small.changes({(1, 6): 1, (2, 8): 1}, {(2, "elm"): 1})
    commit = small.begun(changes)
    keeping.fold(small.warehouse)
    commit()
    small.changed(changes)
    swept(small, 3)
    wrong = small.differs(None, "behind sweeps of a late night")
    small.night({(3, 10): 1})
    keeping.fold(small.warehouse)
    swept(small)
    return wrong + small.differs(None, "behind a fold of a late night") + left(small)


def swept_before_the_commit(servers):
    """What a night has put in stays also where all that it began with is swept between its last look and its commit."""
    small = Small(servers, SHARES)
    changes = small.changes({(1, 6): 1, (2, 8): 1}, {(2, "elm"): 1})
    commit = small.begun(changes)
    keeping.fold(small.warehouse)
    swept(small, 3)
    with patch.object(nights, "judge_base", lambda *_: None):
        commit()
    small.changed(changes)
    wrong = small.differs(None, "a night that was swept before its commit")
    keeping.fold(small.warehouse)
    swept(small)
    return wrong + small.differs(None, "behind its fold") + left(small)


def tables_that_are_read(servers):
    """Tables that somebody still reads stay, no statement waits for that, and a later sweep takes them."""
    small = Small(servers[:1])
    small.night({(1, 6): 1})
    slots, rows, there = ", ".join(map(str, small.versions.newest().slots)), sum(small.tables[A].values()), []
    reads = f'SELECT sum("#") FROM "{small.database}"."a" WHERE "~s" IN ({slots}) AND {{held}}'

    def sweeps():
        keeping.fold(small.warehouse)
        Sweep(small.warehouse, AT_ONCE).run()
        servers[0].asked(f'SELECT count() FROM "{small.database}"."a~now"')
        there.extend(generations(small))

    wrong, _, answers = beside(servers[0], [reads], "a sweep", sweeps)
    wrong += [] if answers == [[[str(rows)]]] else [f"a SELECT of {rows} rows was given {answers}"]
    wrong += [] if len(there) == 2 else [f"beside a SELECT there are tables of {there} alone"]
    swept(small)
    return wrong + small.differs() + left(small)


PUT_ASIDE = [nothing_empty, a_late_night, swept_before_the_commit, tables_that_are_read]
