"""What each of a warehouse's doings does beside SELECTs that are kept in their midst: it ends before they do."""

import threading
from functools import partial
from unittest.mock import patch

from whview.cluster import generations, keeping, nights
from whview.cluster.carrying import Carrying
from whview.cluster.keeping import Sweep
from whview.cluster.reading import Session
from whview.cluster.servers import Told

from trials.cluster.held import beside
from trials.cluster.scenarios import SHARES
from trials.cluster.small_warehouse import AT_ONCE, J, Small

# So many reads of the newest version are made beside sweeps.
READS = 200


def selects(small):
    """A SELECT over each of the tables, and over each view of the newest version."""
    script = small.warehouse.plain
    tables = [small.warehouse.written(script.table(v, kind)) for v in range(5) for kind in ("", "~now")]
    return [f"SELECT count() FROM {table} WHERE {{held}}" for table in tables]


def committed(small):
    """A version more, which the one before is swept for."""
    versions = small.warehouse.versions
    newest = versions.newest()
    versions.commit(newest, None, newest.night + 1, newest.stage, "give-up")


def inserted(small):
    """Rows in a slot of an attempt of its own."""
    base = small.warehouse.versions.newest()
    Carrying(small.warehouse, base, nights.attempted(small.warehouse, base, "create")).filled(0, [((1, 5), 1)])


# What is done, by its name.
DOINGS = {
    "insert": inserted,
    "commit": committed,
    "fold": lambda small: keeping.fold(small.warehouse),
    "sweep": lambda small: Sweep(small.warehouse, AT_ONCE).run(),
    "SELECT": lambda small: Session(small.warehouse).read(J),
}


def tried(small, what):
    """What is wrong with a doing beside such SELECTs, and how long it took."""
    # Each time there is a version that a sweep takes away.
    committed(small)
    # A sweep waits by itself for those who read, which is not what is asked here.
    with patch.object(generations, "PATIENCE", 0):
        wrong, seconds, answers = beside(small.servers[0], selects(small), what, partial(DOINGS[what], small))
    return wrong + [f"a SELECT beside {what}: {told}" for told in answers if isinstance(told, Exception)], seconds


def kept_by_another_name(small):
    """What a version was, that was just taken away, is there still for those who found its name before."""
    seq = small.versions.newest().seq
    committed(small)
    meant = small.versions.row(seq)
    Sweep(small.warehouse, AT_ONCE).drop_versions()
    found = small.versions.row(seq, "x")
    return [] if found == meant else [f"of version {seq}, which was just taken away, {found} is left"]


def read_beside_sweeps(servers):
    """Whoever reads the newest version as each one is swept that was followed is given it, and no error."""
    small, read = Small(servers, SHARES), []
    wrong = kept_by_another_name(small)
    said = f"SELECT count() FROM {small.warehouse.written(small.warehouse.plain.table(J, '~now'))}"

    def reads():
        while len(read) < READS and not wrong:
            try:
                read.append(servers[0].asked(said))
            except Told as told:
                wrong.append(f"a SELECT over j~now beside a sweep: {told}")

    readers = [threading.Thread(target=reads) for _ in range(3)]
    for each in readers:
        each.start()
    while any(each.is_alive() for each in readers):
        committed(small)
        Sweep(small.warehouse, AT_ONCE).run()
    return wrong


def waited(servers):
    """What waited for a SELECT, and the times of each."""
    small = Small(servers, SHARES)
    found = {what: tried(small, what) for what in DOINGS}
    return [told for wrong, _ in found.values() for told in wrong], {what: seconds for what, (_, seconds) in found.items()}
