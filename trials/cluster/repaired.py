"""Servers that lost rows and are repaired: the newest version is whole again, or it is told what is lost and from where it can come. A
scenario is given servers as processes, and answers what came otherwise, in a list."""

from tempfile import TemporaryDirectory

from whview.cluster import checking
from whview.cluster.reading import Session
from whview.cluster.repairing import Repair

from trials.cluster.inputs import Folder, done, one_line
from trials.cluster.lost import from_before
from trials.cluster.scenarios import SHARES, Twice, ends, others
from trials.cluster.small_warehouse import Small


def with_nights(processes, shards):
    """A warehouse with rows on each server, and one night behind its opening."""
    small = Small(processes.servers(), shards)
    small.night({(number, 100 + number): 1 for number in range(1, 9)}, {(number, "yew"): 1 for number in range(1, 5)})
    return small


def emptied(small, server, *tables):
    """A server's tables lose all their rows that the newest version lists."""
    newest = small.versions.newest()
    for table in tables:
        for slot in newest.slots:
            server.carried(f'ALTER TABLE "{small.database}"."{table}~{newest.generation}" DROP PARTITION {slot}')


def repaired(small, named, client=None):
    """The newest version is whole after a repair, its contents are those of before, and nights go on."""
    Repair(client or small.client(), [str(server) for server in named]).run()
    wrong = small.differs(None, "behind a repair") + checking.faults(Session(small.client()))
    small.night({(2, 7): -1, (3, 33): 1}, {(3, "elm"): 2})
    return wrong + small.differs(None, "behind a repair and a night")


def copies(processes):
    """Copied tables that were emptied come from a server that has them, also where each statement is sent twice."""
    wrong = []
    for kind in (None, Twice):
        small = with_nights(processes, ["a:k"])
        emptied(small, small.servers[-1], "b")
        wrong += repaired(small, small.servers[-1:], others(small, kind) if kind else None)
    return wrong


def computed_parts(processes):
    """Parts of views that are shared out are computed from the bases, of a view over others too; on the first server as well."""
    wrong = []
    for at, tables in ((0, ["j", "s", "u"]), (-1, ["j"]), (-1, ["s"]), (0, ["u"])):
        small = with_nights(processes, SHARES)
        emptied(small, small.servers[at], *tables)
        wrong += [f"{tables} on {at}: {told}" for told in repaired(small, [small.servers[at]])]
    return wrong


def a_table_gone(processes):
    """Tables that were dropped, of a generation or what reads them, are made again."""
    small = with_nights(processes, ["a:k"])
    server = small.servers[-1]
    for table in ("b~0", "s~all", "s", "s~0", "~marks~0"):
        server.carried(f'DROP TABLE IF EXISTS "{small.database}"."{table}"')
    with TemporaryDirectory() as path:
        folder = Folder(path, processes.servers(), small.database)
        wrong = done(folder.told("repair", str(server)), "repair")
    return wrong + small.differs(None, "behind tables that are made again") + checking.faults(Session(small.client()))


def two_servers(processes):
    """Where two servers lost something, both have to be named."""
    small = with_nights(processes, ["a:k"])
    emptied(small, small.servers[0], "j")
    emptied(small, small.servers[-1], "b", "s")
    wrong = ends(lambda: Repair(small.client(), [str(small.servers[0])]).run(), "lost rows too", str(small.servers[-1]))
    return wrong + repaired(small, [small.servers[0], small.servers[-1]])


def a_base_part(processes):
    """A lost part of a base table is told, with the version since which it has been as it is; nothing is changed."""
    small = with_nights(processes, SHARES)
    small.night({}, {(5, "oak"): 1})
    newest = small.versions.newest().seq
    emptied(small, small.servers[-1], "a", "j")
    wrong = ends(lambda: Repair(small.client(), [str(small.servers[-1])]).run(), f"the part of a on {small.servers[-1]} is lost", f"version {newest - 1} or a later")
    wrong += [] if small.versions.newest().seq == newest else ["a repair that is refused made a version"]
    return wrong + ends(lambda: Session(small.client()).read(0), "is not whole")


def an_empty_server(processes):
    """A server that lost all its tables, of which it has copies alone, is made anew by the command."""
    small = with_nights(processes, [])
    server = small.servers[-1]
    with TemporaryDirectory() as path:
        folder = Folder(path, processes.servers(), small.database)
        wrong = one_line(folder.told("repair", str(server)), 1, "there is nothing to repair")
        wrong += one_line(folder.told("repair", "nowhere:1"), 2, "is none of the servers")
        server.carried(f'DROP DATABASE "{small.database}"')
        wrong += done(folder.told("repair", str(server)), "repair") + done(folder.told("check"), "check")
    small.night({(2, 7): -1, (3, 33): 1}, {(3, "elm"): 2})
    return wrong + small.differs(None, "behind a server that was made anew")


def a_disk_from_before(processes):
    """A server whose disk is from before a night gets what it has copies of; of what is shared out it is told what has to come."""
    wrong = []
    for shards in ([], SHARES):
        small = Small(processes.servers(), shards)
        with from_before(processes.all[-1]):
            small.night({(number, 100 + number): 1 for number in range(1, 9)}, {(number, "yew"): 1 for number in range(1, 9)})
        last = small.servers[-1:]
        wrong += ends(lambda small=small, last=last: Repair(small.client(), [*map(str, last)]).run(), "is lost") if shards else repaired(small, last)
    return wrong


def beside_a_night(processes):
    """A night that began before a repair cannot commit behind it, since it may have read what had lost rows; and a repair that a night
    overtakes is told so."""
    small = with_nights(processes, ["a:k"])
    changes = small.changes({(1, 6): 1, (2, 8): 1}, {(2, "elm"): 1})
    commit = small.begun(changes)
    emptied(small, small.servers[-1], "s")
    Repair(small.client(), [str(small.servers[-1])]).run()
    wrong = ends(commit, "another client was first") + small.differs(None, "a night behind a repair")
    emptied(small, small.servers[-1], "u")
    repair = Repair(small.client(), [str(small.servers[-1])])
    return wrong + repaired(small, small.servers[-1:]) + ends(repair.run, "another client was first")


REPAIRED = [copies, computed_parts, a_table_gone, two_servers, a_base_part, an_empty_server, a_disk_from_before, beside_a_night]
