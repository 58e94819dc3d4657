"""What readers by SQL are given of shards of two servers each: `V~now` and `~versions` on every server, also while servers are down and when they come
back. A scenario is given four servers as processes, and answers what came otherwise, in a list."""

from tempfile import TemporaryDirectory

from whview.cluster import many
from whview.cluster.agreed import row_name
from whview.cluster.servers import Key, Lost, Server, Told
from whview.sql.tokens import sql

from trials.cluster.inputs import Folder, done, one_line
from trials.cluster.lost import with_readers
from trials.cluster.recasts import OTHER
from trials.cluster.replicated import Many, until
from trials.cluster.small_warehouse import J
from trials.servers.clickhouse import COPIES

# The view of which each group is there once, without a count of its own.
SUMMARY = "s"
# Who reads: by a profile that leaves out servers which do not answer, by one that may only read, and by one of both kinds.
WHO = ("default", "reader", "hasty_reader")


def given(process, small, user="default"):
    """What a server gives a user of the newest version of each view, which it may refuse to give, in words."""
    server, found = Server(process.address, Key(user, "")), []
    for view in small.catalogue.views:
        columns = ", ".join(f'"{column}"' for column, _ in view.columns) + ("" if view.name == SUMMARY else ', "#"')
        try:
            rows = server.asked(f'SELECT {columns} FROM "{small.database}"."{view.name}~now"')
            found.append(sorted([*map(str, row)] for row in rows))
        except (Told, Lost) as told:
            found.append(str(told))
    return found


def meant(small):
    """What each view holds by its definition."""
    found = []
    for v, view in enumerate(small.catalogue.views):
        rows = small.contents()[v].items()
        found.append(sorted([*map(str, row)] + ([] if view.name == SUMMARY else [str(count)]) for row, count in rows))
    return found


def right(tried, processes, what, users=WHO[-1:]):
    """That each of these servers gives everybody the newest version whole."""
    return [
        f"{what}: {view.name}~now of {each.address} for {user}: {had}, and meant are {has}"
        for each in processes for user in users
        for view, had, has in zip(tried.small.catalogue.views, given(each, tried.small, user), meant(tried.small)) if had != has
    ]


def right_or_refused(tried, processes, what, users=WHO[-1:]):
    """That each of these servers gives everybody the newest version whole, or an error."""
    return [told for told in right(tried, processes, what, users) if ", and meant are" in told and "(code " not in told and "no whole answer" not in told]


def by_every_server(processes):
    """Every server gives the newest version; while one of each shard is down, the others do; one that comes back raises until a command has been
    there."""
    with_readers(processes)
    tried = Many(processes)
    wrong = right(tried, processes.all, "behind an opening", WHO)
    newest, said = [[str(tried.replicas().chosen().versions.newest().seq)]], f'SELECT max(seq) FROM "{tried.small.database}"."~versions"'
    wrong += [f"{each.address} lists for {user}: {rows}" for each in processes.all for user in WHO
              if (rows := Server(each.address, Key(user, "")).asked(said)) != newest]
    tried.night(tried.small.changes({(1, 6): 1, (2, 8): 1}, {(2, "elm"): 1}))
    wrong += right(tried, processes.all, "behind a night")
    gone, left = tried.of_shard(0), tried.of_shard(1)
    for each in gone:
        each.kill()
    wrong += right(tried, left, "while one of each shard is down")
    tried.night(tried.small.changes({(3, 8): 2}, {(1, "yew"): 1}))
    wrong += right(tried, left, "behind a night while one of each shard is down")
    processes.restart()
    wrong += right_or_refused(tried, processes.all, "by those that just came back")
    return wrong + tried.faults("when all are back") + until(lambda: right(tried, processes.all, "when all are back"))


def a_shard_gone(processes):
    """Where a shard is gone every reader is told so, also by a profile that leaves out servers which do not answer."""
    with_readers(processes)
    tried, wrong = Many(processes), []
    for each in processes.all[COPIES:]:
        each.kill()
    for user in WHO:
        found = right(tried, processes.all[:COPIES], "without a shard", (user,))
        wrong += right_or_refused(tried, processes.all[:COPIES], "without a shard", (user,))
        wrong += [] if len(found) == COPIES * len(tried.small.catalogue.views) else [f"{user} is given all of some view where a shard is gone"]
    processes.restart()
    return wrong


def listed(processes):
    """`~versions` has what was committed on each server, and not what a client was about to commit. Where a server has several rows for the newest
    number, or none, it raises until a command has been there."""
    with_readers(processes)
    tried = Many(processes)
    commit = tried.small.begun(tried.small.changes({(1, 6): 1}), tried.replicas().chosen())
    other = tried.replicas().chosen().versions
    seq, wrong = other.newest().seq, []
    said = f'SELECT max(seq), count() FROM "{tried.small.database}"."~versions"'
    coming = other.newest()._replace(seq=seq + 1, lineage=("0" * 16,))
    made = sql("CREATE VIEW {row} AS {said}", row=other.dialect.table(row_name(coming)), said=coming.literals())
    Server(processes.all[0].address).carried(other.written(made))
    wrong += [f"{each.address} lists {rows}" for each in processes.all if (rows := Server(each.address).asked(said)) != [[str(seq), str(seq + 1)]]]
    wrong += right(tried, processes.all, "while a version is about to be made")
    commit()
    tried.small.changed(tried.small.changes({(1, 6): 1}))
    wrong += [f"{each.address} lists {rows}" for each in processes.all if (rows := Server(each.address).asked(said)) != [[str(seq + 1), str(seq + 2)]]]
    wrong += right(tried, processes.all, "behind it")
    # One who was killed when another one was first has left a row, and a server has lost one.
    late = other.dialect.table(row_name(other.newest()))
    Server(processes.all[0].address).carried(other.written(made).replace(str(coming.lineage[0]), "f" * 16))
    Server(processes.all[1].address).carried(other.written(sql("DROP TABLE {late}", late=late)))
    wrong += [f"{each.address} gives what it cannot know" for each in processes.all[:COPIES] if not right(tried, [each], "with another row")]
    return wrong + tried.differs("with another row") + right(tried, processes.all, "behind a command")


def by_the_command(processes):
    """Who may only read reads whole views by the command too; not by a profile that leaves out servers that do not answer."""
    with_readers(processes)
    tried = Many(processes)
    tried.night(tried.small.changes({(1, 6): 1}, {(2, "elm"): 1}))
    with TemporaryDirectory() as path:
        folder = Folder(path, processes.addresses(), tried.small.database)
        wrong = []
        for view in "abjsu":
            meant, found = folder.told("read", view), folder.told("read", view, more=["--user", "reader"])
            wrong += done(meant, f"read {view}") + done(found, f"read {view} by reader") + ([] if found == meant else [f"read {view}: {found}, not {meant}"])
        wrong += [told for what in ("check", "versions") for told in done(folder.told(what, more=["--user", "reader"]), f"{what} by reader")]
        wrong += one_line(folder.told("read", "j", more=["--user", "hasty_reader"]), 1, "skip_unavailable_shards")
        return wrong


def behind_a_recast(processes):
    """Behind a recast every server gives the views of the new catalogue, and none that left."""
    with_readers(processes)
    tried = Many(processes)
    tried.night(tried.small.changes({(1, 6): 1}, {(2, "elm"): 1}))
    processes.all[1].kill()
    other = tried.recasted(OTHER)
    processes.restart()
    wrong = right_or_refused(other, processes.all, "behind a recast") + other.faults("behind a recast")
    # A command gives the one that came back what readers read, when it has all rows.
    wrong += until(lambda: other.differs("behind a recast") + right(other, processes.all, "behind a recast, when all are back"))
    for each in processes.all:
        there = Server(each.address).asked(f"SELECT name FROM system.tables WHERE database = '{tried.small.database}'")
        wrong += [f"u~now is left on {each.address}"] if ["u~now"] in there else []
    return wrong


def behind_a_repair(processes):
    """A server whose tables of a view were made anew from another one's gives readers all of it."""
    with_readers(processes)
    tried = Many(processes)
    tried.night(tried.small.changes({(1, 6): 1, (2, 6): 1}, {(2, "elm"): 1}))
    found = tried.replicas()
    many.renew(found, found.chosen(), found.servers[1], [J])
    return right(tried, processes.all[1:2], "behind a repair") + tried.differs("behind a repair", processes.all[1:2])


NEWEST = [by_every_server, a_shard_gone, listed, by_the_command, behind_a_recast, behind_a_repair]
