"""Clients of a warehouse with replicas that go against one rule each, and the scenario that has to notice it."""

from whview.cluster import moving, replicas as served, standing, warehouse
from whview.cluster.agreed import AgreedVersions
from whview.cluster.replicas import Replicas
from whview.cluster.standing import There
from whview.sql.clickhouse import alias
from whview.sql.slots import Slots
from whview.sql.tokens import sql

from trials.cluster import cut_off, newest, replicated
from trials.spoilt.clusters import Spoilt

MADE, RECAST = AgreedVersions.made, replicated.recast
# So long commands wait for a server that never has all.
SOON = 10


def taken_for_made(versions, letter, seq, row):
    """Whoever sends what makes a version takes it for theirs."""
    MADE(versions, letter, seq, row)
    return True


def by_those_asked(found):
    """A recast judges the words of those servers alone that are asked, as if they were all."""
    found.judged_words()
    return RECAST(found)


def by_function(script, v, slots, within):
    """What readers read, by the function of tables, which who may only read is not given."""
    return script.shown(v, script.rows_in(v, slots, script.whole(v, slots)))


def just_made(server, made):
    """A table is made as if nothing could be left of an earlier one."""
    server.carried(made)


def though_it_goes(versions, letter, seq):
    """A version counts until nothing is left of it."""
    found = versions.stands(letter, seq)
    return found.row if found else None


SPOILT_REPLICAS = [
    Spoilt("a recast judged by those that are asked", [(replicated, "recast", by_those_asked)], replicated.recast_and_back),
    Spoilt("readers by a function of tables", [(Slots, "read_by_all", by_function), (newest, "until", lambda do: do())], newest.by_every_server),
    Spoilt(
        "tables made as if none had been",
        [(served, "made_empty", just_made), (warehouse, "made_empty", just_made), (served, "PATIENCE", SOON), (cut_off, "PATIENCE", SOON)],
        cut_off.tables_made_again,
    ),
    Spoilt("a version that goes is read", [(AgreedVersions, "payload", though_it_goes)], cut_off.versions_that_were_going),
    Spoilt("addresses told and not kept", [(moving, "keep", lambda *_: None)], replicated.other_addresses),
    Spoilt(
        "rows read that a server has not yet",
        [(standing, "lag", lambda *_: []), (There, "faults", lambda *_: [])],
        replicated.too_old,
    ),
    Spoilt("a night that waits for no other server", [(Replicas, "set_quorum", lambda *_: None)], replicated.waits_for_all),
    Spoilt("a version taken for one's own", [(AgreedVersions, "made", taken_for_made)], replicated.first_is_first),
    Spoilt("tables that one lacks who comes back", [(Replicas, "complete", lambda *_: None)], replicated.comes_back),
    Spoilt("no look at which marks came to a reader", [(Slots, "is_sound", lambda *_: sql("{w} = 0", w=alias("w")))], newest.a_shard_gone),
    Spoilt("no other server asked where one fails", [(Replicas, "tried", lambda replicas, do, choose=None: do((choose or replicas.chosen)()))],
           replicated.goes_on),
]
