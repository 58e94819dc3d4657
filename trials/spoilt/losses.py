"""Clients that take on trust what servers have, which others they know, and what a profile says; and the scenario that has to notice each. A
scenario is given servers as processes."""

from whview.cluster import command, links, moving, servers, standing
from whview.cluster.servers import Server
from whview.cluster.standing import There
from whview.sql.slots import Slots
from whview.sql.tokens import sql

from trials.cluster import lost
from trials.spoilt.clusters import Spoilt

FAULTS, LEARN = There.faults, Server.learn


def marks_alone(there, slots):
    """Whether a server has the rows that its marks tell of is not asked."""
    return FAULTS(There(there.server, there.marks, behind=there.behind), slots)


def slots_alone(script, v):
    """V~now takes the newest version's slots, whoever answers and whatever marks there are."""
    return sql("SELECT slots FROM {versions} ORDER BY seq DESC LIMIT 1", versions=script.dialect.numbered("v"))


def learnt_as_others(server):
    """Who may only read says settings too."""
    LEARN(server)
    if server.only_reads:
        there = {name for name, in server.asked("SELECT name FROM system.settings")}
        server.settings = {name: value for name, value in servers.WANTED.items() if name in there}


UNASKED = [(standing, "judge", lambda *_: None)]
SPOILT_LOSSES = [
    Spoilt("marks that nobody asks for", UNASKED, lost.a_shard_from_before),
    Spoilt("marks that nobody asks an older first server for", UNASKED, lost.a_first_server_from_before),
    Spoilt("slots that the first server does not know", [(standing, "older", lambda *_: [])], lost.a_first_server_from_before_a_night),
    Spoilt("an emptied copy that has its marks", [(There, "faults", marks_alone)], lost.an_emptied_copy),
    Spoilt("a broken part whose mark is there", [(There, "faults", marks_alone)], lost.a_broken_part),
    Spoilt("a fold that compares no prints", [(standing, "differing", lambda *_: [])], lost.rows_exchanged),
    Spoilt("readers who ask for no marks", [(Slots, "standing", slots_alone)], lost.a_shard_from_before),
    Spoilt("readers of those that answer", [(Slots, "standing", slots_alone)], lost.a_server_down),
    Spoilt("lists of servers that `create` alone judges", [(links, "judge", lambda *_: None)], lost.servers_listed_otherwise),
    Spoilt("all servers asked for what the first one has", [(command, "OF_FIRST", ("status",))], lost.without_the_others),
    Spoilt("addresses told and not kept", [(moving, "keep", lambda *_: None)], lost.other_addresses),
    Spoilt("settings of one who may only read", [(Server, "learn", learnt_as_others)], lost.who_may_only_read),
]
