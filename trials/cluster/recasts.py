"""Catalogues that change over the same base tables: views that come, go and are defined anew. A scenario is given servers, and answers what
came otherwise, in a list."""

import copy
from unittest.mock import patch

from whview.catalogue.from_bundle import views_of
from whview.catalogue.parts import Warehouse as Bundled
from whview.cluster import keeping, nights, recasting
from whview.cluster.keeping import Sweep
from whview.cluster.recasting import recast
from whview.cluster.servers import Lost
from whview.cluster.versions import Versions

from trials.cluster.scenarios import SHARES, Twice, ends, others
from trials.cluster.small_warehouse import AT_ONCE, TEXT, Small
from trials.drawn.nights import catalogue_of

# `w` comes before all derived views, `s` has a sum more, and `u` leaves.
BASES = TEXT.partition('[[view]]\nname = "j"')[0]
JOINED = '[[view]]\nname = "j"' + TEXT.partition('[[view]]\nname = "j"')[2].partition("[[view]]")[0]
COMES = """[[view]]
name = "w"
over = ["a", "b"]
join = [["a.k", "b.k"]]
keep = [["k", "a.k"], ["t", "b.t"]]
"""
ANEW = """[[view]]
name = "s"
over = ["j"]
group = [["t", "j.t"]]
count = "n"
sum = [["twice", "j.twice"], ["x", "j.x"]]
"""
OTHER = BASES + COMES + JOINED + ANEW
STRATEGY = [(2, (0,)), (3, (0,)), (0, None), (2, (1,)), (3, (1,)), (4, (3,)), (3, None), (1, None), (2, None), (4, None)]


def with_catalogue(small, text):
    """The small warehouse as somebody has it whose catalogue this is."""
    found, views = copy.copy(small), views_of(text)
    found.catalogue = catalogue_of(views, Bundled(views))
    found.warehouse = found.client() if small.replicas == 1 else None
    return found


def recasted(small, text, kind=None):
    """The same when its servers have it by another catalogue."""
    found = with_catalogue(small, text)
    recast(others(found, kind) if kind else found.client())
    found.warehouse = found.client().judged()
    return found


def night(small, a, b):
    """A night by the other catalogue's strategy."""
    changes = small.changes(a, b)
    _, told = nights.night(small.warehouse, changes, STRATEGY)
    small.changed({} if told else changes)
    return [told] if told else []


def now_differs(small, *gone):
    """What readers of the newest version are given otherwise, and of views that are gone."""
    wrong, server, meant = [], small.servers[0], small.contents()
    for v, view in enumerate(small.catalogue.views):
        rows = server.asked(f'SELECT * FROM "{small.database}"."{view.name}~now"')
        wrong += [] if len(rows) == len(meant[v]) else [f"{view.name}~now has {rows}, and meant are {meant[v]}"]
    for name in gone:
        wrong += ends(lambda name=name: server.asked(f'SELECT * FROM "{small.database}"."{name}~now"'), "exist")
    return wrong


def tables(small):
    return {name for name, in small.servers[-1].asked(f"SELECT name FROM system.tables WHERE database = '{small.database}'")}


def there_and_back(servers):
    """A view comes, one leaves and one is defined anew, and then all is as it was; versions of before are read by their catalogue."""
    small = Small(servers, SHARES)
    small.night({(number, 100 + number): 1 for number in range(1, 9)}, {(number, "yew"): 1 for number in range(1, 5)})
    before = small.versions.newest().seq
    other = recasted(small, OTHER)
    wrong = other.differs(None, "recast") + now_differs(other, "u") + small.differs(before, "a version of before")
    wrong += ends(lambda: small.night({(1, 6): 1}), "another catalogue")
    wrong += night(other, {(2, 7): -1, (3, 33): 1}, {(3, "elm"): 1}) + other.differs(None, "recast, and a night")
    keeping.fold(other.warehouse)
    for _ in range(2):
        Sweep(other.warehouse, AT_ONCE).run()
    left = sorted(name for name in tables(other) if name in ("u~0", "s~0", "a~0", "~d~u~0"))
    wrong += [f"tables {left} are left behind a sweep"] if left else []
    wrong += other.differs(None, "recast, and a fold") + now_differs(other)
    back = recasted(other, TEXT, Twice)
    wrong += back.differs(None, "recast back") + now_differs(back, "w")
    back.night({(4, 44): 1}, {(4, "fir"): 1})
    return wrong + back.differs(None, "recast back, and a night")


def refused(servers):
    """Another base table, a sum that leaves 64 bits, and a night that is under way are told; what is the same changes nothing."""
    small = Small(servers, SHARES)
    seq = small.versions.newest().seq
    wrong = ends(lambda: recast(with_catalogue(small, TEXT.replace('"x"]', '"x", "y"]', 1)).client()), "a is another base table")
    wrong += ends(lambda: recast(with_catalogue(small, TEXT.replace('"a.x", 2]', f'"a.x", {2**62}]')).client()), "refused range j")
    recast(small.client())
    wrong += [] if small.versions.newest().seq == seq else ["a recast that is refused, or changes nothing, made a version"]
    commit = small.begun(small.changes({(1, 6): 1}))
    wrong += ends(lambda: recast(with_catalogue(small, OTHER).client()), "somebody is at work")
    commit()
    small.changed(small.changes({(1, 6): 1}))
    return wrong + small.differs(None, "behind what was refused")


def cut_off(servers):
    """A recast that ends before its commit changes nothing; one that ends behind it is whole, but for readers, and is ended by another."""
    small = Small(servers, SHARES)
    lost = Lost("stopped")

    def stop(*_):
        raise lost

    with patch.object(Versions, "commit_as", stop):
        wrong = ends(lambda: recasted(small, OTHER), "stopped")
    small.night({(1, 6): 1}, {(1, "yew"): 1})
    wrong += small.differs(None, "a recast that was cut off, and a night") + now_differs(small)
    with patch.object(recasting, "show", stop):
        wrong += ends(lambda: recasted(small, OTHER), "stopped")
    wrong += ends(lambda: servers[0].asked(f'SELECT * FROM "{small.database}"."s~now"'), "throwIf")
    other = recasted(small, OTHER)
    return wrong + other.differs(None, "a recast that was ended") + now_differs(other)


RECASTS = [there_and_back, refused, cut_off]
