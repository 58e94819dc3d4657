"""A small warehouse whose contents the definitions give, for what is tried step by step."""

import itertools
from collections import Counter

from whview.catalogue.evaluator import Evaluator, added
from whview.catalogue.from_bundle import views_of
from whview.catalogue.parts import Warehouse as Bundled
from whview.cluster import making, nights
from whview.cluster.carrying import Carrying
from whview.cluster.reading import Session
from whview.cluster.replicas import Replicas
from whview.cluster.warehouse import Warehouse

from trials.drawn.nights import catalogue_of
from trials.servers.clickhouse import NAME

TEXT = """[[view]]
name = "a"
columns = ["k", "x"]
[[view]]
name = "b"
columns = ["k", "t:text"]
[[view]]
name = "j"
over = ["a", "b"]
join = [["a.k", "b.k"]]
where = ["<>", "a.x", 13]
keep = [["t", "b.t"], ["x", "a.x"], ["twice", ["*", "a.x", 2]]]
[[view]]
name = "s"
over = ["j"]
group = [["t", "j.t"]]
count = "n"
sum = [["x", "j.x"]]
[[view]]
name = "u"
over = ["s", "b"]
join = [["s.t", "b.t"]]
keep = [["t", "b.t"], ["n", "s.n"], ["x", "s.x"]]
"""
A, B, J, S, U = range(5)
# How long a sweep keeps what was followed, so that everything goes.
AT_ONCE = -1
# Both children of `j` one after the other, so that one Comp reads a table as after its Inst.
STRATEGY = [(J, (A,)), (A, None), (J, (B,)), (S, (J,)), (J, None), (U, (B,)), (B, None), (U, (S,)), (S, None), (U, None)]
NUMBERS = itertools.count()
BEFORE = {A: {(1, 5): 1, (2, 7): 2, (3, 9): 1, (4, 11): 1}, B: {(1, "oak"): 1, (2, "elm"): 1, (3, "oak"): 1, (4, "fir"): 1}}


class Small:
    """The warehouse on servers, with `shards` of its base views, beside its tables by the definitions."""

    def __init__(self, servers, shards=(), before=None, replicas=1):
        views = views_of(TEXT)
        self.catalogue = catalogue_of(views, Bundled(views))
        self.servers, self.database, self.shards = servers, f"small{next(NUMBERS)}", shards if len(servers) > replicas else ()
        self.replicas = replicas
        self.warehouse = self.client() if replicas == 1 else self.replicated().new()
        self.tables = {v: added(rows.items()) for v, rows in (before or BEFORE).items()}
        making.create(self.warehouse)
        making.load(self.warehouse, self.tables)
        making.open_views(self.warehouse)

    def client(self, servers=None):
        """A client more, which has its own view of the servers."""
        return Warehouse(self.catalogue, servers or self.servers, self.database, self.shards, NAME)

    def replicated(self, servers=None):
        """The servers of a warehouse with replicas, as a client of its own knows them."""
        return Replicas(self.catalogue, servers or self.servers, self.database, self.replicas, self.shards, NAME)

    @property
    def versions(self):
        return self.warehouse.versions

    def contents(self):
        return Evaluator().contents(self.catalogue.views, [self.tables.get(v, Counter()) for v in range(5)])

    def changed(self, changes):
        """The tables are those after a night."""
        for v, change in changes.items():
            self.tables[v] = added([*self.tables[v].items(), *change.items()])

    def changes(self, a=None, b=None):
        return {A: Counter(a or {}), B: Counter(b or {})}

    def night(self, a=None, b=None, client=None):
        """A night; where it is done, the tables are the new ones. Answers its version and refusal."""
        changes = self.changes(a, b)
        version, told = nights.night(client or self.warehouse, changes, STRATEGY)
        if told is None:
            self.changed(changes)
        return version, told

    def begun(self, changes, client=None):
        """A night up to its commit, which is what this answers to be called."""
        warehouse = client or self.warehouse
        base = nights.idle(warehouse)
        slot = nights.attempted(warehouse, base, "night")
        held = Carrying(warehouse, base, slot, changes).run(warehouse.steps.night(STRATEGY))

        def commit():
            nights.judge_base(warehouse.versions, base)
            return warehouse.versions.commit(base, slot, base.night + 1, "opened", "night", held.totals, held.gross, prints=held.prints)

        return commit

    def differs(self, seq=None, what="the newest version"):
        """What a version holds otherwise than the definitions say, in a list."""
        session, meant = Session(self.warehouse, seq), self.contents()
        for v, view in enumerate(self.catalogue.views):
            found = Counter(dict(session.read(v)))
            if found != Counter(meant[v]):
                return [f"{what}: {view.name} has {dict(found)}, and by its definition {dict(meant[v])}"]
        return []
