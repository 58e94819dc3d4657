"""A drawn warehouse on servers: nights in a row, with folds, sweeps and attempts given up between, and all versions read at the end."""

from collections import Counter
from unittest.mock import patch

from trials.drawn.nights import catalogue_of
from trials.drawn.views import chance
from trials.sql import lexed
from whview.cluster import carrying, keeping, making, nights
from whview.cluster.carrying import Carrying, Lossy, Refusal
from whview.cluster.reading import Session
from whview.cluster.warehouse import Warehouse
from whview.finding import Failure
from whview.sql.slots import Slot
from whview.sql.tokens import name, sql


# So many rows go over at once.
AT_A_TIME = 4


def shared(drawn, source, servers):
    """Base views that are shared out, each by a column."""
    found = [v for v in drawn.base() if chance(source, 0.6)] if servers > 1 else []
    return [f"{drawn.views[v].name}:{source.choice(drawn.views[v].columns)[0]}" for v in found]


class Tried:
    """A warehouse on servers beside what the program makes of it. `expected` has the tables of each version."""

    def __init__(self, drawn, servers, database, shards=(), cluster=None):
        self.drawn, self.warehouse, self.expected = drawn, Warehouse(catalogue_of(drawn.views, drawn.bundled), servers, database, shards, cluster), {}
        self.ends = Counter()

    def begin(self):
        """Makes the warehouse. Answers what was told otherwise than the program says, or None."""
        drawn = self.drawn
        if misread := self.misread():
            return misread[0]
        making.create(self.warehouse)
        making.load(self.warehouse, {v: drawn.tables[v] for v in drawn.base()})
        _, told = making.open_views(self.warehouse)
        if not same_words(drawn.told, told):
            return f"opening: {told!r}, and the program {drawn.told!r}"
        if told is None:
            self.note()
        return None

    def misread(self):
        """Statements that a lexer of the engine's own rules reads otherwise than they are meant."""
        script, steps = self.warehouse.plain, self.warehouse.steps
        made = [*script.create(), *script.views_of_now()]
        for step in [*steps.opening(), *steps.night(self.drawn.strategy())]:
            made += script.put(step)
        return lexed.mistakes(script.dialect, [each.said for each in made])

    @property
    def is_opened(self):
        return self.drawn.told is None

    def note(self):
        """The newest version has the tables as they are."""
        self.expected[self.warehouse.versions.newest().seq] = [Counter(table) for table in self.drawn.contents()]

    # ---- what comes between

    def night(self):
        """A drawn night, which has to end as the program says."""
        changes, strategy = self.drawn.drawn_night()
        version, told = nights.night(self.warehouse, {v: changes[v] for v in self.drawn.base()}, strategy)
        meant = self.drawn.night(changes, strategy)
        self.ends[" ".join((meant or "carried out").split()[:2])] += 1
        self.note()
        if not same_words(meant, told):
            return f"version {version.seq}: {told!r}, and the program {meant!r}; {self.drawn.bundled.listed(strategy)!r}, changes {changes}"
        return self.differs(version.seq)

    def given_up(self):
        """A night that stops anywhere, and is given up."""
        changes, steps = self.drawn.drawn_changes(), self.warehouse.steps.night(self.drawn.strategy())
        base = nights.idle(self.warehouse)
        slot = nights.attempted(self.warehouse, base, "night")
        begun = Carrying(self.warehouse, base, slot, {v: changes[v] for v in self.drawn.base()})
        try:
            begun.run(steps[: self.drawn.source.randrange(len(steps))])
        except (Lossy, Refusal) as error:
            self.ends[f"given up after {type(error).__name__}"] += 1
        nights.give_up(self.warehouse)
        self.ends["given up"] += 1
        self.note()

    def fold(self):
        keeping.fold(self.warehouse)
        self.ends["folds"] += 1
        self.note()

    def sweep(self, keep=10**6):
        keeping.Sweep(self.warehouse, keep).run()
        self.ends["sweeps"] += 1

    def merge(self):
        """Has the engine put the parts of each slot together, as it does by itself sooner or later."""
        newest = self.warehouse.versions.newest()
        script = self.warehouse.script(slot=Slot(newest.slots[-1], newest.generation))
        for v in range(len(self.drawn.views)):
            said = self.warehouse.written(sql("OPTIMIZE TABLE {table} FINAL", table=script.filled(v)))
            self.warehouse.servers.each(lambda server, said=said: server.carried(said))
        self.ends["merges"] += 1

    def between(self):
        """Something that changes no contents, or nothing."""
        choice = self.drawn.source.random()
        if choice < 0.15:
            self.fold()
        elif choice < 0.3:
            self.sweep(0 if chance(self.drawn.source, 0.3) else 10**6)
        elif choice < 0.42:
            self.given_up()
        elif choice < 0.57:
            self.merge()

    # ---- what is there

    def differs(self, seq):
        """What a version holds otherwise than it should, or None."""
        session = Session(self.warehouse, seq)
        for v, view in enumerate(self.drawn.views):
            found, meant = Counter(dict(session.read(v))), Counter({row: count for row, count in self.expected[seq][v].items() if count})
            if found != meant:
                return f"version {seq} of {view.name}: {found}\nwhere the program has\n{meant}"
        return None

    def differs_now(self):
        """What readers of the newest version are given otherwise than it holds, or None."""
        newest = self.warehouse.versions.newest().seq
        script, versions = self.warehouse.plain, self.warehouse.versions
        for v, view in enumerate(self.drawn.views):
            rows = versions.asked(sql("SELECT * FROM {now}", now=script.table(v, "~now")))
            kinds = [kind for _, kind in view.columns]
            given = Counter()
            for row in rows:
                cells = tuple(int(cell) if kind == "int" else cell for cell, kind in zip(row, kinds))
                given[cells] += int(row[-1]) if len(row) > len(kinds) else 1
            if given != Counter({row: count for row, count in self.expected[newest][v].items() if count}):
                return f"{view.name}~now: {given}"
        return None

    def all_versions(self):
        """What any version that is kept holds otherwise, or None."""
        for row in self.warehouse.versions.all():
            if row.stage == "opened" and (told := self.differs(row.seq)):
                return told
        return self.differs_now()

    def end(self):
        """Removes the warehouse from its servers."""
        said = self.warehouse.written(sql("DROP DATABASE IF EXISTS {schema}", schema=name(self.warehouse.dialect.schema)))
        self.warehouse.servers.each(lambda server: server.carried(said))


def same_words(meant, told):
    """Whether a refusal is the program's."""
    return told is None if meant is None else told is not None and told.split() == meant.split()[:3]


def row_of(tried, most):
    """A warehouse with so many nights at most, whose rows go over a few at a time, from its beginning to its end. Answers the first thing
    that differs, or None."""
    with patch.object(carrying, "BATCH", AT_A_TIME):
        return nights_of(tried, most)


def nights_of(tried, most):
    if told := tried.begin():
        return told
    if not tried.is_opened:
        tried.ends["refused before the first night"] += 1
        return None
    for _ in range(most):
        try:
            tried.between()
            told = tried.night()
        except Failure as failure:
            told = f"ended with {failure.lines}"
        if told:
            return told
    return tried.all_versions()
