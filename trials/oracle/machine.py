"""A machine over a warehouse's events, by the rules of docs/FORMATS.md alone and as plainly as can be: a version is a list of
tables, a table a map from rows to counts. Cells are numbers, texts too."""

from copy import copy

from whview.catalogue.evaluator import Evaluator, NoContents, Refused, after, merged
from whview.strategy.rules import broken

MOST_KEYS = 256


# ---- events


class Night:
    """A night that is open: the tables being written, the changes known so far, what was computed, and the stage in turn."""

    def __init__(self, tables, changes, listed):
        self.tables, self.changes, self.pendings = list(tables), list(changes), [{} for _ in tables]
        self.stages, self.place = listed, 0
        self.drawn, self.done, self.left = 0, 0, []

    def copied(self):
        night = copy(self)
        night.tables, night.changes, night.pendings = list(self.tables), list(self.changes), list(self.pendings)
        return night

    @property
    def stage(self):
        """The wave or the view in turn, or None where all is over."""
        return self.stages[self.place] if self.place < len(self.stages) else None

    @property
    def wave(self):
        return self.stage if isinstance(self.stage, list) else None


class Session:
    """The version that a desk reads, and the view and row after which it goes on."""

    def __init__(self, version):
        self.version, self.view, self.row = version, None, None


class Machine(Evaluator):
    """The versions, the open night, and what each desk and each worker has. A refused event changes nothing."""

    def __init__(self, given):
        self.views, self.nights, self.keys, self.kept = given.views, given.nights, given.keys, given.kept
        self.names = {view.name: v for v, view in enumerate(self.views)}
        self.versions, self.night, self.begun = [self.contents(self.views, given.tables)], None, 0
        self.sessions, self.jobs = [None] * given.desks, [None] * given.workers

    def reply(self, event, *words):
        try:
            return getattr(self, event)(*words)
        except Refused as refused:
            return f"refused {refused}"

    @property
    def current(self):
        return len(self.versions) - 1

    # ---- the writer

    def begin(self):
        if self.night:
            raise Refused("NightOpen")
        if self.begun == len(self.nights):
            raise Refused("NoNight")
        changes, strategy = self.nights[self.begun]
        for v in self.base_views():
            self.judge(self.versions[-1][v], changes[v])
        night = Night(self.versions[-1], changes, self.stages(strategy))
        self.come_to_stage(night)
        self.night = night
        self.begun += 1
        return "begun"

    def base_views(self):
        return [v for v, view in enumerate(self.views) if not view.over]

    @staticmethod
    def joins(sources, wave):
        """Whether a Comp from these views joins a wave: none of them is computed in it."""
        return not {view for view, _ in wave} & set(sources)

    @classmethod
    def stages(cls, strategy):
        """The waves of a strategy, each a list of Comps, and its Insts, each a view."""
        found = []
        for v, sources in strategy:
            if sources is None:
                found.append(v)
            elif found and isinstance(found[-1], list) and cls.joins(sources, found[-1]):
                found[-1].append((v, sources))
            else:
                found.append([(v, sources)])
        return found

    def come_to_stage(self, night):
        """Computes the change of the Inst in turn. One without a change passes by itself."""
        night.drawn = night.done = 0
        while isinstance(night.stage, int):
            night.left = sorted(self.changed(night, night.stage))
            if night.left:
                return
            night.place += 1

    def changed(self, night, v):
        """The change of a view, which is computed where it is wanted first."""
        if night.changes[v] is None:
            night.changes[v] = self.change(self.views[v], night.pendings[v], night.tables[v])
        return night.changes[v]

    def open_night(self):
        if not self.night:
            raise Refused("NoNight")
        return self.night.copied()

    def page(self):
        night = self.open_night()
        if not isinstance(night.stage, int):
            raise Refused("NotReady")
        keys, night.left = self.cut(night.left)
        change = night.changes[night.stage]
        night.tables[night.stage] = after(night.tables[night.stage], {row: change[row] for row in keys})
        if not night.left:
            night.place += 1
            self.come_to_stage(night)
        self.night = night
        return f"paged {len(keys)}"

    def cut(self, left):
        """The keys of the next page, and those after it."""
        return left[: self.keys], left[self.keys :]

    def commit(self):
        if self.open_night().stage is not None:
            raise Refused("NotReady")
        return self.ended(self.night.tables)

    def giveup(self):
        self.open_night()
        return self.ended(self.versions[-1])

    def ended(self, tables):
        self.versions.append(tables)
        self.night, self.jobs = None, [None] * len(self.jobs)
        return f"version {self.current}"

    # ---- workers

    def worker(self, worker):
        if worker >= len(self.jobs):
            raise Refused("NoWorker")

    def take(self, worker):
        self.worker(worker)
        night = self.open_night()
        if self.jobs[worker] is not None:
            raise Refused("Busy")
        if not night.wave or night.drawn == len(night.wave):
            raise Refused("NoJob")
        self.jobs[worker], self.night.drawn = night.drawn, night.drawn + 1
        return f"job {self.jobs[worker]}"

    def done(self, worker):
        self.worker(worker)
        night = self.open_night()
        if self.jobs[worker] is None:
            raise Refused("Idle")
        v, sources = night.wave[self.jobs[worker]]
        for u in sorted(sources):
            self.changed(night, u)
        computed = self.comp(self.views[v], sources, night.tables, night.changes)
        night.pendings[v] = merged(night.pendings[v], computed)
        night.done += 1
        if night.done == len(night.wave):
            night.place += 1
            self.come_to_stage(night)
        self.night, self.jobs[worker] = night, None
        return "done"

    # ---- desks

    def session(self, desk):
        if desk >= len(self.sessions):
            raise Refused("NoDesk")
        return self.sessions[desk]

    def open(self, desk):
        if self.session(desk):
            raise Refused("SessionOpen")
        self.sessions[desk] = Session(self.current)
        return f"session {self.current}"

    def close(self, desk):
        if not self.session(desk):
            raise Refused("NoSession")
        self.sessions[desk] = None
        return "closed"

    def unexpired(self, version):
        return self.current - version < self.kept - bool(self.night)

    def read(self, desk, name, limit):
        session = self.session(desk)
        if not session:
            raise Refused("NoSession")
        if not self.unexpired(session.version):
            return self.expired(session)
        if name not in self.names:
            raise Refused("NoView")
        if not 1 <= limit <= MOST_KEYS:
            raise Refused("Limit")
        return self.rows(session, self.names[name], limit)

    def behind(self, desk, name, limit, row):
        """What a read would give if the desk stood behind this row of the view, or before its first; it stays where it is."""
        own = self.session(desk)
        if own:
            self.sessions[desk] = copy(own)
            self.sessions[desk].view, self.sessions[desk].row = self.names.get(name), row
        try:
            return self.read(desk, name, limit)
        finally:
            self.sessions[desk] = own

    def tables(self):
        """How many rows the tables of the current version have, and the versions that can be read."""
        return [sum(table.values()) for table in self.versions[-1]], [each for each in range(len(self.versions)) if self.unexpired(each)]

    def written(self):
        """By how much each row counts otherwise in what the open night has written, view by view."""
        written = self.night.tables if self.night else self.versions[-1]
        return [after(new, {row: -count for row, count in old.items()}) for new, old in zip(written, self.versions[-1])]

    def expired(self, session):
        return f"expired {session.version} current {self.current} {'active' if self.night else 'idle'}"

    def rows(self, session, v, limit):
        table = self.shown_to(session)[v]
        after = [row for row in sorted(table) if session.view != v or session.row is None or row > session.row]
        last = len(after) <= limit
        session.view, session.row = v, None if last else after[limit - 1]
        read = "".join(f" [{' '.join(map(str, [table[row], *row]))}]" for row in after[:limit])
        return f"page{read} {'end' if last else 'more'}"

    def shown_to(self, session):
        return self.versions[session.version]


def answer(given, kind=Machine):
    """What is printed for a bundle without a fault, and the status."""
    for _, strategy in given.nights:
        if told := broken(given.views, strategy):
            return f"{told}\n", 1
    try:
        machine = kind(given)
    except NoContents as refused:
        return f"refused {refused}\n", 1
    return "".join(machine.reply(*event) + "\n" for event in given.events), 0
