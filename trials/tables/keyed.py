"""Rows and changes that are drawn so that keys stay unique."""

from collections import Counter

from trials.drawn.views import Drawer, chance


class KeyedDrawer(Drawer):
    """Draws views, and the records and changes of base views, of which some have a key: the places of its columns."""

    def __init__(self, source):
        super().__init__(source)
        self.keys = {}

    def draw_keys(self, most=2):
        """Keys over some of the columns of some base views."""
        for v, view in enumerate(self.views):
            if not view.over and chance(self.source, 0.6):
                places = range(len(view.columns))
                self.keys[v] = sorted(self.source.sample(places, self.source.randint(1, min(most, len(view.columns)))))

    def key(self, v, row):
        return tuple(row[place] for place in self.keys[v])

    def drawn_records(self, v, is_plain):
        """Records of a base view: one for each key, where it has one."""
        view = self.views[v]
        records = self.records(view)
        if v not in self.keys:
            return records
        found = {self.key(v, row): (row, 1 if is_plain else count) for row, count in records}
        return list(found.values())

    def drawn_changes(self, v, records, is_plain):
        """Changes of a base view: rows that leave, that change beside their key, and that come."""
        view = self.views[v]
        if v not in self.keys:
            return self.changes(view, records)
        if chance(self.source, 0.2):
            return []
        there = {self.key(v, row): (row, count) for row, count in records}
        changes = []
        for row, count in list(there.values()):
            changes += self.changed(v, row, count, is_plain)
        for _ in range(self.source.randint(0, 3)):
            row = self.row(view)
            if self.key(v, row) not in there:
                there[self.key(v, row)] = row, 1
                changes.append((row, 1))
        self.source.shuffle(changes)
        return changes

    def changed(self, v, row, count, is_plain):
        """What becomes of a row that has a key: it stays, leaves, gets other cells beside its key, or counts more often."""
        choice = self.source.random()
        if choice < 0.4:
            return []
        if choice < 0.6:
            return [(row, -count)]
        if choice < 0.7:
            return [(row, -1), (row, 1)]
        if choice < 0.75 and not is_plain:
            return [(row, 1)]
        other = self.row(self.views[v])
        beside = tuple(row[place] if place in self.keys[v] else cell for place, cell in enumerate(other))
        return [(row, -count), (beside, count if is_plain else self.source.choice([count, 1, 3]))]


def net(before, after):
    """By how much each row's count changes."""
    counts = Counter(after)
    counts.subtract(before)
    return {row: count for row, count in counts.items() if count}


def comes(before, after, key, is_plain):
    """Whether a row has to be inserted, rather than changed beside its key or counted more often."""
    gained = [row for row, count in net(before, after).items() if count > 0]
    if key is not None:
        there = {tuple(row[place] for place in key) for row in before}
        return any(tuple(row[place] for place in key) not in there for row in gained)
    return bool(gained) if is_plain else any(not before[row] for row in gained)


def leaving_keys(before, after, key):
    """The keys that are there before and not after."""
    keys = [{tuple(row[place] for place in key) for row, count in bag.items() if count} for bag in (before, after)]
    return keys[0] - keys[1]
