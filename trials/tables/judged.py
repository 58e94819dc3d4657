"""What a night left, judged: exactly the program's rows, columns of others as they were, and nothing else; or nothing at all."""

import re
from collections import Counter
from dataclasses import dataclass, field

from trials.tables.given_nights import bag

# The words that a night of its own has for a refusal. Whatever else an engine says is no sentence for the reader.
REFUSAL = re.compile(r"refused [a-z]+ \S|table \S+ does not fit: |there is no table \S+ in |the isolation is not READ COMMITTED: ")


@dataclass
class Table:
    """A view's table as it stands in a database: the names of its columns, others that it has, and its key by places."""

    name: str
    columns: list
    others: list = field(default_factory=list)
    key: list = None
    changes: str = None


def is_sentence(told):
    return bool(REFUSAL.search(told)) and "Traceback" not in told


class Judged:
    """A night over tables of a database, between two states of it."""

    def __init__(self, database, night, tables, before, after):
        self.database, self.night, self.tables, self.before, self.after = database, night, tables, before, after

    def refused(self):
        """What a night that did not go through has changed all the same."""
        return self.before.differences(self.after)

    def done(self, contents, touched=()):
        """What a night that went through did otherwise than it should. `touched` has tables that others write to."""
        found = []
        for v, table in enumerate(self.tables):
            found += self.wrong_rows(v, table, contents[v]) + self.wrong_others(v, table)
        return found + self.elsewhere(touched)

    def count(self, v):
        return "#" if self.night.is_counted(v) else None

    def wrong_rows(self, v, table, expected):
        name = self.database.named(table.name)
        rows = self.after.rows(name)
        found = bag(rows, table.columns, self.count(v))
        wrong = [] if found == +Counter(expected) else [f"{name} has {dict(found)}, and not {dict(expected)}"]
        if self.night.is_counted(v) and len(found) != sum(rows.values()):
            wrong.append(f"{name} has equal rows twice")
        return wrong

    def by_row(self, state, table, places):
        """For each key, or whole row, what stands beside it in other columns."""
        found = {}
        for row, times in state.rows(self.database.named(table.name)).items():
            cells = dict(row)
            key = tuple(cells[table.columns[place]] for place in places)
            found.setdefault(key, Counter())[tuple(cells.get(other) for other in table.others)] += times
        return found

    def wrong_others(self, v, table):
        """Columns that the catalogue does not have, where a row or a key stays and they do not."""
        places = range(len(table.columns)) if table.key is None else table.key
        before, after = self.by_row(self.before, table, places), self.by_row(self.after, table, places)
        wrong = []
        for key in before.keys() & after.keys():
            old, new = before[key], after[key]
            if old - new and new - old:
                wrong.append(f"{table.name}: beside {key} stood {dict(old)}, and now {dict(new)}")
        return wrong

    def elsewhere(self, touched):
        """What is otherwise beside the tables of the night."""
        own = {self.database.named(table.name) for table in self.tables} | set(touched)
        changes = {self.database.named(table.changes) for table in self.tables if table.changes}
        kept = [self.kept(state, own | changes) for state in (self.before, self.after)]
        used = [name for name in changes if self.after.rows(name)]
        return kept[0].differences(kept[1]) + [f"{name} is not used up" for name in used]

    def kept(self, state, own):
        tables = {name: rows for name, rows in state.tables.items() if name[0] not in own and name[0] != "sqlite_sequence"}
        return state._replace(tables=tables)
