"""Tables as SQL makes and fills them, in both engines' words."""


from trials.servers.databases import quoted
from trials.tables.judged import Table
from whview.catalogue.evaluator import added

KINDS = {"postgresql": {"int": "bigint", "text": "text"}, "sqlite": {"int": "INTEGER", "text": "TEXT"}}


def literal(cell):
    return str(cell) if isinstance(cell, int) else "'" + cell.replace("'", "''") + "'"


def inserted(table, columns, rows):
    """A statement that puts rows into a table, or none."""
    values = ", ".join("(" + ", ".join(map(literal, row)) + ")" for row in rows)
    return [f"INSERT INTO {table} ({', '.join(map(quoted, columns))}) VALUES {values};"] if rows else []


class Filled:
    """The tables of a night: what makes them where a test does not say it, and what fills them."""

    def __init__(self, database, night, tables=None):
        self.database, self.night = database, night
        self.tables = tables or [plainly(view) for view in night.views]

    def name(self, name):
        return f"{quoted(self.database.schema)}.{quoted(name)}"

    def columns(self, v, count):
        kinds = KINDS[self.database.engine]
        declared = [f"{quoted(name)} {kinds[kind]} NOT NULL" for name, (_, kind) in zip(self.tables[v].columns, self.night.views[v].columns)]
        return declared + ([f'"#" {kinds["int"]} NOT NULL{count}'] if count is not None else [])

    def made(self, v):
        """A table of the plainest form."""
        count = " DEFAULT 1" if self.night.is_counted(v) else None
        return [f"CREATE TABLE {self.name(self.tables[v].name)} ({', '.join(self.columns(v, count))});"]

    def made_changes(self, v):
        return [f"CREATE TABLE {self.name(self.tables[v].changes)} ({', '.join(self.columns(v, ''))});"]

    def rows(self, v, counts):
        """What puts a bag of rows into a view's table."""
        table = self.tables[v]
        if self.night.is_counted(v):
            return inserted(self.name(table.name), [*table.columns, "#"], [(*row, count) for row, count in counts.items()])
        return inserted(self.name(table.name), table.columns, [row for row, count in counts.items() for _ in range(count)])

    def base_rows(self, v):
        return self.rows(v, added(self.night.records[v]))

    def changed(self, v):
        """What puts the changes of a view into their table."""
        table = self.tables[v]
        rows = [(*row, count) for row, count in self.night.changes[v]]
        return inserted(self.name(table.changes), [*table.columns, "#"], rows) if rows else []


def plainly(view):
    """The table that a view has where its names are an engine's too."""
    return Table(view.name, [name for name, _ in view.columns], changes=None if view.over else f"{view.name}~changes")
