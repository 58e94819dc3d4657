"""Forms that tables have in databases of people: parts, keys, columns of others, types, triggers, as SQL of both engines."""

from dataclasses import dataclass, field

from trials.drawn.views import chance
from trials.servers.databases import quoted
from trials.tables.filled import KINDS as PLAIN_KINDS
from trials.tables.filled import literal

# A column of others: its name, its declaration, and whether a row that comes has to go without it.
NOTE = ("~note", "{text}", True)
OTHERS = [NOTE, ("~since", "{int} NOT NULL DEFAULT 7", False), ("~word", "{text} DEFAULT 'none'", False)]
KINDS = {
    "postgresql": {"int": ["bigint", "bigint", "int"], "text": ["text", "varchar", 'text COLLATE "C"', 'varchar COLLATE "C"']},
    "sqlite": {"int": ["INTEGER", "INT", "BIGINT"], "text": ["TEXT", "VARCHAR(80)", "CLOB"]},
    "strict": {"int": ["INTEGER", "INT"], "text": ["TEXT"]},
}


@dataclass
class Form:
    """A table as it is drawn: its columns by name and declaration; its key and what else stands behind them; how it is parted; what is
    said after it is made and after it is filled; and which columns are others'."""

    columns: list
    constraint: str = ""
    behind: str = ""
    parts: str = None
    parted_by: str = None
    parted_kind: str = None
    after: list = field(default_factory=list)
    filled: list = field(default_factory=list)
    others: list = field(default_factory=list)
    key: list = None
    lacks: bool = False
    is_unfit: bool = False
    told: list = field(default_factory=list)


class Forms:
    """Draws the forms of the tables of a night."""

    def __init__(self, source, database, night, tables):
        self.source, self.database, self.night, self.tables = source, database, night, tables
        self.engine = database.engine

    def name(self, name):
        return f"{quoted(self.database.schema)}.{quoted(name)}"

    def chance(self, part):
        return chance(self.source, part)

    def drawn(self, v, key):
        """The form of a view's table, with a key by places or without."""
        is_strict = self.engine == "sqlite" and self.chance(0.15)
        form = Form(self.own_columns(v, "strict" if is_strict else self.engine))
        form.told += ["STRICT"] if is_strict else []
        form.behind = "STRICT" if is_strict else ""
        if self.engine == "postgresql" and self.chance(0.5):
            self.part(v, form, key)
        self.add_others(v, form)
        if key is not None and form.parts != "inherited":
            self.add_key(v, form, key)
        self.add_indexes(v, form)
        if self.chance(0.3):
            self.source.shuffle(form.columns)
            form.told.append("other order")
        return form

    # ---- columns

    def own_columns(self, v, engine):
        """The catalogue's columns, with types that fit."""
        found, view = [], self.night.views[v]
        for name, (_, kind) in zip(self.tables[v].columns, view.columns):
            kinds = KINDS[engine][kind]
            if kind == "int" and engine == "postgresql" and not view.over:
                kinds = [*kinds, "smallint"]
            found.append((name, f"{self.source.choice(kinds)} NOT NULL"))
        if self.night.is_counted(v):
            kinds = [*KINDS[engine]["int"], *(["smallint"] if engine == "postgresql" and not view.over else [])]
            kind = self.source.choice(kinds)
            found.append(("#", f"{kind} NOT NULL" + (" DEFAULT 1" if self.chance(0.7) else "")))
        return found

    def add_others(self, v, form):
        kinds = PLAIN_KINDS[self.engine]
        for name, declared, is_lacking in OTHERS:
            if self.chance(0.1 if is_lacking else 0.2):
                form.columns.append((name, declared.format(**kinds)))
                form.others.append(name)
                form.lacks |= is_lacking
                form.told.append(f"column {name}")
                mark = "ctid::text" if self.engine == "postgresql" else "rowid"
                value = f"'kept ' || {mark}" if "text" in declared else "8"
                form.filled.append(f"UPDATE {self.name(self.tables[v].name)} SET {quoted(name)} = {value};")
        self.add_made(v, form)

    def add_made(self, v, form):
        numbers = [name for name, (_, kind) in zip(self.tables[v].columns, self.night.views[v].columns) if kind == "int"]
        if numbers and self.chance(0.15):
            kept = self.source.choice(["STORED", "VIRTUAL"]) if self.engine == "sqlite" else "STORED"
            bigger = f"({quoted(self.source.choice(numbers))} + 1) {kept}"
            form.columns.append(("~more", f"{PLAIN_KINDS[self.engine]['int']} GENERATED ALWAYS AS {bigger}"))
            form.told.append("generated")
        if self.engine == "postgresql" and self.chance(0.2):
            is_serial = form.parts is not None or self.chance(0.5)
            form.columns.append(("~row", "bigserial" if is_serial else "bigint GENERATED ALWAYS AS IDENTITY"))
            form.others.append("~row")
            form.told.append("numbered")

    # ---- keys and indexes

    def add_key(self, v, form, key):
        names = [self.tables[v].columns[place] for place in key]
        listed, form.key = ", ".join(map(quoted, names)), key
        is_number = len(key) == 1 and self.night.views[v].columns[key[0]][1] == "int"
        choice = self.source.random()
        if self.engine == "sqlite" and is_number and choice < 0.4:
            form.columns = [(name, "INTEGER PRIMARY KEY" if name == names[0] else kind) for name, kind in form.columns]
            form.told.append("INTEGER PRIMARY KEY")
        elif choice < 0.75:
            form.constraint = f", PRIMARY KEY ({listed})"
            form.told.append("primary key")
            self.without_rowid(form)
        else:
            form.after.append(f"CREATE UNIQUE INDEX {self.index(v, '~unique')} ON {self.on(v)} ({listed});")
            form.told.append("unique index")

    def without_rowid(self, form):
        if self.engine == "sqlite" and self.chance(0.08):
            form.behind = ", ".join(filter(None, [form.behind, "WITHOUT ROWID"]))
            form.is_unfit = True
            form.told.append("WITHOUT ROWID")
            form.filled = []

    def index(self, v, end):
        """The name of an index, which SQLite has the schema before."""
        name = quoted(f"i{v}{end}")
        return f"{quoted(self.database.schema)}.{name}" if self.engine == "sqlite" else name

    def on(self, v):
        return quoted(self.tables[v].name) if self.engine == "sqlite" else self.name(self.tables[v].name)

    def add_indexes(self, v, form):
        first = quoted(self.tables[v].columns[0])
        if self.chance(0.3):
            form.after.append(f"CREATE INDEX {self.index(v, '~first')} ON {self.on(v)} ({first});")
            form.told.append("index")
        if form.parts is None and self.night.views[v].columns[0][1] == "int" and self.chance(0.15):
            form.after.append(f"CREATE UNIQUE INDEX {self.index(v, '~some')} ON {self.on(v)} ({first}) WHERE {first} = 99999;")
            form.told.append("partial index")
        if form.parts is None and form.key is not None and self.chance(0.2):
            both = ", ".join(quoted(self.tables[v].columns[place]) for place in {*form.key, 0})
            form.after.append(f"CREATE UNIQUE INDEX {self.index(v, '~more')} ON {self.on(v)} ({both});")
            form.told.append("second unique index")

    # ---- parts

    def part(self, v, form, key):
        """How the table is parted, and by which column."""
        places = key if key is not None else range(len(self.tables[v].columns))
        place = self.source.choice(list(places))
        form.parts = self.source.choice(["list", "range", "hash", "sub", "inherited"])
        form.parted_by, form.parted_kind = self.tables[v].columns[place], self.night.views[v].columns[place][1]
        form.told.append(f"{form.parts} on {form.parted_by}")

    def bounds(self, v, form):
        place = self.tables[v].columns.index(form.parted_by)
        cells = sorted({row[place] for row in self.night.drawn_rows(v)}) or [1 if form.parted_kind == "int" else "oak"]
        cell = self.source.choice(cells)
        if form.parts in ("list", "sub"):
            return [f"FOR VALUES IN ({literal(cell)})", "DEFAULT"]
        if form.parts == "range":
            return [f"FOR VALUES FROM (MINVALUE) TO ({literal(cell)})", f"FOR VALUES FROM ({literal(cell)}) TO (MAXVALUE)"]
        return [f"FOR VALUES WITH (MODULUS 3, REMAINDER {number})" for number in range(3)]

    def made(self, v, form):
        columns = ", ".join(f"{quoted(name)} {kind}" for name, kind in form.columns) + form.constraint
        table = self.name(self.tables[v].name)
        if form.parts is None or form.parts == "inherited":
            made = [f"CREATE TABLE {table} ({columns}) {form.behind};"]
            heir = self.name(f"{v} heir")
            made += [f"CREATE TABLE {heir} () INHERITS ({table});"] if form.parts else []
            form.filled[:0] = self.moved(form, table, heir) if form.parts else []
            return made + form.after + self.dropped(table)
        by = {"sub": "LIST"}.get(form.parts, form.parts.upper())
        made = [f"CREATE TABLE {table} ({columns}) PARTITION BY {by} ({quoted(form.parted_by)});", *self.dropped(table)]
        for number, bound in enumerate(self.bounds(v, form)):
            made += self.made_part(v, form, table, number, bound)
        return made + form.after

    def moved(self, form, table, heir):
        test = f"{quoted(form.parted_by)} <> {'0' if form.parted_kind == 'int' else literal('oak')}"
        names = [name for name, declared in form.columns if "GENERATED" not in declared]
        listed = ", ".join(map(quoted, names))
        return [f"INSERT INTO {heir} ({listed}) SELECT {listed} FROM ONLY {table} WHERE {test};", f"DELETE FROM ONLY {table} WHERE {test};"]

    def made_part(self, v, form, table, number, bound):
        part = self.name(f"{v} part {number}")
        if form.parts == "sub" and bound == "DEFAULT":
            made = [f"CREATE TABLE {part} PARTITION OF {table} DEFAULT PARTITION BY HASH ({quoted(form.parted_by)});"]
            subs = [self.name(f"{v} part {number} {sub}") for sub in range(2)]
            return made + [f"CREATE TABLE {sub} PARTITION OF {part} FOR VALUES WITH (MODULUS 2, REMAINDER {n});" for n, sub in enumerate(subs)]
        return [f"CREATE TABLE {part} PARTITION OF {table} {bound};"]

    def dropped(self, table):
        if self.engine == "sqlite" or not self.chance(0.2):
            return []
        return [f'ALTER TABLE {table} ADD "~old" int;', f'ALTER TABLE {table} DROP "~old";']
