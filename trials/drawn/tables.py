"""Nights that are drawn: their views and rows, the forms of their tables, what the tables stand in, and whether they have to go through."""

from trials.drawn.nights import draw_views
from trials.drawn.scripts import drawn_strategy
from trials.drawn.views import chance
from trials.servers.databases import Client, in_folder, quoted
from trials.servers.postgresql import Broken
from trials.tables.filled import Filled, inserted, plainly
from trials.tables.forms import Forms
from trials.tables.given_nights import Night, written
from trials.tables.judged import Judged, is_sentence
from trials.tables.keyed import KeyedDrawer, comes, leaving_keys

HARD_VIEWS = ["x" * 63 + "a", "x" * 63 + "b", "x" * 63, "select", "User", "user", "USER", "true", "n", "net", "pg_class", "t1", "pg_authid",
              "night", "rowid", "ctid", "information_schema", "excluded", "_"]
HARD_COLUMNS = ["Key", "rowid", "xmin", "key", "found", "KEY", "y" * 63 + "a", "y" * 63 + "b", "true", "false", "n", "ctid", "tableoid", "c1", "t1", "net", "null",
                "oid", "select", "current_user", "count", "_rowid_", "place", "d", "t", "default"]
ENCODINGS = {"": ["UTF8", "UTF8", "LATIN1", "SQL_ASCII"], "latin": ["UTF8", "LATIN1", "SQL_ASCII"]}


class DrawnNight(Night):
    """A night over drawn views, in which keys stay unique."""

    def __init__(self, source, program, engine):
        drawer = KeyedDrawer(source)
        draw_views(drawer)
        drawer.draw_keys()
        self.is_hard = chance(source, 0.3)
        if self.is_hard:
            rename(source, drawer.views, HARD_VIEWS + (["new", "old"] if engine == "postgresql" else []))
        plain = [v for v, view in enumerate(drawer.views) if not view.over and chance(source, 0.5)]
        records, changes = [], []
        for v, view in enumerate(drawer.views):
            records.append([] if view.over else drawer.drawn_records(v, v in plain))
            changes.append([] if view.over else drawer.drawn_changes(v, records[v], v in plain))
        if chance(source, 0.08):
            changes[0] = [*changes[0], (drawer.row(drawer.views[0]), -1)]
        super().__init__(drawer.views, records, changes, plain=plain)
        self.keys = drawer.keys
        self.strategy = drawn_strategy(self.words, source)
        self.before, self.after, self.told = self.contents(program)

    def drawn_rows(self, v):
        """The rows that a view's table may have."""
        return [*self.before[v], *(self.after or self.before)[v]]

    def key(self, v):
        """The key that a view may be given: that of a base view, or a summary's groups."""
        view = self.views[v]
        if not view.over:
            return self.keys.get(v)
        return list(range(len(view.group))) or None if view.keep is None else None


def rename(source, views, names):
    for name, view in zip(source.sample(names, len(views)), views):
        view.name = name
        view.columns = [(column, kind) for column, (_, kind) in zip(source.sample(HARD_COLUMNS, len(view.columns)), view.columns)]


class DrawnTables:
    """The tables of a night in a database: their forms, what refers to them, and who runs the night."""

    def __init__(self, source, database, night):
        self.source, self.database, self.night = source, database, night
        self.is_postgresql = database.engine == "postgresql"
        self.schema = source.choice(["public", "public", "warehouse", "Sales"]) if self.is_postgresql else "main"
        self.role = source.choice(["postgres", "clerk"]) if self.is_postgresql else ""
        self.client = self.drawn_client()
        self.tables, self.forms = [], []
        self.reasons, self.may, self.touched = [], [], []

    def drawn_client(self):
        if not self.is_postgresql:
            return Client(("-bail",), name=self.source.choice(["shell", "executescript", "statements"]))
        encoding = self.source.choice(ENCODINGS["" if self.database.encoding == "UTF8" else "latin"])
        stops = self.source.choice([("-v", "ON_ERROR_STOP=1"), (), ("-v", "ON_ERROR_ROLLBACK=on")])
        return Client(stops, {"PGCLIENTENCODING": encoding}, chance(self.source, 0.3))

    def words(self, *more):
        schema = ["--schema", self.schema] if self.schema not in ("public", "main") else []
        return ["--engine", self.database.engine, *schema, *self.night.option(), *more]

    # ---- making the tables

    def made_by_command(self, folder):
        """The tables as --create makes them, by which names are told."""
        script = written(*self.words("--create"), folder)
        if script.status:
            raise Broken(f"--create: {script.told}")
        told = self.database.run(script.text)
        if told:
            raise Broken(f"--create: {told}")
        return self.database.listed()

    def draw(self, folder):
        self.database.fresh(self.schema, ["books"])
        is_created = self.night.is_hard or chance(self.source, 0.2)
        self.tables = named(self.night, self.made_by_command(folder)) if is_created else list(map(plainly, self.night.views))
        forms = Forms(self.source, self.database, self.night, self.tables)
        filled = Filled(self.database, self.night, self.tables)
        self.forms = [forms.drawn(v, self.key(v)) if chance(self.source, 0.75) else None for v in range(len(self.tables))]
        made, finished = [], []
        for v, form in enumerate(self.forms):
            made += self.table(v, form, forms, filled, is_created)
            finished += form.filled if form else []
        made += self.references(forms) + self.audited(forms)
        self.database.make(made + self.granted())
        self.open(folder, filled)
        self.database.make(finished or ["SELECT 1;"])
        self.judge_forms()

    def key(self, v):
        """The key that a view's table is given: a summary's groups may be none."""
        return None if self.night.views[v].over and chance(self.source, 0.3) else self.night.key(v)

    def table(self, v, form, forms, filled, is_created):
        """A table in its form, with its rows and changes where it is a base view's."""
        table, made = self.tables[v], []
        if form:
            made += [f"DROP TABLE {forms.name(table.name)};"] if is_created else []
            made += forms.made(v, form)
            table.others, table.key = form.others, form.key
        elif not is_created:
            made += filled.made(v)
        if self.night.views[v].over:
            return made
        return made + ([] if is_created else filled.made_changes(v)) + filled.base_rows(v) + filled.changed(v)

    def open(self, folder, filled):
        """The derived views are filled by --open, or where that may be refused as they have to be."""
        derived = self.night.words.derived
        is_sure = all(form is None or not (form.lacks or form.is_unfit) for form in self.forms)
        if not is_sure or chance(self.source, 0.6):
            self.database.make([line for v in derived for line in filled.rows(v, self.night.before[v])] or ["SELECT 1;"])
            return
        script = written(*self.words("--open"), folder)
        told = script.told if script.status else self.database.run(script.text, self.client)
        if told:
            raise Broken(f"--open: {told}")

    def granted(self):
        """What someone who owns nothing needs."""
        if not self.is_postgresql:
            return []
        schemas = ", ".join(map(quoted, self.database.schemas))
        self.database.role = self.role
        return [
            f"GRANT USAGE ON SCHEMA {schemas} TO clerk;",
            f"GRANT SELECT, INSERT, UPDATE, DELETE ON ALL TABLES IN SCHEMA {schemas} TO clerk;",
            f"GRANT USAGE ON ALL SEQUENCES IN SCHEMA {schemas} TO clerk;",
        ]

    # ---- what stands beside

    def outside(self, name):
        return f"books.{quoted(name)}" if self.is_postgresql else quoted(name)

    def references(self, forms):
        """Tables of others that refer to keys."""
        found = []
        for v, form in enumerate(self.forms):
            if form is None or form.key is None or self.night.views[v].over or not chance(self.source, 0.4):
                continue
            action = self.source.choice(["NO ACTION", "NO ACTION", "CASCADE", "SET NULL"])
            found += self.reference(forms, v, form.key, action)
        return found

    def reference(self, forms, v, key, action):
        """A table that refers to rows that are there and, where nothing else happens to it, stay."""
        there = {tuple(row[place] for place in key) for row in self.night.before[v]}
        gone = leaving_keys(self.night.before[v], (self.night.after or self.night.before)[v], key)
        rows = sorted(there - gone if action == "NO ACTION" else there, key=repr)
        rows = [row for row in rows if chance(self.source, 0.7)]
        names = [self.tables[v].columns[place] for place in key]
        kinds = {"int": "bigint", "text": "text"}
        columns = ", ".join(f"{quoted(name)} {kinds[self.night.views[v].columns[place][1]]}" for name, place in zip(names, key))
        listed, table = ", ".join(map(quoted, names)), self.outside(f"refers to {v}")
        later = self.source.choice(["", "DEFERRABLE INITIALLY DEFERRED"])
        self.forms[v].told.append(f"{action} {later}")
        on = forms.on(v)
        if action != "NO ACTION" and gone and self.database.refers:
            (self.reasons if set(rows) & gone else self.may).append("refused cascade")
        key_of = f"FOREIGN KEY ({listed}) REFERENCES {on} ({listed}) ON DELETE {action} {later}"
        return [f"CREATE TABLE {table} ({columns}, {key_of});", *inserted(table, names, rows)]

    def audited(self, forms):
        """Triggers that keep a book and change nothing."""
        found = []
        for v in range(len(self.tables)):
            if chance(self.source, 0.1):
                found += self.book(forms, v)
        return found

    def book(self, forms, v):
        book, name = self.outside(f"book {v}"), quoted(f"kept {v}")
        self.touched.append(f"books.book {v}" if self.is_postgresql else f"book {v}")
        made = [f"CREATE TABLE {book} (told text);"]
        if not self.is_postgresql:
            happening = self.source.choice(["INSERT", "DELETE", "UPDATE"])
            return made + [f"CREATE TRIGGER {name} AFTER {happening} ON {forms.on(v)} BEGIN INSERT INTO {book} VALUES ('done'); END;"]
        function, told = f"books.{name}", f"INSERT INTO {book} VALUES (TG_OP);"
        return made + [
            f"CREATE FUNCTION {function}() RETURNS trigger LANGUAGE plpgsql AS $$ BEGIN {told} RETURN NULL; END $$;",
            f"CREATE TRIGGER {name} AFTER INSERT OR UPDATE OR DELETE ON {forms.on(v)} FOR EACH ROW EXECUTE FUNCTION {function}();",
        ]

    # ---- whether it has to go through

    def judge_forms(self):
        """Why the night has to be refused, and why it may be."""
        self.reasons += ["refused absent"] if self.night.told else []
        for v, form in enumerate(self.forms):
            if form and form.is_unfit:
                self.reasons.append("")
            if form and form.lacks and self.night.after:
                self.judge_lacking(v, form)

    def judge_lacking(self, v, form):
        """A row that comes without what a column of others has to have."""
        view, before, after = self.night.views[v], self.night.before[v], self.night.after[v]
        is_summary = bool(view.over) and view.keep is None
        if comes(before, after, form.key, is_summary or v in self.night.plain):
            hidden = is_summary and form.key is None
            (self.may if hidden else self.reasons).append("no default")


def named(night, listed):
    """The tables of a night by the names that --create gave them, in its order."""
    tables, rest = [], list(listed)
    for view in night.views:
        table = plainly(view)
        table.name, table.columns = rest.pop(0)
        table.columns = [column for column in table.columns if column != "#"]
        if not view.over:
            table.changes, _ = rest.pop(0)
        tables.append(table)
    return tables


class TriedNight:
    """A drawn night in drawn tables, carried out and judged."""

    def __init__(self, source, database, program):
        self.database = database
        self.night = DrawnNight(source, program, database.engine)
        self.drawn = DrawnTables(source, database, self.night)
        self.end = "carried out"

    def mistakes(self):
        with in_folder() as folder:
            self.night.folder(folder)
            try:
                self.drawn.draw(folder)
            except Broken as fault:
                return [f"the tables: {fault}"]
            before = self.database.state()
            opened = Judged(self.database, self.night, self.drawn.tables, before, before)
            wrong = [text for v in self.night.words.derived for text in opened.wrong_rows(v, self.drawn.tables[v], self.night.before[v])]
            if wrong:
                return [f"--open: {text}" for text in wrong]
            script = written(*self.drawn.words(), folder)
        told = script.told if script.status else self.database.run(script.text, self.drawn.client)
        judged = Judged(self.database, self.night, self.drawn.tables, before, self.database.state())
        return self.refused(judged, told) if told else self.done(judged)

    def done(self, judged):
        if self.drawn.reasons:
            return [f"it was carried out, and should be refused: {self.drawn.reasons}; {judged.refused()[:2]}"]
        return judged.done(self.night.after, self.drawn.touched)

    def refused(self, judged, told):
        found = judged.refused()
        expected = self.drawn.reasons + self.drawn.may
        self.end = next((reason for reason in expected if reason in told), "refused") or "refused"
        if not expected:
            found.append(f"it was refused: {told.strip()[:900]}")
        elif not any(reason in told for reason in expected):
            found.append(f"the refusal says none of {expected}: {told.strip()[:900]}")
        elif not is_sentence(told):
            found.append(f"the refusal is no sentence: {told.strip()[:900]}")
        return found

    def told(self):
        """What was drawn, for whoever looks into a mistake."""
        forms = {table.name: form.told for table, form in zip(self.drawn.tables, self.drawn.forms) if form}
        return f"{forms}, schema {self.drawn.schema}, role {self.drawn.role}, {self.drawn.client}, {self.database.encoding}"
