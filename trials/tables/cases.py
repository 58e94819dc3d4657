"""What a case is: a small warehouse over tables of the user's own, a night, and what has to come of it."""

from dataclasses import dataclass, field

from trials.servers.databases import Client, in_folder
from trials.servers.postgresql import Broken
from trials.tables.filled import Filled, plainly
from trials.tables.given_nights import Night, begun, written
from trials.tables.judged import Judged, is_sentence
from whview.catalogue.from_bundle import views_of

DONE, REFUSED, EITHER = "is carried out", "is refused", "is carried out or refused"

SHOP = """
[[view]]
name = "products"
columns = ["product:text", "price"]
[[view]]
name = "lines"
columns = ["id", "product:text", "pieces"]
[[view]]
name = "sales"
over = ["lines", "products"]
join = [["lines.product", "products.product"]]
keep = [["id", "lines.id"], ["product", "lines.product"], ["cost", ["*", "lines.pieces", "products.price"]]]
[[view]]
name = "by_product"
over = ["sales"]
group = [["product", "sales.product"]]
count = "n"
sum = [["cost", "sales.cost"]]
"""
PRODUCTS = [("tea", 300), ("jam", 450)]
LINES = [(1, "tea", 2), (2, "jam", 1), (3, "jam", 4)]
ROWS = {"products": PRODUCTS, "lines": LINES}
TEA_GOES = {"products": [(("tea", 300), -1)]}
JAM_IS_DEARER = {"products": [(("jam", 450), -1), (("jam", 475), 1)]}
ALE_COMES = {"products": [(("ale", 220), 1)]}


@dataclass
class Case:
    """A case: what makes tables otherwise than plainly (`own`), statements after they are filled, which columns of others and which keys
    they have, what is wanted (and a word of the refusal), and by which client the night is run."""

    name: str
    engine: str
    changes: dict
    own: dict = field(default_factory=dict)
    more: list = field(default_factory=list)
    wanted: str = DONE
    word: str = ""
    client: Client = None
    catalogue: str = SHOP
    rows: dict = field(default_factory=lambda: ROWS)
    counted: tuple = ()
    others: dict = field(default_factory=dict)
    keys: dict = field(default_factory=dict)
    touched: tuple = ()
    database: str = ""
    role: str = "postgres"
    times: int = 1
    never: str = None

    def night(self):
        views = views_of(self.catalogue)
        base = [v for v, view in enumerate(views) if not view.over]
        records = [[counted_row(row) for row in self.rows.get(view.name, [])] for view in views]
        changes = [self.changes.get(view.name, []) for view in views]
        plain = [v for v in base if views[v].name not in self.counted]
        found = Night(views, records, changes, plain=plain)
        found.text = self.catalogue
        return found

    def tables(self, night):
        found = [plainly(view) for view in night.views]
        for table in found:
            table.others, table.key = self.others.get(table.name, []), self.keys.get(table.name)
        return found


def counted_row(row):
    """A row with its count, which is 1 where none is given."""
    return row if isinstance(row[0], tuple) else (row, 1)


class Tried:
    def __init__(self, case, database):
        self.case, self.database, self.night = case, database, case.night()
        self.tables = case.tables(self.night)

    def made(self):
        """The tables, filled as before the night."""
        case, filled, found = self.case, Filled(self.database, self.night, self.tables), []
        self.before, self.after, self.told = self.night.contents()
        for v, view in enumerate(self.night.views):
            found += case.own.get(view.name) or filled.made(v)
            changes = f"{view.name}~changes"
            found += [] if view.over else case.own.get(changes) or filled.made_changes(v)
        for v, view in enumerate(self.night.views):
            found += filled.rows(v, self.before[v])
            found += filled.changed(v) if f"{view.name}~changes" not in case.own else []
        return found + case.more

    def run(self):
        """What is told of the night, by whview sql or by the engine, or None."""
        with in_folder() as folder:
            script = written("--engine", self.database.engine, *self.night.option(), self.night.folder(folder))
        if script.status:
            return script.told + ("" if not begun(self.database.engine, script.text) else " Traceback: and a script was written all the same")
        text = self.written(script.text)
        self.is_changed = text != script.text
        return self.database.run(text, self.case.client or self.database.own_client)

    def written(self, text):
        """The script that is run: what whview sql writes."""
        return text * self.case.times

    def mistakes(self):
        """What comes otherwise than it is wanted."""
        self.database.fresh()
        try:
            self.database.make(self.made())
        except Broken as fault:
            return [f"the tables: {fault}"]
        self.database.role = self.case.role
        before = self.database.state()
        told = self.run()
        judged = Judged(self.database, self.night, self.tables, before, self.database.state())
        return self.refusals(judged, told) if told else self.done(judged)

    def done(self, judged):
        if self.case.wanted == REFUSED or self.after is None:
            changed = "; ".join(judged.refused())[:300]
            return [f"it was carried out, and should be refused; {changed}"]
        return judged.done(self.after, self.case.touched)

    def refusals(self, judged, told):
        found = judged.refused()
        if self.case.wanted == DONE:
            found.append(f"it was refused: {told.strip()[:600]}")
        elif self.case.word not in told:
            found.append(f"the refusal does not say {self.case.word!r}: {told.strip()[:600]}")
        elif self.case.never and self.case.never in told:
            found.append(f"the refusal says {self.case.never!r}: {told.strip()[:600]}")
        elif not is_sentence(told) and not told.startswith("whview sql: "):
            found.append(f"the refusal is no sentence: {told.strip()[:600]}")
        return found
