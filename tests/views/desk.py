"""Tables of a desk, and what a server says of expressions over them, for tests without a server."""

from whview.views import tree
from whview.views.asked import Judged, Relation, TableColumn
from whview.views.decompose import Blocks, View
from whview.views.expanded import Expanded
from whview.views.keeping import Keeping
from whview.views.leaves import Leaves
from whview.views.pulled import Pulled
from whview.views.words import PostgreSQLWords

AGGREGATES = frozenset(("count", "sum", "avg", "min", "max", "string_agg", "array_agg"))
TYPES = {"id": "int4", "owner": "int4", "town": "text", "name": "text", "hours": "numeric", "opened": "timestamp", "person": "int4", "day": "int4"}
SHOWN = {"int4": "integer", "text": "text", "numeric": "numeric(6,2)", "timestamp": "timestamp without time zone", "bool": "boolean"}


def relation(name, columns, letter="r", definition=None, key=("id",)):
    listed = tuple(TableColumn(each, each in key, SHOWN[TYPES[each]]) for each in columns)
    return Relation("public", name, letter, definition, listed, tuple(key) if {*key} <= {*columns} and letter == "r" else ())


RELATIONS = {
    ("public", each.name): each
    for each in (
        relation("people", ["id", "name", "town"]),
        relation("tickets", ["id", "owner", "hours", "opened"]),
        relation("visits", ["person", "day", "hours"], key=("person", "day")),
        relation("londoners", ["id", "name"], "v", " SELECT people.id,\n    people.name\n   FROM public.people\n  WHERE (people.town = 'London'::text);"),
        relation("kept", ["id"], "m", "SELECT 1"),
    )
}


def judged(kind, called=(), **more):
    """What a server says of an expression of a type."""
    modifier = (6 << 16 | 2) + 4 if kind == "numeric" else -1
    said = {"mutable": None, "is_foreign": False, "raises": False, "is_strict": True, **more}
    return Judged(SHOWN[kind], kind, "b", modifier, True, None, said["mutable"], frozenset(called), said["is_foreign"], said["raises"], said["is_strict"], None, False)


def told(relation, text, is_column):
    """What it says of one over a row r."""
    if is_column:
        return judged(TYPES[text.removeprefix("r.")])
    if text.startswith("COALESCE"):
        return judged("text", is_strict=False)
    if "IS NULL" in text:
        return judged("bool", is_strict=False)
    return judged("bool", ["texteq" if "'" in text else "numeric_gt"])


class Read:
    """A view that is taken apart."""

    def __init__(self, text):
        expanded = Expanded(RELATIONS)
        statement = Pulled(AGGREGATES).query(expanded.query(tree.parsed(text)))
        wanted = Leaves(expanded.items, AGGREGATES, {}).wanted(statement)
        answers = {(relation, said): told(relation, said, is_column) for relation, each in wanted.items() for said, is_column in each.items()}
        self.keeping = Keeping("wh", ["v"], PostgreSQLWords())
        leaves = Leaves(expanded.items, AGGREGATES, answers)
        self.query = tree.printed(Blocks(View("v", expanded.inner), expanded.items, leaves, self.keeping).query(statement))
        self.kept = {each.name: each for each in self.keeping.decomposition.kept}
        self.mirrors = {each.name: each for each in self.keeping.decomposition.mirrors}
