"""What is kept, as it is gathered from view to view: mirrors of tables with their row expressions, and views over them."""

from __future__ import annotations

import re
from collections.abc import Iterable, Mapping

from . import tree
from .asked import Judged, Relation, named
from .kinds import Encoding
from .leaves import Leaf
from .record import MOST_COLUMNS, MOST_VIEWS, Decomposition, Formula, Kept, Mirror, RowExpression
from .refused import Refused
from .words import Words

NAME = re.compile(r"[A-Za-z_][A-Za-z0-9_]{0,50}")


class Keeping:
    """Gathers what is kept; what is asked for twice is kept once."""

    def __init__(self, schema: str, read_names: Iterable[str], words: Words, names: Mapping[str, str] | None = None,
                 most_mirrored: int = MOST_COLUMNS) -> None:
        self.schema, self.decomposition, self.words, self.names, self.most_mirrored = schema, Decomposition(), words, names or {}, most_mirrored
        self.mirrors: dict[Relation, Mirror] = {}
        self.used = {name.lower() for name in read_names}
        self.again: dict[tuple[str, int], Kept] = {}

    # ---- mirrors

    def mirror(self, relation: Relation, keys: Iterable[tuple[str, Judged]]) -> Mirror:
        """The mirror of a table, with its key where that can be kept."""
        if relation in self.mirrors:
            return self.mirrors[relation]
        if not NAME.fullmatch(relation.name):
            raise Refused(f"the table {relation.name}", "its name has other letters than A to Z and digits, or is too long", "rename it")
        made = Mirror(relation.schema, relation.name, named=self.names.get(relation.name, ""))
        if made.name.lower() in self.used:
            raise Refused(f"the table {relation.name}", "a view that is taken, or another table, has its name", "take one of them apart, by --schema")
        self.mirrors[relation] = made
        self.decomposition.mirrors.append(made)
        self.used.add(made.name.lower())
        self.keyed(made, list(keys))
        return made

    def keyed(self, mirror: Mirror, keys: list[tuple[str, Judged]]) -> None:
        """A mirror has the key of its table where each column of it is kept so that equal ones are alike."""
        hows = [(name, how) for name, judged in keys if (how := self.words.encoding(judged)) and how.family and NAME.fullmatch(name)]
        if keys and len(hows) == len(keys):
            for name, how in hows:
                expression = tree.printed(tree.column("r", name))
                mirror.columns.append(RowExpression(name, how.kind, how.kept(expression, True), (name,)))
            mirror.key = tuple(name for name, _ in hows)

    def column(self, mirror: Mirror, kind: str, expression: str, reads: frozenset[str], wanted: str | None = None) -> str:
        """The column of a mirror that keeps an expression."""
        there = next((each.name for each in mirror.columns if each.expression == expression and each.kind == kind), None)
        if there is not None:
            return there
        if len(mirror.columns) == self.most_mirrored:
            raise Refused(f"the table {mirror.table}", f"more than {self.most_mirrored} columns would be kept of it", "take fewer views, or fewer columns")
        names = {each.name for each in mirror.columns}
        fits = wanted is not None and NAME.fullmatch(wanted) and wanted not in names
        name = wanted if fits and wanted else next(f"x{at}" for at in range(1, 999) if f"x{at}" not in names)
        mirror.columns.append(RowExpression(name, kind, expression, tuple(sorted(reads))))
        return name

    # ---- views

    def view(self, kept: Kept, name: str) -> Kept:
        """A view that is kept, under a name like this one."""
        for each in self.decomposition.kept:
            alike = (each.over, each.join, each.where, each.outputs, each.is_summary, each.sums)
            if alike == (kept.over, kept.join, kept.where, kept.outputs, kept.is_summary, kept.sums):
                return each
        self.judge_width(len(kept.outputs) + len(kept.sums) + kept.is_summary, name)
        kept.name = self.free_name(name)
        self.decomposition.kept.append(kept)
        return kept

    def judge_width(self, many: int, name: str) -> None:
        """Refuses a view of more columns than a catalogue takes."""
        if many > MOST_COLUMNS:
            raise Refused(f"the view {name}", f"more than {MOST_COLUMNS} columns would be kept for it", "have fewer columns in it")

    def free_name(self, wanted: str) -> str:
        """A name that nothing else has."""
        plain = re.sub(r"[^A-Za-z0-9_]", "_", wanted)[:48] or "v"
        plain = plain if NAME.fullmatch(plain) else f"v{plain}"[:48]
        name = next(f"{plain}_{at}" for at in range(1, 999) if f"{plain}_{at}".lower() not in self.used)
        self.used.add(name.lower())
        return name

    def twice(self, mirror: Mirror, at: int) -> Kept:
        """The keeping view of a table that stands in a query once more."""
        if (mirror.table, at) not in self.again:
            kept = Kept(self.free_name(f"{mirror.table}_again"), [mirror.name])
            self.again[mirror.table, at] = kept
            self.decomposition.kept.append(kept)
        return self.again[mirror.table, at]

    def judged_whole(self) -> None:
        """Refuses more views than a warehouse has."""
        many = len(self.decomposition.mirrors) + len(self.decomposition.kept)
        if many > MOST_VIEWS:
            raise Refused("all of them together", f"{many} tables and views would be kept, and a warehouse has {MOST_VIEWS}", "take others in another schema or folder")


class Joined:
    """Items of a FROM that are joined, each a mirror or a keeping view of one, in the words of a catalogue."""

    def __init__(self, keeping: Keeping, relations: dict[str, Relation], judged: dict[tuple[Relation, str], Judged]) -> None:
        self.keeping, self.relations, self.kept_of = keeping, relations, dict[str, Kept]()
        self.mirrors = {
            alias: keeping.mirror(relation, [(name, judged[relation, name]) for name in relation.key if (relation, name) in judged])
            for alias, relation in relations.items()
        }
        seen: dict[Relation, int] = {}
        for alias, relation in relations.items():
            seen[relation] = seen.get(relation, 0) + 1
            if seen[relation] > 1:
                self.kept_of[alias] = keeping.twice(self.mirrors[alias], seen[relation] - 1)

    def over(self) -> list[str]:
        """The names of the views that are joined."""
        return [self.kept_of[alias].name if alias in self.kept_of else mirror.name for alias, mirror in self.mirrors.items()]

    def reference(self, alias: str, kind: str, expression: str, reads: frozenset[str], wanted: str | None = None) -> str:
        """A column that keeps an expression over an item's row, by its name in the catalogue."""
        mirror = self.mirrors[alias]
        name = self.keeping.column(mirror, kind, expression, reads, wanted)
        if alias not in self.kept_of:
            return f"{mirror.name}.{name}"
        kept = self.kept_of[alias]
        if (name, f"{mirror.name}.{name}") not in kept.outputs:
            self.keeping.judge_width(len(kept.outputs) + 1, kept.name)
            kept.outputs.append((name, f"{mirror.name}.{name}"))
        return f"{kept.name}.{name}"

    def leaf(self, leaf: Leaf) -> str:
        """A column that keeps a leaf."""
        wanted = leaf.text.removeprefix("r.") if leaf.text.startswith("r.") and len(leaf.reads) == 1 else None
        return self.reference(leaf.alias, leaf.encoding.kind, leaf.kept(), leaf.reads, wanted)

    def flag(self, alias: str, test: str, reads: frozenset[str]) -> str:
        """A column that is 1 where a test is true, and 0 where it is false or unknown."""
        return self.reference(alias, "int", self.keeping.words.flag(test), reads)

    def complete(self) -> None:
        """Each mirror, and each keeping view, has a column at least."""
        for alias, mirror in self.mirrors.items():
            if not mirror.columns:
                name = self.relations[alias].names[0]
                self.flag(alias, f"r.{named(name)} IS NOT NULL", frozenset([name]))
            if alias in self.kept_of and not self.kept_of[alias].outputs:
                first = mirror.columns[0].name
                self.kept_of[alias].outputs.append((first, f"{mirror.name}.{first}"))


def is_null(reference: str, how: Encoding) -> Formula:
    """That a column of what is kept is not NULL."""
    null: Formula = {"text": "\\N"} if how.kind == "text" else -(2**63)
    return ["<>", reference, null]
