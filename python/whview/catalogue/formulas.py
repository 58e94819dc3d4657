"""The formulas of a derived view: their form, the columns that they name, and their kinds."""

import re
from collections.abc import Callable, Mapping
from importlib import import_module
from typing import NamedTuple, Protocol, TypeAlias

from ..finding import Place, nearest
from .views import Kind

COMPARED, EQUAL, COUNTED = ("=", "<>", "<", "<=", ">", ">="), ("=", "<>"), ("+", "-", "*")
NAME = re.compile(r"[A-Za-z_][A-Za-z0-9_]{0,63}")
DEEPEST, MOST_COLUMNS, MOST = 64, 64, 2**63
EXPRESSION = 'a whole number, a column such as "child.x", { text = "..." } or ["+", E, E] with one of + - *'
PREDICATE = 'true, ["=", E, E] with one of = <> < <= > >=, ["all", P, ...], ["any", P, ...] or ["not", P]'


# What leads to a value: a key, and the numbers and keys of the members that it stands in.
Path: TypeAlias = tuple[str | int, ...]
# A value of the catalogue, which is judged before it is anything else.
Given: TypeAlias = object


class Found(Protocol):
    """Keeps what is found at a place."""

    def __call__(self, place: Place, text: str, /) -> None: ...


class Located(Protocol):
    """A view of the catalogue, whose keys have places."""

    @property
    def name(self) -> str: ...

    @property
    def table(self) -> Mapping[str, Given]: ...

    def place(self, key: str, /, *path: str | int) -> Place: ...


class Named(NamedTuple):
    """A column of a key that has pairs: the number of its pair, its name and its kind."""

    number: int
    name: str
    kind: Kind


class Formulas:
    """Judges what stands in a view's keys. `kinds` has the kind of each column of its children; `find` takes a place and a text."""

    def __init__(self, view: Located, kinds: Mapping[str, Kind], find: Found) -> None:
        self.view, self.kinds, self.find = view, kinds, find

    def wrong(self, path: Path, text: str) -> None:
        """Finds what is wrong at a path: a key, and the numbers of the members that lead to it."""
        key, *members = path
        self.find(self.view.place(str(key), *members), f"{self.view.name}: {text}")

    # ---- expressions

    def expression(self, formula: Given, path: Path, depth: int = 1) -> Kind | None:
        """The kind of an expression, or None where it is wrong."""
        if depth > DEEPEST:
            self.wrong(path, "a formula is 64 deep at most")
        elif isinstance(formula, str):
            return self.reference(formula, path)
        elif isinstance(formula, int) and not isinstance(formula, bool):
            return Kind.INT
        elif isinstance(formula, float):
            self.wrong(path, f"{formula} is not a whole number (keep cents)")
        elif isinstance(formula, dict) and set(formula) == {"text"} and isinstance(formula["text"], str):
            return Kind.TEXT
        elif isinstance(formula, list) and len(formula) == 3 and formula[0] in COUNTED:
            return self.counted(formula, path, depth)
        else:
            self.wrong(path, f"this is no expression, which is {EXPRESSION}")
        return None

    def reference(self, reference: str, path: Path) -> Kind | None:
        """The kind of the column that is referred to, or None where there is none."""
        if reference in self.kinds:
            return self.kinds[reference]
        child, dot, _ = reference.partition(".")
        there = [known for known in self.kinds if known.startswith(child + ".")] if dot else []
        told = f"{child} has {', '.join(known.partition('.')[2] for known in there)}" if there else f"there are {', '.join(self.kinds)}"
        quoted = import_module("json").dumps(reference, ensure_ascii=False)
        text = "" if dot else f"; a text is {{ text = {quoted} }}"
        self.wrong(path, f'there is no column "{reference}"; {told}{nearest(reference, self.kinds)}{text}')
        return None

    def counted(self, formula: list[Given], path: Path, depth: int) -> Kind:
        """A sum, a difference or a product: each side is a number."""
        for number in (1, 2):
            if self.expression(formula[number], (*path, number), depth + 1) == Kind.TEXT:
                self.wrong((*path, number), f"a text stands in no arithmetic, and here it does at {formula[0]}")
        return Kind.INT

    # ---- predicates

    def predicate(self, formula: Given, path: Path, depth: int = 1) -> None:
        """Judges a predicate."""
        if depth > DEEPEST:
            self.wrong(path, "a formula is 64 deep at most")
        elif formula is True:
            pass
        elif isinstance(formula, list) and len(formula) == 3 and formula[0] in COMPARED:
            self.comparison(formula, path, depth)
        elif isinstance(formula, list) and formula and (formula[0] in ("all", "any") or (formula[0] == "not" and len(formula) == 2)):
            for number, member in enumerate(formula[1:], 1):
                self.predicate(member, (*path, number), depth + 1)
        else:
            self.wrong(path, f"this is no predicate, which is {PREDICATE}")

    def comparison(self, formula: list[Given], path: Path, depth: int) -> None:
        """A comparison: both sides are of one kind, and texts are equal or not."""
        kinds = [self.expression(formula[number], (*path, number), depth + 1) for number in (1, 2)]
        if None in kinds:
            return
        if kinds[0] != kinds[1]:
            self.wrong(path, f"{kinds[0]} is compared with {kinds[1]}; both sides are of one kind")
        elif kinds[0] == Kind.TEXT and formula[0] not in EQUAL:
            self.wrong((*path, 0), f"texts are compared by = and <> alone, and not by {formula[0]}")

    # ---- keys

    def join(self, pairs: Given) -> None:
        """The pairs of references that have to be equal."""
        if not isinstance(pairs, list):
            self.wrong(("join",), 'join is an array of pairs of columns, such as [["a.x", "b.x"]]')
            return
        for number, pair in enumerate(pairs):
            if not isinstance(pair, list) or len(pair) != 2 or not all(isinstance(side, str) for side in pair):
                self.wrong(("join", number), 'a pair of join is two columns, such as ["a.x", "b.x"]')
                continue
            kinds = [self.reference(side, ("join", number, at)) for at, side in enumerate(pair)]
            if None not in kinds and kinds[0] != kinds[1]:
                self.wrong(("join", number), f"{pair[0]} is {kinds[0]} and {pair[1]} is {kinds[1]}; a pair is of one kind")

    def named(self, key: str, judged: Callable[[Given, Path], Kind | None]) -> list[Named]:
        """The columns of a key that has pairs of a name and what it is, each judged; a column that is wrong has the kind int."""
        pairs = self.view.table.get(key, [])
        found: list[Named] = []
        if not isinstance(pairs, list) or (key == "keep" and not pairs):
            self.wrong((key,), f'{key} is an array of pairs of a name and what it is, such as [["x", "child.x"]]')
            return found
        if len(pairs) > MOST_COLUMNS:
            self.wrong((key,), f"{key} has {len(pairs)} columns; 64 are the most")
        for number, pair in enumerate(pairs):
            if not isinstance(pair, list) or len(pair) != 2 or not isinstance(pair[0], str) or not NAME.fullmatch(pair[0]):
                self.wrong((key, number), f'a pair of {key} is a name and what it is, such as ["x", "child.x"]')
                continue
            found.append(Named(number, pair[0], judged(pair[1], (key, number, 1)) or Kind.INT))
        return found

    def grouped(self, reference: Given, path: Path) -> Kind | None:
        """A group is by a column."""
        if isinstance(reference, str):
            return self.reference(reference, path)
        self.wrong(path, 'a group is by a column, such as "child.x"')
        return None

    def summed(self, formula: Given, path: Path) -> Kind:
        """What is summed is a number."""
        if self.expression(formula, path) == Kind.TEXT:
            self.wrong(path, "a text stands in no sum")
        return Kind.INT
