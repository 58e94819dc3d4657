"""A folder's catalogue: its views, and what is wrong with it, place by place."""

from __future__ import annotations

import re
import tomllib
from collections.abc import Iterator, Mapping
from importlib import import_module
from pathlib import Path
from typing import TYPE_CHECKING, Any

from ..disk import what
from ..finding import MARK, MARKED, Finding, Place, nearest
from ..folder import fill
from .formulas import MOST, MOST_COLUMNS, NAME, Formulas
from .toml_places import At, KeyPlaces, ViewPlaces, places, top_place
from .views import Column, Kind

if TYPE_CHECKING:
    from .table_tests import TableTest

FILE = "catalogue.toml"
# The keys of tests, of which `table_tests` tells more: they are judged by nights of folders, and the program does not look at them.
OF_TESTS = ("unique", "one_of", "refers", "least_rows", "most_changed_rows", "most_changed_share")
OF_BASE, OF_JOINED = ("name", "columns", "nulls", "key", "fill", *OF_TESTS), ("name", "over", "join", "where", "keep", *OF_TESTS)
OF_SUMMARY = ("name", "over", "join", "where", "group", "count", "sum", *OF_TESTS)
KEYS = tuple(dict.fromkeys(OF_BASE + OF_JOINED + OF_SUMMARY))
# More digits than these no number of a catalogue has.
LONG = re.compile(r"(?<!\w)[+-]?[0-9][0-9_]{4300,}")
MOST_CHILDREN, MOST_VIEWS, MOST_NESTED = 6, 64, 80
# The key that says how many bytes a night's bundle may have, and the most that it may say.
LENGTH, LONGEST = "max_bytes", 2**40


class CatalogueView:
    """A view as the catalogue has it. It has no columns where they could not be read."""

    def __init__(self, table: Mapping[str, Any], heading: At, keys: Mapping[str, KeyPlaces]) -> None:
        self.table, self.heading, self.keys = table, Place(FILE, *heading), keys
        name = table.get("name")
        self.name = name if isinstance(name, str) else "?"
        over = table.get("over")
        self.over: list[str] = over if isinstance(over, list) else []
        self.is_base = "over" not in table
        self.columns: list[Column] = []

    @property
    def kind(self) -> tuple[str, tuple[str, ...]]:
        """What the view is, and the keys that are looked at in it."""
        if self.is_base:
            return "a base view", OF_BASE
        return ("a joined view", OF_JOINED) if "keep" in self.table else ("a summary", OF_SUMMARY)

    def place(self, key: str, *path: str | int) -> Place:
        """The place of a key, or of the value in it that this path of numbers and keys leads to, as far as it does."""
        if key not in self.keys:
            return self.heading
        if not path:
            return Place(FILE, *self.keys[key].key)
        spot = self.keys[key].value
        for step in path:
            if isinstance(step, str) and isinstance(spot.members, dict) and step in spot.members:
                spot = spot.members[step].value
            elif isinstance(step, int) and isinstance(spot.members, list) and step < len(spot.members):
                spot = spot.members[step]
            else:
                break
        return Place(FILE, *spot.place)

    def value_place(self, key: str) -> Place:
        """The place of a key's value, or of the heading where there is none."""
        return Place(FILE, *self.keys[key].value.place) if key in self.keys else self.heading


def beyond(value: object, path: tuple[int, ...] = ()) -> Iterator[tuple[tuple[int, ...], str]]:
    """What a value has that the program's TOML has not: numbers of more than 64 bits, and arrays too deep, each with its path."""
    if isinstance(value, int) and not -MOST <= value < MOST:
        yield path, "a number has 64 bits at most"
    elif len(path) > MOST_NESTED:
        yield path, "arrays are 80 deep at most"
    elif isinstance(value, list):
        for number, member in enumerate(value):
            yield from beyond(member, (*path, number))


class Catalogue:
    """The views of the catalogue of a folder, or of these bytes, and its findings. What the program passes over is a fault, and where one is
    lenient a warning.
    """

    def __init__(self, source: Path | bytes, lenient: bool = False) -> None:
        self.views: list[CatalogueView] = []
        self.findings: list[Finding] = []
        self.lenient = lenient
        self.all_names: list[object] = []
        self.tests: list[TableTest] = []
        # None where the program's own limit holds.
        self.max_bytes: int | None = None
        content = source if isinstance(source, bytes) else self.content_of(source / FILE)
        self.content = content or b""
        if content is not None:
            self.judge(content)

    def content_of(self, file: Path) -> bytes | None:
        """The bytes of the catalogue's file, or None where there is none that can be read."""
        if file.is_file():
            return file.read_bytes()
        told = f"this {what(file)} is no file that can be read" if file.exists() else "there is no catalogue.toml in this folder"
        self.find(Place(FILE), told)
        return None

    def judge(self, content: bytes) -> None:
        """Reads the views one after another, each judged."""
        text, tables = self.read(content)
        if tables is None:
            return
        if not isinstance(tables, list) or not all(isinstance(table, dict) for table in tables):
            self.find(Place(FILE), "there is no [[view]] in this catalogue")
            return
        self.all_names = [table.get("name") for table in tables]
        where = places(text)
        where += [ViewPlaces((1, 1), {})] * (len(tables) - len(where))
        for table, (heading, keys) in zip(tables, where):
            self.add(CatalogueView(table, heading, keys))
        # What only some catalogues have is imported where it is needed.
        if any(key in table for table in tables for key in ("key", *OF_TESTS)):
            self.tests = import_module("whview.catalogue.table_tests").Declared(self).tests

    @property
    def names(self) -> list[str]:
        return [view.name for view in self.views]

    def find(self, place: Place, text: str, warns: bool = False) -> None:
        """Keeps what is found at a place."""
        self.findings.append(Finding(place, text, warns))

    def read(self, content: bytes) -> tuple[str, object]:
        """The text and its array of views; None for what is no TOML, and False where there is no such array."""
        try:
            text = content.decode()
            if content.startswith(MARK):
                self.find(Place(FILE), MARKED)
                return "", None
            tables = tomllib.loads(text)
            for key in tables:
                self.judge_top(text, key, tables[key])
            return text, tables.get("view", False)
        except UnicodeDecodeError as error:
            self.find(Place(FILE, content[: error.start].count(b"\n") + 1), "this line is not UTF-8")
        except tomllib.TOMLDecodeError as error:
            self.not_toml(str(error), text)
        except ValueError:
            self.long_number(text)
        except RecursionError:
            self.find(Place(FILE), "arrays and tables are 80 deep at most")
        return "", None

    def not_toml(self, error: str, text: str) -> None:
        """A fault of TOML, with its place taken out of the text that tells it."""
        told = re.fullmatch(r"(.*) \(at (?:line (\d+), column (\d+)|end of document)\)", error, re.DOTALL)
        lines = text.count("\n") + 1
        place = Place(FILE, int(told[2] or lines), int(told[3] or 1)) if told else Place(FILE)
        self.find(place, f"this is not TOML: {told[1] if told else error}")

    def long_number(self, text: str) -> None:
        """A number of more digits than Python reads."""
        found = LONG.search(text)
        at = found.start() if found else 0
        self.find(Place(FILE, text.count("\n", 0, at) + 1, at - text.rfind("\n", 0, at)), "a number has 64 bits at most")

    def judge_top(self, text: str, key: str, value: object) -> None:
        """A key of the catalogue itself."""
        if key == LENGTH:
            self.judge_length(text, value)
        elif key != "view":
            told = f"{key} is no part of a catalogue, which has [[view]] and max_bytes alone{nearest(key, ['view', LENGTH])}"
            self.find(Place(FILE, *top_place(text, key)), told, self.lenient)

    def judge_length(self, text: str, value: object) -> None:
        """How many bytes a night's bundle may have."""
        if isinstance(value, int) and not isinstance(value, bool) and 1 <= value <= LONGEST:
            self.max_bytes = value
        else:
            self.find(Place(FILE, *top_place(text, LENGTH)), f"{LENGTH} is a whole number from 1 to {LONGEST:,}")

    # ---- view by view

    def add(self, view: CatalogueView) -> None:
        """Judges a view and adds it."""
        self.judge_name(view)
        for key in view.table:
            self.judge_key(view, key)
        if view.is_base:
            self.judge_base(view)
        else:
            self.judge_derived(view)
        self.views.append(view)

    def judge_key(self, view: CatalogueView, key: str) -> None:
        """A key that is not looked at, and values that the program's TOML has not."""
        what, looked_at = view.kind
        if key not in KEYS:
            self.find(view.place(key), f"{view.name}: unknown key {key}{nearest(key, looked_at)}", self.lenient)
        elif key not in looked_at and not (key == "group" and "keep" in view.table):
            self.find(view.place(key), f"{view.name} is {what}, whose {key} is not looked at; take it out", self.lenient)
        for path, text in beyond(view.table[key]):
            self.find(view.place(key, *path), f"{view.name}: {text}")

    def judge_name(self, view: CatalogueView) -> None:
        if "name" not in view.table:
            self.find(view.heading, "this view has no name")
        elif not isinstance(view.table["name"], str) or not NAME.fullmatch(view.table["name"]):
            self.find(view.value_place("name"), "a name is a letter or underscore, then letters, digits and underscores, 64 at most")
        elif view.name in self.names:
            line = self.views[self.names.index(view.name)].value_place("name").line
            text = f"a view is named {view.name} already, in line {line}; give this one another name, or take one of them out"
            self.find(view.value_place("name"), text)
        if len(self.views) == MOST_VIEWS:
            text = "this is the 65th view, and a catalogue has 64 at most; take those out that nobody reads, or part it in two"
            self.find(view.heading, text)

    def judge_base(self, view: CatalogueView) -> None:
        columns = view.table.get("columns")
        if not isinstance(columns, list) or not columns or not all(isinstance(column, str) for column in columns):
            self.find(view.place("columns"), f'{view.name}: columns is an array such as ["id", "day:text"]; or over is missing')
            return
        self.judge_width(view, "columns", len(columns))
        for number, column in enumerate(columns):
            name, _, kind = column.partition(":")
            if not NAME.fullmatch(name) or kind not in ("", "int", "text") or column.endswith(":"):
                self.find(view.place("columns", number), f'{view.name}: "{column}" is no column; it is "x", "x:int" or "x:text"')
            self.add_column(view, view.place("columns", number), name, Kind.TEXT if kind == Kind.TEXT else Kind.INT)
        for fault in fill.faults(view):
            self.find(view.place(fill.KEY), f"{view.name}: {fault}", self.lenient)

    def judge_width(self, view: CatalogueView, key: str, width: int) -> None:
        if width > MOST_COLUMNS:
            self.find(view.place(key), f"{view.name} has {width} columns; 64 are the most")

    def add_column(self, view: CatalogueView, place: Place, name: str, kind: Kind) -> None:
        if name in dict(view.columns):
            self.find(place, f"{view.name}: the column {name} stands twice")
        view.columns.append(Column(name, kind))

    def judge_derived(self, view: CatalogueView) -> None:
        if not self.judge_over(view):
            return
        children = [self.views[self.names.index(name)] for name in view.over]
        if len(children) > 1 and not view.table.get("join"):
            self.find(view.heading, f"{view.name} is over {len(children)} views without a join: every row meets every row", warns=True)
        if not all(child.columns for child in children):
            return
        kinds = {f"{child.name}.{name}": kind for child in children for name, kind in child.columns}
        formulas = Formulas(view, kinds, self.find)
        formulas.join(view.table.get("join", []))
        formulas.predicate(view.table.get("where", True), ("where",))
        self.columns_of(view, formulas)

    def judge_over(self, view: CatalogueView) -> bool:
        """Whether all children of a view are views before it."""
        over, earlier = view.table["over"], len(self.findings)
        if not isinstance(over, list) or not all(isinstance(name, str) for name in over) or not over:
            example = f'over = ["{self.names[0]}"]' if self.names else 'over = ["orders"]'
            text = f"{view.name}: over names the views above it that it reads, one at least, such as {example}"
            self.find(view.place("over"), f"{text}; a base view has columns and no over")
            return False
        if len(over) > MOST_CHILDREN:
            text = f"{view.name} is over {len(over)} views, and 6 are the most"
            self.find(view.place("over"), f"{text}; join some of them in a view of their own, and have it be over that one")
        for number, name in enumerate(over):
            if name not in self.names:
                self.find(view.place("over", number), self.not_above(view, name))
            elif name in over[:number]:
                text = f"take one out, or for rows of it beside others write a view over {name} and join that one"
                self.find(view.place("over", number), f"{view.name} is over {name} twice; {text}")
        return len(self.findings) == earlier

    def not_above(self, view: CatalogueView, name: str) -> str:
        """What is wrong with a name in `over` that no view above has, and what to write."""
        if name == view.name:
            return f"{view.name} is over itself; a view is over views that stand above it: name one of them in its place"
        if name in self.all_names:
            return f"{view.name} is over {name}, which stands below it; move the [[view]] of {name} above that of {view.name}"
        near = nearest(name, self.names) or (f"; above it are {', '.join(self.names)}" if self.names else "; no view stands above it")
        return f"{view.name} is over {name}, and no view has that name{near}"

    # ---- a derived view's columns

    def columns_of(self, view: CatalogueView, formulas: Formulas) -> None:
        """Judges what a derived view keeps, or groups by, counts and sums, and finds its columns."""
        table = view.table
        if "keep" not in table and "group" not in table:
            self.find(view.heading, f"{view.name}: a derived view has keep or group")
            return
        earlier = len(self.findings)
        found = formulas.named("keep", formulas.expression) if "keep" in table else formulas.named("group", formulas.grouped)
        key = "keep" if "keep" in table else "group"
        for number, name, kind in found:
            self.add_column(view, view.place(key, number, 0), name, kind)
        if "keep" in table and "group" in table:
            self.find(view.place("group"), f"{view.name} has keep and group; it is either a joined view or a summary")
        elif key == "group":
            self.counted_columns(view, formulas)
        if len(self.findings) > earlier:
            view.columns = []

    def counted_columns(self, view: CatalogueView, formulas: Formulas) -> None:
        """A summary's count and sums."""
        count = view.table.get("count")
        if not isinstance(count, str) or not NAME.fullmatch(count):
            self.find(view.place("count"), f"{view.name}: a summary has count, the name of the column that counts")
            return
        self.add_column(view, view.value_place("count"), count, Kind.INT)
        for number, name, kind in formulas.named("sum", formulas.summed):
            self.add_column(view, view.place("sum", number, 0), name, kind)
        self.judge_width(view, "group", len(view.columns))
