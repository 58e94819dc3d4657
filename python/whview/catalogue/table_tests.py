"""The tests that a catalogue has of its tables, which each night has to keep: keys, values that a column may have, rows of another view
that a column refers to, and how many rows stay and change.
"""

from collections.abc import Callable, Iterator
from dataclasses import dataclass
from typing import NamedTuple, TypeAlias

from ..finding import Place, nearest
from .from_toml import Catalogue, CatalogueView
from .views import Kind

KEYS = ("unique", "one_of", "refers", "least_rows", "most_changed_rows", "most_changed_share")
# A row that is put right is two changes, so that a share may be more than 1.
MOST_SHARE = 1000
# What is told of a value of another form.
FORMS = {
    "key": 'an array of columns, such as ["id"]',
    "unique": 'an array of keys, each an array of columns, such as [["id"], ["day", "region"]]',
    "one_of": 'a table of columns with the values of each, such as {state = ["open", "closed"]}',
    "refers": 'a table of columns with the column of another view for each, such as {product = "products.product"}',
    "least_rows": "a whole number from 0",
    "most_changed_rows": "a whole number from 0",
    "most_changed_share": "a part of the rows, such as 0.1",
}


class Reference(NamedTuple):
    """The column of a view that another column refers to."""

    view: str
    column: int


@dataclass(frozen=True, slots=True)
class TableTest:
    """A test of a view's table: its key in the catalogue, where it stands there, the places of its columns, and what these are held
    against: values, as a file has them; a view and the place of its column; or a number.
    """

    view: str
    key: str
    place: Place
    columns: tuple[int, ...] = ()
    against: frozenset[str] | Reference | int | float | None = None

    @property
    def is_key(self) -> bool:
        return self.key in ("key", "unique")


# What makes the tests of a key out of its value.
Reader: TypeAlias = Callable[[CatalogueView, str, object], list[TableTest]]


class Declared:
    """Goes through the views of a catalogue, keeps their tests, and finds what is wrong with them."""

    def __init__(self, catalogue: Catalogue) -> None:
        self.views, self.find = {view.name: view for view in catalogue.views}, catalogue.find
        readers = (self.unique, self.one_of, self.refers, self.least_rows, self.least_rows, self.most_changed_share)
        self.readers: dict[str, Reader] = dict(zip(KEYS, readers))
        self.tests: list[TableTest] = []
        for view in catalogue.views:
            if view.columns:
                self.tests += self.of_view(view)

    def of_view(self, view: CatalogueView) -> Iterator[TableTest]:
        """The tests of a view."""
        if view.is_base and "key" in view.table:
            yield from self.key(view, "key", view.table["key"])
        for key, tests_of in self.readers.items():
            if key in view.table:
                yield from tests_of(view, key, view.table[key])

    def wrong(self, view: CatalogueView, key: str, *path: str | int) -> list[TableTest]:
        """That a value has another form; no test comes of it."""
        self.find(view.place(key, *path), f"{view.name}: {key} is {FORMS[key]}")
        return []

    def column(self, view: CatalogueView, key: str, name: object, *path: str | int) -> int | None:
        """The place of a column, or None where there is none of that name."""
        names = [column for column, _ in view.columns]
        if isinstance(name, str) and name in names:
            return names.index(name)
        self.find(view.place(key, *path), f"{view.name}: {key} names {name}, and there are the columns {', '.join(names)}{nearest(str(name), names)}")
        return None

    # ---- keys

    def key(self, view: CatalogueView, key: str, listed: object, *path: int) -> list[TableTest]:
        """A key: columns of which no two rows have the same values."""
        if not isinstance(listed, list) or not listed or not all(isinstance(name, str) for name in listed):
            return self.wrong(view, key, *path)
        found = [self.column(view, key, name, *path, number) for number, name in enumerate(listed)]
        twice = next((number for number, name in enumerate(listed) if name in listed[:number]), None)
        if twice is not None:
            self.find(view.place(key, *path, twice), f"{view.name}: {key} names {listed[twice]} twice")
        places = sorted(place for place in found if place is not None)
        return [TableTest(view.name, key, view.place(key, *path), tuple(places))] if len(places) == len(found) else []

    def unique(self, view: CatalogueView, key: str, listed: object) -> list[TableTest]:
        """Several keys."""
        if not isinstance(listed, list) or not listed:
            return self.wrong(view, key)
        return [test for number, each in enumerate(listed) for test in self.key(view, key, each, number)]

    # ---- values

    def one_of(self, view: CatalogueView, key: str, listed: object) -> list[TableTest]:
        """The values that columns may have."""
        if not isinstance(listed, dict) or not listed:
            return self.wrong(view, key)
        found: list[TableTest] = []
        for name, values in listed.items():
            at = self.column(view, key, name, name)
            if at is None:
                continue
            kind = view.columns[at].kind
            if not isinstance(values, list) or not values or not all(is_of(value, kind) for value in values):
                what = "whole numbers" if kind == Kind.INT else "texts"
                self.find(view.place(key, name), f"{view.name}: {key} has an array of {what} for {name}, one at least")
                continue
            found.append(TableTest(view.name, key, view.place(key, name), (at,), frozenset(map(str, values))))
        return found

    def refers(self, view: CatalogueView, key: str, listed: object) -> list[TableTest]:
        """The columns of other views in which the values of columns have to stand."""
        if not isinstance(listed, dict) or not listed:
            return self.wrong(view, key)
        found: list[TableTest] = []
        for name, reference in listed.items():
            at, there = self.column(view, key, name, name), self.reference(view, name, reference)
            if at is not None and there and self.is_alike(view, at, there):
                found.append(TableTest(view.name, key, view.place(key, name), (at,), there))
        return found

    def reference(self, view: CatalogueView, name: str, reference: object) -> Reference | None:
        """The view and the place of the column that are referred to, or None where they are not there."""
        other, _, column = reference.partition(".") if isinstance(reference, str) else ("", "", "")
        if other not in self.views or other == view.name:
            there = [f"{each.name}.{named}" for each in self.views.values() if each is not view for named, _ in each.columns]
            told = f"{view.name}: {name} refers to {reference}, which is no column of another view{nearest(str(reference), there)}"
            self.find(view.place("refers", name), told)
            return None
        if not self.views[other].columns:
            return None
        names = [each for each, _ in self.views[other].columns]
        if column not in names:
            told = f"{view.name}: {name} refers to {reference}, and {other} has the columns {', '.join(names)}{nearest(column, names)}"
            self.find(view.place("refers", name), told)
            return None
        return Reference(other, names.index(column))

    def is_alike(self, view: CatalogueView, at: int, there: Reference) -> bool:
        """Whether both columns have numbers or both texts."""
        other, place = there
        (name, kind), (column, kind_there) = view.columns[at], self.views[other].columns[place]
        if kind != kind_there:
            self.find(view.place("refers", name), f"{view.name}: {name} is {kind} and {other}.{column} is {kind_there}")
        return kind == kind_there

    # ---- how many

    def least_rows(self, view: CatalogueView, key: str, number: object) -> list[TableTest]:
        if not isinstance(number, int) or isinstance(number, bool) or number < 0:
            return self.wrong(view, key)
        return [TableTest(view.name, key, view.place(key), (), number)]

    def most_changed_share(self, view: CatalogueView, key: str, share: object) -> list[TableTest]:
        if not isinstance(share, int | float) or isinstance(share, bool) or not 0 <= share <= MOST_SHARE:
            return self.wrong(view, key)
        return [TableTest(view.name, key, view.place(key), (), share)]


def is_of(value: object, kind: Kind) -> bool:
    """Whether a value is one of a column of this kind."""
    return isinstance(value, int) and not isinstance(value, bool) if kind == Kind.INT else isinstance(value, str)
