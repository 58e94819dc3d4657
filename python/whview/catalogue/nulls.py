"""Columns in which a number or a text stands for NULL: where a view joins by one, computes with it or sums it, and does not leave it out."""

from collections.abc import Sequence
from typing import Protocol

from ..finding import Finding, nearest
from .from_toml import CatalogueView

# What stands for NULL. It equals itself, so that joins and groups take all NULLs for one value: `where` has to leave them out.
NULL_NUMBER, NULL_TEXT = -(2**63), "\\N"
NULL = {"int": NULL_NUMBER, "text": NULL_TEXT}


def references(formula: object) -> list[str]:
    """The references in a formula of the catalogue."""
    if isinstance(formula, str):
        return [formula]
    return [each for member in formula[1:] for each in references(member)] if isinstance(formula, list) else []


def left_out(where: object) -> set[str]:
    """The references that a predicate leaves out NULLs of, in whatever has to hold."""
    if not isinstance(where, list) or not where:
        return set()
    if where[0] == "all":
        return {each for member in where[1:] for each in left_out(member)}
    if where[0] == "<>" and len(where) == 3:
        sides = [[each, other] for each, other in (where[1:], where[:0:-1]) if isinstance(each, str) and other in (NULL["int"], {"text": NULL["text"]})]
        return {each for each, _ in sides}
    return set()


class OfViews(Protocol):
    """A catalogue's views."""

    @property
    def views(self) -> Sequence[CatalogueView]: ...


class Nulls:
    """Goes through the views of a catalogue without faults, and keeps what is to be told."""

    def __init__(self, catalogue: OfViews) -> None:
        self.columns: dict[str, set[str]] = {}
        self.findings: list[Finding] = []
        for view in catalogue.views:
            self.columns[view.name] = self.of_base(view) if view.is_base else self.of_derived(view)

    def warn(self, view: CatalogueView, key: str, text: str, *path: str | int) -> None:
        """Keeps what is told of a key, or of what stands in it."""
        self.findings.append(Finding(view.place(key, *path), f"{view.name} {text}", True))

    def of_base(self, view: CatalogueView) -> set[str]:
        """The columns that the catalogue says of."""
        listed, names = view.table.get("nulls", []), [name for name, _ in view.columns]
        for number, name in enumerate(listed if isinstance(listed, list) else ["?"]):
            if name not in names:
                self.warn(view, "nulls", f"has no column {name}{nearest(str(name), names)}", number)
        return {f"{view.name}.{name}" for name in listed if name in names} if isinstance(listed, list) else set()

    def of_derived(self, view: CatalogueView) -> set[str]:
        """The columns in which NULLs of others are kept; what is done with them otherwise is told."""
        table = view.table
        nulls = {each for name in view.over for each in self.columns[name]} - left_out(table.get("where"))
        for number, (left, right) in enumerate(table.get("join", [])):
            if left in nulls and right in nulls:
                self.warn(view, "join", f"joins by {left} and {right}, and what stands for NULL joins itself: let where leave it out", number)
        for key, does in (("keep", "computes with"), ("sum", "sums")):
            for number, (_, formula) in enumerate(table.get(key, [])):
                for reference in references(formula) if isinstance(formula, list) or key == "sum" else ():
                    if reference in nulls:
                        self.warn(view, key, f"{does} {reference}, where a number stands for NULL: let where leave it out", number)
        kept = [*table.get("keep", []), *table.get("group", [])]
        return {f"{view.name}.{name}" for name, formula in kept if isinstance(formula, str) and formula in nulls}


def null_findings(catalogue: OfViews) -> list[Finding]:
    """What is to be told of NULLs in a catalogue without faults."""
    return Nulls(catalogue).findings
