"""Rows of what a folder keeps, as a report shows them: columns of declared tables have their kinds again, and what is computed for views is left out."""

from __future__ import annotations

from copy import copy
from pathlib import Path
from typing import TYPE_CHECKING

from ...catalogue.views import Column as KeptColumn
from ...catalogue.views import Kind, Row
from .cells import cell_of
from .said import CATALOGUE, Column, Said, is_taken, said_by
from .shown import told_again

if TYPE_CHECKING:
    from ...catalogue.from_toml import CatalogueView
    from ..report.rows import Changed, CountedRow


class Reported:
    """Turns the changed rows of views for a report."""

    def __init__(self, said: Said) -> None:
        self.said = said
        self.columns = {f"{table.mirror}.{each.name}": each for table in said.tables for each in table.columns}

    def declared(self, view: CatalogueView, name: str) -> Column | None:
        """The declared column that a column of what is kept is, if it is one."""
        if view.is_base:
            return self.columns.get(f"{view.name}.{name}")
        listed = view.table.get("group") or view.table.get("keep") or []
        return next((self.columns.get(formula) for said, formula in listed if said == name and isinstance(formula, str)), None)

    def told(self, view: CatalogueView, changed: Changed) -> tuple[CatalogueView, Changed]:
        """A view and its changed rows, as they are shown."""
        known = [self.declared(view, each.name) for each in view.columns]
        places = [place for place, column in enumerate(known) if column is not None or not view.is_base]
        made = copy(view)
        made.columns = [shown_column(view, view.columns[place], known[place]) for place in places]

        def row_of(row: Row) -> Row:
            return tuple(row[place] if (column := known[place]) is None else cell_of(told_again(row[place], column), column, self.said.null) for place in places)

        def counted(found: CountedRow | None) -> CountedRow | None:
            return found._replace(row=row_of(found.row)) if found else None
        pairs = [pair._replace(old=counted(pair.old), new=counted(pair.new)) for pair in changed.pairs]
        return made, changed._replace(pairs=pairs)


def shown_column(view: CatalogueView, column: KeptColumn, found: Column | None) -> KeptColumn:
    """A column by the name that it was declared with."""
    if found is None:
        return column
    return KeptColumn(found.name, column.kind if found.kind == "integer" else Kind.TEXT)


def reported(folder: Path, root: Path) -> Reported | None:
    """What turns the rows of a night in this folder, if it keeps what a catalogue in SQL was taken apart into."""
    said = said_by(folder, root / CATALOGUE) if is_taken(folder) else None
    return Reported(said) if said else None
