"""What a script is made from: the views, the strategy and, where they are given, the sizes of a bundle or of a folder of its files."""

from __future__ import annotations

import csv
from collections import Counter
from collections.abc import Mapping, Sequence
from pathlib import Path

from ..bundle import part, parts_of, words_of
from ..catalogue.from_bundle import views_of
from ..catalogue.from_toml import Catalogue as LintedCatalogue
from ..catalogue.nulls import null_findings
from ..catalogue.parts import Warehouse
from ..finding import Finding
from ..folder.packing import pack
from ..strategy.rules import Comp, Inst, broken
from ..strategy.sizes import sizes_in
from ..views.captured import RowsOf, rows_in
from . import several
from .steps import Expression
from .tokens import Unfit

ONCE = ("@catalogue", "@sizes", "@plan")


def text_of(path: str | Path) -> str:
    """The bundle in a file, or of a folder as `whview folder pack` makes it."""
    place = Path(path)
    given: bytes = pack(place) if place.is_dir() else place.read_bytes()
    return given.decode()


def judged(text: str, within: str = "") -> tuple[str, list[Finding]]:
    """The lines of a bundle's catalogue, which has no fault and no key that nothing looks at; and what is told of NULLs in it. `within` says in which folder it
    stands."""
    headings = [line.rstrip(" \t\r") for line in text.split("\n") if line.startswith("@") and not line.startswith("@@")]
    twice = [heading for heading, times in Counter(headings).items() if times > 1 and heading.startswith(ONCE)]
    if twice or "@catalogue" not in headings:
        raise Unfit(f"{twice[0]} stands twice" if twice else "there is no catalogue")
    content = "\n".join(parts_of(text)[0]["catalogue"]) + "\n"
    linted = LintedCatalogue(content.encode())
    for finding in linted.findings:
        if not finding.warns:
            raise Unfit(f"{within}{finding}")
    return content, null_findings(linted)


class Catalogue:
    """The views with their formulas, and what is told of NULLs in them; the strategy; and of each view its sizes, where they are given."""

    def __init__(self, text: str, is_judged: bool = False) -> None:
        content, self.warnings = ("\n".join(parts_of(text)[0]["catalogue"]), list[Finding]()) if is_judged else judged(text)
        self.content = content
        once, nights = parts_of(text)
        self.views = views_of(content)
        self.names = {view.name: v for v, view in enumerate(self.views)}
        # Of mirrors that keep more than columns as they are, what they keep.
        self.rows: Mapping[str, RowsOf] = {}
        self.words = Warehouse(self.views)
        self.expressions = self.listed(once, nights[0])
        self.sizes = self.sizes_of(once.get("sizes"))

    def listed(self, once: Mapping[str, list[str]], night: Mapping[str, list[str]]) -> list[Expression] | None:
        """The expressions of the strategy, or else of the plan, or None where neither is given."""
        lines = night.get("strategy")
        if lines is None and "plan" in once:
            lines = [line for line in once["plan"] if line.split(" ")[0] in ("comp", "inst")]
        return None if lines is None else [self.expression(*numbered) for numbered in enumerate(lines, 1) if words_of([numbered[1]])]

    def expression(self, number: int, line: str) -> Expression:
        """An expression of a strategy."""
        words = words_of([line])[0]
        comp = words[0] == "comp" and len(words) > 3 and words[2] == "from"
        if not comp and not (words[0] == "inst" and len(words) == 2):
            raise Unfit(f"strategy.txt:{number}: {line!r} is no expression; it is 'comp V from U ..' or 'inst V'")
        named = [words[1], *words[3:]]
        if unknown := [name for name in named if name not in self.names]:
            raise Unfit(f"strategy.txt:{number}: there is no view {unknown[0]!r}")
        numbers = [self.names[name] for name in named]
        return Comp(numbers[0], tuple(numbers[1:])) if comp else Inst(numbers[0])

    def sizes_of(self, lines: list[str] | None) -> list[tuple[int, ...]] | None:
        """Of each view how many rows it has before and after, and how many change, each by its weight where the sizes have one; None
        where no sizes are given."""
        if lines is None:
            return None
        sizes = sizes_in(lines, [view.name for view in self.views])
        return [tuple(rows * (size[3] if len(size) > 3 else 1) for rows in size[:3]) for size in sizes]

    def correct(self) -> list[Expression]:
        """The expressions of a strategy that is given and keeps all rules."""
        if self.expressions is None:
            raise Unfit("a night needs a strategy or a plan")
        if told := broken(self.views, self.expressions):
            raise Unfit(told)
        return self.expressions


def of_several(folders: Sequence[Path]) -> Catalogue:
    """The catalogue of several warehouses over the same tables, whose night goes view by view."""
    each = [judged(text_of(folder), f"{folder.name}/") for folder in folders]
    found = Catalogue(part("catalogue", several.merged(content for content, _ in each).encode()).decode(), is_judged=True)
    found.expressions, found.warnings = list(found.words.one_way()), [warning for _, warnings in each for warning in warnings]
    return found


def read(path: str) -> Catalogue:
    """The catalogue at a path."""
    folders = several.folders(Path(path))
    try:
        found = of_several(folders) if folders else Catalogue(text_of(path))
        found.rows = rows_in(path)
        return found
    except (ValueError, KeyError, IndexError, TypeError, RecursionError, csv.Error) as fault:
        raise Unfit(f"{path} cannot be read ({fault!r}): `whview check` and `whview night` name the fault") from fault
