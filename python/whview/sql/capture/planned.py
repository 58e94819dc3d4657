"""A night's plan from what the database says: sizes, the program's plan and its certificate, and the catalogue with both."""

from __future__ import annotations

import sys
from argparse import Namespace
from collections.abc import Iterable, Sequence
from pathlib import Path
from typing import TYPE_CHECKING

from ... import program
from ...bundle import part, parts_of
from ...strategy.sizes import ROWS, WITH_WEIGHTS
from ..catalogue import Catalogue, text_of
from ..kept import Kept, Wanted, keep, kept_for
from ..several import judge_one
from ..tokens import Unfit

if TYPE_CHECKING:
    from ...catalogue.views import View
    from .sizes import Past


EXPRESSIONS = ("comp ", "inst ")


def sizes_text(views: Iterable[View], sizes: Iterable[Past], weights: Sequence[int] | None = None) -> str:
    """The text of sizes, with weights where there are any."""
    rows: list[list[str | int]] = [[view.name, *size] for view, size in zip(views, sizes)]
    if weights:
        rows = [[*row, weight] for row, weight in zip(rows, weights)]
    return "".join(f"{','.join(map(str, row))}\n" for row in [WITH_WEIGHTS if weights else ROWS, *rows])


def planned(words: Namespace, sizes: str, costs: Sequence[str] = ()) -> Catalogue:
    """The catalogue with its sizes and a plan, which the program has certified for these or for sizes near them; what it said is told."""
    judge_one(words.path, "a plan")
    content = "\n".join(parts_of(text_of(words.path))[0]["catalogue"])
    bundle, place = part("catalogue", content.encode()) + part("sizes", sizes.encode()), Path(words.path)
    wanted = Wanted.by(words, content, sizes, costs)
    if (kept := None if words.anew else kept_for(place, wanted)) and (found := by_kept(bundle, kept)):
        print(f"whview sql: {kept.certified}, when it was planned for sizes near these; --anew plans anew", file=sys.stderr)
        return found
    plan, certified = by_program(words, bundle, costs)
    print(f"whview sql: {certified}", file=sys.stderr)
    expressions = [line for line in plan.decode().splitlines() if line.startswith(EXPRESSIONS)]
    keep(place, Kept(wanted.rests_on, wanted.sizes, expressions, certified))
    return Catalogue((bundle + part("plan", plan)).decode(), is_judged=True)


def by_program(words: Namespace, bundle: bytes, costs: Sequence[str]) -> tuple[bytes, str]:
    """The program's plan, and what it says as it certifies it."""
    found = words.program or program.own(words.unproved)
    plan = program.answer(found, "plan", bundle, costs)
    return plan, program.answer(found, "certify", bundle + part("plan", plan), costs).decode().strip()


def by_kept(bundle: bytes, kept: Kept) -> Catalogue | None:
    """The catalogue with the expressions of a plan that was kept, or None where these keep not all rules of a strategy."""
    try:
        found = Catalogue((bundle + part("strategy", "\n".join(kept.expressions).encode())).decode(), is_judged=True)
        found.correct()
    except Unfit:
        return None
    return found
