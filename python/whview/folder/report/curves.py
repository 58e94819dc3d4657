"""The nights of a folder as small curves."""

from __future__ import annotations

from collections.abc import Collection, Iterator, Mapping, Sequence
from html import escape
from typing import TYPE_CHECKING, NamedTuple

from .page import element

if TYPE_CHECKING:
    from .facts import Told, Version

WIDTH, HEIGHT, EDGE = 240, 56, 5
# How many views have a curve of their own at most.
MOST = 24


class Curves(NamedTuple):
    """The curves as HTML, and how many views have none."""

    html: str
    left: int


def places(values: Sequence[int]) -> Iterator[tuple[float, float]]:
    """Where each value stands in the picture, from left to right; the least at its foot and the greatest at its head."""
    least, most = min(values), max(values)
    across = (WIDTH - 2 * EDGE) / max(len(values) - 1, 1)
    for number, value in enumerate(values):
        up = (value - least) / (most - least) if most > least else 0.5
        yield EDGE + number * across, HEIGHT - EDGE - up * (HEIGHT - 2 * EDGE)


def curve(name: str, versions: Sequence[Version], values: Sequence[int]) -> str:
    """One curve, with its last value, and what it goes between."""
    points = [f"{across:.1f},{down:.1f}" for across, down in places(values)]
    across, down = points[-1].split(",")
    said = f"{name}, {versions[0]} to {versions[-1]}: {', '.join(f'{value:,}' for value in values)}"
    drawn = f'<polyline points="{" ".join(points)}" vector-effect="non-scaling-stroke"/><circle cx="{across}" cy="{down}" r="3.5"/>'
    box = f'<svg viewBox="0 0 {WIDTH} {HEIGHT}" role="img" aria-label="{escape(said)}">{drawn}</svg>'
    least, most = min(values), max(values)
    between = f"{least:,} to {most:,}" if most > least else "the same each night"
    return element("figure", f"<b>{values[-1]:,}</b>{escape(name)}{box}" + element("figcaption", between))


def curves(history: Mapping[Version, Told], bases: Collection[str], views: Sequence[str]) -> Curves:
    """The curves of all nights, of base views and of all views by their names: their work, what changed, and the rows of the views, those first that changed most."""
    versions, nights = list(history), list(history.values())
    drawn = [curve("work, in rows", versions, [night.work for night in nights])]
    drawn.append(curve("changed rows of base views", versions, [night.changed(bases) for night in nights]))
    derived = [name for name in views if name not in bases]
    drawn.append(curve("changed rows of derived views", versions, [night.changed(derived) for night in nights]))
    there = [name for name in views if all(name in night.sizes for night in nights)]
    there.sort(key=lambda name: -sum(night.sizes[name].changed for night in nights))
    drawn += [curve(f"rows of {name}", versions, [night.sizes[name].after for night in nights]) for name in there[:MOST]]
    return Curves(element("div", "\n".join(drawn), class_="curves"), max(len(there) - MOST, 0))
