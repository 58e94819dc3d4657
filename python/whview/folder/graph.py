"""`graph`: the views of a folder, who is over whom, of what kind that shape is, the order and work of a strategy, how many changed rows
go through each step, and the seconds of the night before: graph.dot and graph.svg in the folder."""

from __future__ import annotations

from collections.abc import Iterable, Mapping, Sequence
from typing import TYPE_CHECKING, NamedTuple, Protocol

from ..disk import write
from ..finding import Failure
from ..status import DONE, SPENT, Status
from ..strategy.kinds import Named, shape_of, told
from .explain import steps
from .folder import sound
from .headlines import of_last_night
from .layers import Layers

if TYPE_CHECKING:
    from .command import Words
    from .explain import Listed
    from .folder import Folder
    from .layers import Member

# A letter's width, of a font in which all have the same, over its size.
LETTER = 0.62
NAME_SIZE, NOTE_SIZE, HEIGHT, CELL_HEIGHT, DOWN, MARGIN = 13, 11, 42, 20, 80, 20
TIP = (
    '<defs><marker id="tip" markerWidth="8" markerHeight="8" refX="8" refY="4" orient="auto">'
    '<path class="tip" d="M0,0 L8,4 L0,8 z" fill="#345"/></marker></defs>'
)
LEGEND = [
    "A box is a view: under its name the step that installs it, and how many rows that puts.",
    "A cell below it is a Comp from the view that its arrow comes from: its step, its work in rows, and how many changed rows go through it.",
    "Work is all rows of what a Comp reads; those that did not change are looked at only where changed ones lead to them.",
]


class NotedStep(Protocol):
    """A step of which a picture tells: its view, the sources of a Comp, its rows, and how many changed ones go through it."""

    @property
    def view(self) -> str: ...

    @property
    def sources(self) -> Sequence[str] | None: ...

    def rows(self) -> int: ...

    def changed(self) -> int: ...


class Notes(NamedTuple):
    """What is said of each view: its Inst's place and rows; and of each edge from a view to one over it: its Comp's."""

    views: Mapping[str, str]
    edges: Mapping[tuple[str, str], str]


def notes(steps: Iterable[NotedStep]) -> Notes:
    """What is said of these steps, one after another."""
    views: dict[str, str] = {}
    edges: dict[tuple[str, str], str] = {}
    for place, step in enumerate(steps, 1):
        if step.sources:
            edges.update({(name, step.view): f"{place}: {step.rows()} ({step.changed()})" for name in step.sources})
        else:
            views[step.view] = f"inst {place}: {step.rows()}"
    return Notes(views, edges)


def dot(views: Sequence[Named], notes: Notes, kind: str, last: str = "") -> str:
    """The graph as DOT."""
    kind = "\\n".join(filter(None, (kind, last)))
    lines = [f'  "{view.name}" [shape=box, label="{view.name}\\n{notes.views.get(view.name, "")}"];' for view in views]
    lines += [f'  "{child}" -> "{view.name}" [label="{notes.edges.get((child, view.name), "")}"];' for view in views for child in view.over]
    return f'digraph warehouse {{\n  rankdir=BT;\n  label="{kind}";\n' + "\n".join(lines) + "\n}\n"


def wide(words: str, size: int) -> float:
    """How wide these words are, with some room on both sides."""
    return len(words) * size * LETTER + 12


class Corner(NamedTuple):
    """A place in the picture."""

    across: float
    down: float


class Picture:
    """The graph as a picture: base views stand at the bottom, and each other view in the row above the highest one that it is over."""

    def __init__(self, views: Sequence[Named], notes: Notes, kind: str = "", last: str = "") -> None:
        self.views, self.notes = views, notes
        self.legend = [kind.capitalize() + "."] * bool(kind) + (LEGEND if notes.views else []) + [last.capitalize() + "."] * bool(last)
        self.layers = Layers(views, {view.name: self.width(view) for view in views})
        self.highest = len(self.layers.rows) - 1

    def width(self, view: Named) -> float:
        """How wide a view's box is, in which all words have room, those of the cells below it too."""
        cell = max((wide(self.notes.edges.get((child, view.name), ""), NOTE_SIZE) for child in view.over), default=0.0)
        return max(wide(view.name, NAME_SIZE), wide(self.notes.views.get(view.name, ""), NOTE_SIZE), cell * len(view.over), 80)

    # ---- places

    def top(self, level: int) -> int:
        return MARGIN + (self.highest - level) * (HEIGHT + CELL_HEIGHT + DOWN)

    def bottom(self, level: int) -> int:
        return self.top(level) + HEIGHT + (CELL_HEIGHT if level else 0)

    def middle(self, member: Member) -> float:
        return MARGIN + self.layers.middles[member]

    def left(self, view: Named) -> float:
        return self.middle(view.name) - self.width(view) / 2

    def cells(self, view: Named) -> tuple[float, list[tuple[str, float]]]:
        """How wide a cell of a view is; and its children from left to right as their lines come, each with the left end of its cell."""
        children = sorted(view.over, key=lambda child: self.layers.middles[self.layers.last(child, view.name)])
        wide_each = self.width(view) / len(children)
        return wide_each, [(child, self.left(view) + number * wide_each) for number, child in enumerate(children)]

    # ---- what is drawn

    def text(self, across: float, down: int, words: str, size: int) -> str:
        return f'<text x="{across:.0f}" y="{down:.0f}" font-size="{size}" text-anchor="middle">{words}</text>'

    def box(self, view: Named) -> str:
        """A view's box with its name and its Inst."""
        top, middle = self.top(self.layers.levels[view.name]), self.middle(view.name)
        fill = "#eef3fb" if view.over else "#f6f1e4"
        place = f'x="{self.left(view):.1f}" y="{top}" width="{self.width(view):.1f}" height="{HEIGHT}"'
        drawn = f'<rect class="{"derived" if view.over else "base"}" {place} fill="{fill}" stroke="#345"/>'
        note = self.notes.views.get(view.name)
        name = self.text(middle, top + (17 if note else 26), view.name, NAME_SIZE)
        return drawn + name + (self.text(middle, top + 34, note, NOTE_SIZE) if note else "")

    def comps(self, view: Named) -> str:
        """The cells below a view's box, and the arrow to each."""
        drawn: list[str] = []
        level = self.layers.levels[view.name]
        top = self.top(level) + HEIGHT
        width, cells = self.cells(view)
        for child, left in cells:
            words = self.notes.edges.get((child, view.name), "")
            place = f'x="{left:.1f}" y="{top}" width="{width:.1f}" height="{CELL_HEIGHT}"'
            drawn.append(f'<rect class="cell" {place} fill="#fff" stroke="#345"/>')
            drawn.append(self.text(left + width / 2, top + 14, words, NOTE_SIZE))
            drawn.append(self.arrow(child, view.name, Corner(left + width / 2, top + CELL_HEIGHT)))
        return "".join(drawn)

    def line(self, child: str, over: str, end: Corner) -> list[Corner]:
        """The corners of the line from a child to a view over it, which ends here."""
        corners = [Corner(self.middle(child), self.top(self.layers.levels[child]))]
        for passing in self.layers.passed[child, over]:
            corners += [Corner(self.middle(passing), edge) for edge in (self.bottom(passing.level), self.top(passing.level))]
        return [*corners, end]

    def arrow(self, child: str, over: str, end: Corner) -> str:
        """The arrow from a child to a view over it, which ends here."""
        corners = " ".join(f"{across:.1f},{down:.1f}" for across, down in self.line(child, over, end))
        return f'<polyline points="{corners}" fill="none" stroke="#345" marker-end="url(#tip)"/>'

    @property
    def size(self) -> tuple[int, int]:
        """The width and the height."""
        width = max([self.layers.breadth, *(wide(words, NOTE_SIZE) for words in self.legend)]) + 2 * MARGIN
        return round(width), self.bottom(0) + MARGIN + (MARGIN + 18 * len(self.legend) if self.legend else 0)

    def svg(self) -> str:
        width, height = self.size
        under = self.bottom(0) + 2 * MARGIN
        box = f'width="{width}" height="{height}" viewBox="0 0 {width} {height}"'
        head = f'<svg xmlns="http://www.w3.org/2000/svg" {box} font-family="monospace">'
        drawn = [TIP, f'<rect class="paper" width="{width}" height="{height}" fill="#fff"/>']
        drawn += [self.comps(view) for view in self.views if view.over] + [self.box(view) for view in self.views]
        drawn += [
            f'<text x="{MARGIN}" y="{under + 18 * number}" font-size="{NOTE_SIZE}">{words}</text>'
            for number, words in enumerate(self.legend)
        ]
        return "\n".join([head, *drawn, "</svg>\n"])


def svg(views: Sequence[Named], notes: Notes, kind: str, last: str = "") -> str:
    """The graph as a picture."""
    return Picture(views, notes, kind, last).svg()


def steps_of(folder: Folder, words: Words) -> list[Listed]:
    """The steps of a folder's strategy; none where the search for a plan was given up."""
    try:
        return steps(folder, words)
    except Failure as failure:
        if failure.status != SPENT:
            raise
        return []


def run(words: Words) -> Status:
    folder = sound(words.folder)
    found = notes(each.step for each in steps_of(folder, words))
    kind = told(shape_of(folder.views))
    if folder.views:
        for name, made in (("graph.dot", dot), ("graph.svg", svg)):
            write(folder.path / name, [made(folder.views, found, kind, of_last_night(folder.state)).encode()])
    print(kind)
    return DONE
