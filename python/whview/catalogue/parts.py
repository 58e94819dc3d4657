"""Views and rows as the parts of a bundle."""

from collections.abc import Iterable, Sequence

from ..bundle import part
from ..strategy.rules import Rules, Strategy
from .views import Formula, Place, Records, View


class Warehouse(Rules):
    """Views, their correct strategies, and what a bundle says of both."""

    def __init__(self, views: Sequence[View]) -> None:
        super().__init__([view.over for view in views])
        self.views = views

    def expression(self, view: int, sources: Sequence[int] | None) -> str:
        """A step of a strategy, in words."""
        name = self.views[view].name
        return f"inst {name}" if sources is None else f"comp {name} from " + " ".join(self.views[u].name for u in sources)

    # ---- the bundle

    def reference(self, view: int, place: int) -> str:
        """The text of a place in the view's combined row."""
        for u in self.views[view].over:
            if place < len(self.views[u].columns):
                return f'"{self.views[u].name}.{self.views[u].columns[place][0]}"'
            place -= len(self.views[u].columns)
        raise IndexError(f"{self.views[view].name} has no place {place}")

    def formula(self, view: int, formula: Formula) -> str:
        """The text of a formula."""
        if isinstance(formula, Place):
            return self.reference(view, formula)
        if formula is True:
            return "true"
        if isinstance(formula, int):
            return str(formula)
        if isinstance(formula, str):
            return "{ text = " + quoted(formula) + " }"
        sign, *members = formula
        return "[" + ", ".join([quoted(str(sign)), *(self.formula(view, member) for member in members)]) + "]"

    def pairs(self, names: Iterable[str], texts: Iterable[str]) -> str:
        """An array of pairs of a name and a formula's text."""
        return "[" + ", ".join(f"[{quoted(name)}, {text}]" for name, text in zip(names, texts)) + "]"

    def definition(self, v: int) -> list[str]:
        """The keys of a derived view."""
        view = self.views[v]
        names = [name for name, _ in view.columns]
        joined = ", ".join(f"[{self.reference(v, left)}, {self.reference(v, right)}]" for left, right in view.join)
        lines = ["over = [" + ", ".join(quoted(self.views[u].name) for u in view.over) + "]", f"join = [{joined}]"]
        lines.append(f"where = {self.formula(v, view.where)}")
        if view.keep is not None:
            return [*lines, "keep = " + self.pairs(names, [self.formula(v, kept) for kept in view.keep])]
        groups = len(view.group)
        lines.append("group = " + self.pairs(names, [self.reference(v, place) for place in view.group]))
        lines.append(f"count = {quoted(names[groups])}")
        return [*lines, "sum = " + self.pairs(names[groups + 1 :], [self.formula(v, summed) for summed in view.sums])]

    def catalogue(self) -> bytes:
        """The part of the catalogue."""
        lines = []
        for v, view in enumerate(self.views):
            lines += ["[[view]]", f"name = {quoted(view.name)}"]
            if view.over:
                lines += self.definition(v)
            else:
                lines.append("columns = [" + ", ".join(quoted(f"{name}:{kind}") for name, kind in view.columns) + "]")
        return part("catalogue", ("\n".join(lines) + "\n").encode())

    def tables(self, kind: str, records: Sequence[Records]) -> bytes:
        """The parts of the base views that have records, each a row and a count."""
        parts = []
        for v, view in enumerate(self.views):
            if not view.over and records[v]:
                header = line(["#", *(name for name, _ in view.columns)])
                table = header + "".join(line([count, *row]) for row, count in records[v])
                parts.append(part(f"{kind} {view.name}", table.encode()))
        return b"".join(parts)

    def listed(self, strategy: Strategy) -> bytes:
        """The part of a strategy."""
        return part("strategy", "".join(self.expression(view, sources) + "\n" for view, sources in strategy).encode())


def quoted(text: str) -> str:
    """A text as TOML writes it."""
    escapes = {'"': '\\"', "\\": "\\\\", "\n": "\\n", "\r": "\\r"}
    return '"' + "".join(escapes.get(letter, letter) for letter in text) + '"'


def line(cells: Iterable[object]) -> str:
    """A record of a table: in quotes what has a comma, a quote or a line end."""
    texts = [str(cell) for cell in cells]
    marked = ['"' + text.replace('"', '""') + '"' if set(text) & set(',"\r\n') else text for text in texts]
    return ",".join(marked) + "\n"
