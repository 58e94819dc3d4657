"""The parts of a night's report, as HTML."""

from __future__ import annotations

import re
from collections.abc import Iterable, Mapping, Sequence
from dataclasses import dataclass
from html import escape
from typing import TYPE_CHECKING

from ...catalogue.views import Column, Kind
from ...strategy.kinds import shape_of
from ...strategy.kinds import told as kind_told
from ..declared.reported import reported
from ..graph import Picture, notes
from ..headlines import PLANNED
from .curves import curves
from .page import element, row, scrolling, section, table
from .plans import MOST_LINES, fixed_rows, pairs, tree_lines

if TYPE_CHECKING:
    from ...catalogue.from_toml import CatalogueView
    from ...catalogue.views import Cell as Value
    from ..explain import Step
    from .facts import Night
    from .page import Cell
    from .plans import Beside, Pair, Plan
    from .rows import Changed, CountedRow

# Of how many views that no view is over the changed rows stand open.
OPEN = 3
# How small a wide graph becomes before it scrolls.
SMALLEST = 0.75
PREDICTED = re.compile(re.escape(PLANNED) + "([0-9]+)( by weight)?")


def number(value: int | None) -> tuple[str, str]:
    """A cell with a number, or with a dash where it is not known."""
    return ("&mdash;" if value is None else f"{value:,}", "number")


def code(text: str) -> str:
    """A text as it is written, such as a name or a line."""
    return element("code", escape(text))


def bar(parts: Iterable[tuple[str, float]], most: float) -> tuple[str, str]:
    """A bar of parts, each with its kind, as long as they are beside the most."""
    pieces = "".join(f'<i class="{kind}" style="width:{100 * value / max(most, 1):.2f}%"></i>' for kind, value in parts if value)
    return element("div", pieces, class_="track"), "bar"


def key(*entries: tuple[str, str]) -> str:
    """What the colours of bars mean."""
    return element("ul", "".join(element("li", f'<i class="{kind}"></i>{text}') for kind, text in entries), class_="key")


# ---- the head


def than_bound(night: Night, strategies: Iterable[Beside]) -> str:
    """By how much a night's work is more than the bound, where that is known."""
    bound = next((each.work for each in strategies if each.kind == "bound"), None)
    if bound is None:
        return ""
    over = night.told.work - bound
    return f", {over:,} more than the bound, {bound:,}" if over else ", the least of all strategies"


def of_rows(night: Night, names: Iterable[str]) -> str:
    """Of how many rows before, or after where these are not known."""
    shown = [night.shown[name] for name in names]
    before = [size.before for size in shown if size.before is not None]
    return f"of {sum(before):,} before" if len(before) == len(shown) else f"now {sum(size.after for size in shown):,}"


def anew(night: Night) -> str:
    """What a night did that computed its views anew, and what is told of it."""
    why = night.told.anew
    if not why:
        return ""
    before = f"version {night.number_before}"
    seen = f"compares their tables with those of {before}" if night.before else f"is left open, since {before} is no longer there"
    about = (
        f"{why[:1].upper()}{why[1:]}, so each derived view was computed anew, by its definition of now. Steps, work "
        f"and plans are about the changes of this night, by these definitions; what is told of the rows of derived views {seen}."
    )
    return element("p", element("strong", about))


def touched(night: Night) -> int:
    """How many changed rows go through all steps."""
    return sum(step.changed() for step in night.steps())


def figures(night: Night, strategies: Iterable[Beside]) -> str:
    """The night in a few numbers."""
    derived = [view.name for view in night.views if not view.is_base]
    changed = [changed for name in derived if (changed := night.shown[name].changed) is not None]
    total, moved = f"{sum(changed):,}", str(len(list(filter(None, changed))))
    if len(changed) < len(derived):
        total, moved = "&mdash;", "&mdash;"
    work = f"rows, as the metric counts{than_bound(night, strategies)}"
    listed = [
        ("Work", f"{night.told.work:,}", f"{work}; {touched(night):,} changed ones are gone through"),
        ("Base rows changed", f"{night.told.changed(night.bases):,}", of_rows(night, night.bases)),
        ("Derived rows changed", total, of_rows(night, derived)),
        ("Derived views changed", f"{moved} of {len(derived)}", "each is its definition over the new tables"),
    ]
    items = (element("div", f"<dt>{what}</dt><dd>{value}<small>{about}</small></dd>") for what, value, about in listed)
    return element("dl", "".join(items), class_="figures")


# ---- the graph and the steps


@dataclass(frozen=True, slots=True)
class Noted:
    """A step with the rows that the night told of it."""

    step: Step
    told: int

    @property
    def view(self) -> str:
        return self.step.view

    @property
    def sources(self) -> Sequence[str] | None:
        return self.step.sources

    def rows(self) -> int:
        return self.told

    def changed(self) -> int:
        return self.step.changed()


def listed_steps(night: Night) -> list[tuple[str, Step]]:
    """Each line of the night's strategy, with its step."""
    return list(zip(night.told.strategy.splitlines(), night.steps()))


def graph(night: Night) -> str:
    """The views, with the step that each took."""
    noted = map(Noted, night.steps(), night.told.rows)
    kind = kind_told(shape_of(night.views))
    picture = Picture(night.views, notes(noted), kind)
    legend, picture.legend = picture.legend, []
    said = f"{len(night.views)} views, each above those that it is over, with the place and rows of each step"
    style = f"width:100%;min-width:{picture.size[0] * SMALLEST:.0f}px;max-width:{picture.size[0]}px"
    drawn = picture.svg().replace("<svg ", f'<svg role="img" aria-label="{escape(said)}" style="{style}" ', 1)
    about = element("p", " ".join(legend), class_="soft")
    return section("graph", "The night's steps in the graph", about + scrolling(drawn, "the graph of the views", "wide graph"))


def step_row(night: Night, place: int, line: str, step: Step) -> str:
    """A step: its line, what it reads as a bar, the rows, and its seconds where these are told."""
    counted, seconds = night.told.rows[place - 1], night.told.seconds
    if step.sources:
        delta = min(sum(step.sizes[name].changed for name in step.sources), counted)
        parts = [("delta", delta), ("read", counted - delta)]
    else:
        parts = [("puts", counted)]
    cells: list[Cell] = [(str(place), "number fit"), (code(line), "fit"), bar(parts, max(night.told.rows)), number(counted), number(step.changed())]
    if any(seconds):
        took = seconds[place - 1] or 0
        cells += [bar([("bound", took)], max(filter(None, seconds))), (f"{took:,.3f}", "number")]
    return row(cells)


def steps(night: Night) -> str:
    """A bar for each step."""
    listed = listed_steps(night)
    rows = [step_row(night, place, line, step) for place, (line, step) in enumerate(listed, 1)]
    heads: list[Cell] = [("", "number"), "step", "work", ("rows", "number"), ("changed", "number")]
    if any(night.told.seconds):
        heads += ["", ("seconds", "number")]
    kinds = ("delta", "changed rows that a Comp reads"), ("read", "rows of the other tables of a Comp"), ("puts", "rows that an Inst puts")
    about = (
        "A Comp computes what a view's changes do to a view over it; its work is the rows of all that it is over, as the metric counts "
        "them, whether or not it looks at each. What it really goes through are the changed ones: with 0 of them nothing is looked up, "
        "whatever its work. An Inst makes a view's changes its rows."
    )
    content = element("p", about, class_="soft") + scrolling(table(heads, rows), "the steps") + key(*kinds)
    return section("steps", "Step by step", content + (reasons(listed) if night.knows_sizes else ""))


def reasons(listed: Iterable[tuple[str, Step]]) -> str:
    """Why each step stands where it does, to be opened."""
    why = "".join(element("dt", code(line)) + element("dd", escape(step.text())) for line, step in listed)
    return element("details", "<summary>Why each step stands where it does</summary>" + element("dl", why, class_="why"))


# ---- the views and their rows


def view_row(night: Night, view: CatalogueView, found: Changed | None, most: int) -> str:
    """A view: its rows before and after, and how many changed."""
    before, after, change = night.shown[view.name]
    name = element("a", escape(view.name), href=f"#rows-{view.name}") if found and found.pairs else escape(view.name)
    then = after if before is None else before
    told = "&mdash;" if before is None else f"{after - before:+,}" if after != before else "0"
    kept = min(then, after)
    parts = [("other", kept), ("plan", after - kept), ("gone-bar", then - kept)]
    kind = element("span", "base" if view.is_base else "derived", class_="tag")
    return row([(name, "mono fit"), (kind, "fit"), number(before), number(after), (told, "number"), number(change), bar(parts, most)])


def views(night: Night, rows: Mapping[str, Changed | None]) -> str:
    """All views, with their rows before and after."""
    most = max((rows for size in night.shown.values() for rows in (size.before, size.after) if rows), default=1)
    heads: list[Cell] = ["view", "", ("before", "number"), ("after", "number"), ("grew by", "number"), ("changed", "number"), "rows"]
    made = [view_row(night, view, rows[view.name], most) for view in night.views]
    said = key(("other", "rows that it had and has"), ("plan", "rows more than before"), ("gone-bar", "rows fewer than before"))
    about = element("p", "What changed are the rows that came and those that left, together, each as often as it counts.", class_="soft")
    return section("views", "The views", about + scrolling(table(heads, made), "the views") + said)


def side(view: CatalogueView, counted: CountedRow | None, other: CountedRow | None, is_old: bool, with_counts: bool) -> str:
    """One side of a pair of rows: its cells, those marked that the other side has otherwise."""
    mark, edge = ("gone", "") if is_old else ("come", "after")
    width = len(view.columns) + with_counts
    if counted is None:
        return element("td", "&mdash;", class_=f"none {edge}", colspan=width)
    columns, values = shown_columns(view, with_counts), values_of(counted, with_counts)
    against = values_of(other, with_counts) if other else [None] * len(values)
    made: list[str] = []
    for place, (value, column, old) in enumerate(zip(values, columns, against)):
        classes = ["number"] * (column.kind == Kind.INT) + [mark] * (value != old) + [edge] * (place == 0 and bool(edge))
        made.append(element("td", escape(str(value)), class_=" ".join(classes), title=str(value)))
    return "".join(made)


def shown_columns(view: CatalogueView, with_counts: bool) -> list[Column]:
    """The columns that are shown of a view."""
    return [Column("#", Kind.INT)] * with_counts + view.columns


def values_of(counted: CountedRow, with_counts: bool) -> Sequence[Value | None]:
    """What stands in these columns of a row."""
    return (counted.times, *counted.row) if with_counts else counted.row


def changed_rows(view: CatalogueView, found: Changed) -> str:
    """The first changed rows of a view, old and new side by side."""
    with_counts = any(counted and counted.times != 1 for pair in found.pairs for counted in pair)
    columns = shown_columns(view, with_counts)
    top = f'<tr><th colspan="{len(columns)}">before</th><th class="after" colspan="{len(columns)}">after</th></tr>'
    old: list[tuple[str, str]] = [(escape(name), "number" if kind == Kind.INT else "") for name, kind in columns]
    new = [(name, f"{kind} after" if place == 0 else kind) for place, (name, kind) in enumerate(old)]
    rows = [
        element("tr", side(view, before, after, True, with_counts) + side(view, after, before, False, with_counts))
        for before, after in found.pairs
    ]
    return scrolling(table(top + row(old + new, "th"), rows, "changes"), f"changed rows of {view.name}")


def rows_of(view: CatalogueView, found: Changed, is_open: bool) -> str:
    """A view's changed rows, to be opened."""
    shown = sum(len(set(pair.rows)) for pair in found.pairs)
    told = f"{found.differ:,} rows differ" if found.differ != 1 else "1 row differs"
    told += f", the first {shown} here" if shown < found.differ else ""
    head = element("summary", element("h3", code(view.name)) + f' <span class="soft">{told}</span>')
    return element("details", head + changed_rows(view, found), id=f"rows-{view.name}", **({"open": ""} if is_open else {}))


def first_rows(night: Night, rows: Mapping[str, Changed | None]) -> str:
    """The first changed rows of each view."""
    found = [(view, rows[view.name]) for view in night.views]
    there = [(view, changed) for view, changed in found if changed and changed.pairs]
    still = [view.name for view in night.views if night.shown[view.name].changed == 0]
    # Of a view that was computed anew with other columns all rows differ, and none stands beside another.
    none = [view.name for view, changed in found if changed is None or night.told.anew and not changed.pairs]
    lost = [name for name in none if name not in still]
    about = (
        "A row that left stands beside the one that came in its place: of a summary that of the same group, otherwise the one most like it."
    )
    under = {name for view in night.views for name in view.over}
    opened = [view.name for view, _ in there if view.name not in under][:OPEN]
    as_declared = reported(night.folder, night.root)
    there = [as_declared.told(view, changed) for view, changed in there] if as_declared else there
    content = element("p", about, class_="soft") + "".join(rows_of(view, changed, view.name in opened) for view, changed in there)
    if lost:
        told = f"No rows are shown of {code(', '.join(lost))}: the version before is no longer there, or has other columns."
        content += element("p", told)
    if still:
        content += element("p", f"Not changed: {code(', '.join(still))}.")
    return section("rows", "The first changed rows", content)


# ---- the plan and its certificate


def plans(night: Night, strategies: Sequence[Beside], plan: Plan) -> str:
    """The strategies, with their work as bars."""
    most = max(each.work for each in strategies)
    bound = min(each.work for each in strategies)
    made: list[str] = []
    for each in strategies:
        more = f"+{each.work - bound:,}" if each.work > bound else ""
        name = element("strong", each.name) if each.kind == "own" else each.name
        about = element("div", each.about, class_="soft")
        made.append(row([name + about, bar([(each.kind or "other", each.work)], most), number(each.work), (more, "number")]))
    heads: list[Cell] = ["strategy", "work", ("rows", "number"), ("over the bound", "number")]
    about = "What each would have cost this night, by the sizes that the views turned out to have, in rows."
    predicted = PREDICTED.search(night.told.how)
    if predicted:
        about += f" The night's plan was made by the sizes that were expected, and for these its work is {int(predicted[1]):,}{predicted[2] or ''}."
    about = element("p", about, class_="soft")
    missing = element("p", f"No plan was made: {escape(plan.missing)}.") if plan.missing else ""
    return section("plans", "The plan beside others", about + scrolling(table(heads, made), "strategies") + missing)


def certificate(night: Night, plan: Plan) -> str:
    """Why no strategy costs less, line by line."""
    if not plan.text:
        return ""
    told = by_pairs(night, plan) if plan.scope == "all" else by_tree(night, plan)
    verdict = element("p", f"The program says of this plan: {code(plan.verdict)}. Its {code('certify')} is proved.")
    return section("certificate", "Why no strategy costs less", told + verdict)


def by_pairs(night: Night, plan: Plan) -> str:
    """A certificate of scope all: a line for each two views that one view is over."""
    lines, (read, put) = pairs(night, plan), fixed_rows(night)
    about = (
        "Whatever the order, each change is read once for each view over its own, and put once. Beyond that, of each two views under one "
        "view one is installed first: then the other's Comp reads its new rows, and its own Comp read the other's old ones. A line says "
        "what either order reads; no strategy stays below the lesser. The minima together are a bound on the work of every correct "
        "strategy, and the plan reaches it."
    )
    made = [row([("each change, once for each view over its own", "fit"), "", "", number(read)])]
    made.append(row([("each change, once at its Inst", "fit"), "", "", number(put)]))
    made += [pair_row(each) for each in lines]
    total = read + put + sum(each.least for each in lines)
    made.append(row([element("strong", "the bound"), "", "", (element("strong", f"{total:,}"), "number")]))
    heads: list[Cell] = ["line", ("this order reads", "number"), ("the other reads", "number"), ("at least", "number")]
    return element("p", about, class_="soft") + scrolling(table(heads, made), "the certificate")


def pair_row(pair: Pair) -> str:
    """A line of the certificate."""
    says = f"pair {pair.parent} {pair.first} {pair.second} {pair.least}"
    order = f"under {pair.parent}: {pair.first} before {pair.second}"
    reads = map(number, (pair.first_reads, pair.second_reads, pair.least))
    return row([code(says) + element("div", escape(order), class_="soft"), *reads])


def by_tree(night: Night, plan: Plan) -> str:
    """A certificate of scope one-way: a tree of cases."""
    count, told = tree_lines(night, plan)
    about = (
        "No one-way strategy reaches the bound of all strategies, so this plan is least among the one-way ones, whose Comps take one view "
        "each. The tree goes through all orders of installation: in each case either the bound is not below the plan's work, or there is "
        "no strategy."
    )
    listed = [
        element("li", (element("div", escape(case), class_="soft") if case else "") + escape(text), style=f"--deep:{deep}")
        for deep, case, text in told
    ]
    rest = element("p", f"These are the first {MOST_LINES} of {count:,} lines.") if count > len(told) else ""
    return element("p", about, class_="soft") + element("ol", "".join(listed), class_="tree") + rest


# ---- the nights before


def history(night: Night) -> str:
    """The nights that are kept, as curves."""
    found = night.history()
    drawn, left = curves(found, night.bases, [view.name for view in night.views])
    first, last = list(found)[0], list(found)[-1]
    about = f"{len(found)} nights that are kept, {first} to {last}." if len(found) > 1 else "There is one night as yet."
    rest = element("p", f"{left} more views have no curve here.") if left else ""
    others = ", ".join(str(version) for version, each in found.items() if each.anew)
    if others:
        rest += element("p", f"Views were computed anew in {others}, where changed rows count by the definitions of then.", class_="soft")
    return section("history", "The nights so far", element("p", about, class_="soft") + drawn + rest)
