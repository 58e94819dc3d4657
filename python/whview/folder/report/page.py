"""The frame of a page that needs nothing else: its head and its colours, by day and by night. There is no script in it."""

from __future__ import annotations

from collections.abc import Iterable
from html import escape
from typing import TypeAlias

STYLE = """
:root { color-scheme: light dark; --paper: #fbfaf7; --card: #fff; --ink: #1c2430; --soft: #566273; --line: #dcdfe4;
  --blue: #2d5f9e; --pale: #a9c4e6; --gold: #93701b; --come: #17703f; --come-paper: #e3f3e9; --go: #a83232; --go-paper: #fae7e5;
  --derived: #eaf1fb; --base: #f6f0df; --focus: #b4530a; }
@media (prefers-color-scheme: dark) { :root { --paper: #12161c; --card: #191f27; --ink: #e3e8ef; --soft: #9ca8b7; --line: #303a46;
  --blue: #7fb2f0; --pale: #37587f; --gold: #d9b65c; --come: #74cf9b; --come-paper: #15301f; --go: #f09a92; --go-paper: #3a1f1e;
  --derived: #1d2c40; --base: #332c1a; --focus: #f2a65a; } }
* { box-sizing: border-box; }
html { scroll-behavior: smooth; }
@media (prefers-reduced-motion: reduce) { html { scroll-behavior: auto; } }
body { margin: 0; background: var(--paper); color: var(--ink);
  font: 16px/1.5 system-ui, "Segoe UI", "Noto Sans", "DejaVu Sans", sans-serif; }
main, header, nav, footer { max-width: 70rem; margin: 0 auto; padding: 0 1.5rem; }
a { color: var(--blue); text-underline-offset: .15em; }
:focus-visible { outline: 3px solid var(--focus); outline-offset: 2px; border-radius: 3px; }
.skip { position: absolute; left: -99rem; }
.skip:focus { left: 1rem; top: 1rem; background: var(--card); padding: .5rem 1rem; z-index: 2; }
header { padding-top: 2.5rem; }
h1 { font-size: 1.9rem; line-height: 1.2; margin: 0 0 .25rem; letter-spacing: -.01em; }
h2 { font-size: 1.25rem; margin: 0 0 .25rem; } h3 { font-size: 1rem; margin: 0; }
section { margin: 2.75rem 0; scroll-margin-top: 1rem; }
p, h1, figure, summary, dl, footer, ol.tree { overflow-wrap: anywhere; }
p { margin: .25rem 0 .9rem; max-width: 46rem; } .soft, caption, figcaption { color: var(--soft); }
code, .mono { font-family: ui-monospace, "DejaVu Sans Mono", Menlo, Consolas, monospace; font-size: .875em; }
nav ul { display: flex; flex-wrap: wrap; gap: .25rem 1.25rem; list-style: none; margin: 1.25rem 0 0; padding: .6rem 0;
  border: solid var(--line);
  border-width: 1px 0; }
.figures { display: grid; grid-template-columns: repeat(4, 1fr); gap: 1px; margin: 1.5rem 0 0; padding: 0;
  background: var(--line); border: 1px solid var(--line); border-radius: 8px; overflow: hidden; }
.figures div { background: var(--card); padding: .7rem 1rem; } .figures dt { color: var(--soft); font-size: .85rem; }
.figures dd { margin: 0; font-size: 1.5rem; font-weight: 600; font-variant-numeric: tabular-nums; line-height: 1.3; }
.figures small { display: block; font-size: .8rem; font-weight: 400; color: var(--soft); line-height: 1.35; }
.wide { overflow-x: auto; background: var(--card); border: 1px solid var(--line); border-radius: 8px; }
.graph { padding: .75rem; } .graph svg { display: block; height: auto; margin: 0 auto; }
.graph text { fill: var(--ink); } .graph rect { stroke: var(--soft); } .graph .paper { fill: none; stroke: none; }
.graph polyline { stroke: var(--soft); }
.graph .tip { fill: var(--soft); } .graph .base { fill: var(--base); } .graph .derived { fill: var(--derived); }
.graph .cell { fill: var(--card); }
table { border-collapse: collapse; width: 100%; font-variant-numeric: tabular-nums; }
th, td { text-align: left; padding: .3rem .75rem; border-bottom: 1px solid var(--line); vertical-align: middle; }
tbody tr:last-child > * { border-bottom: 0; } thead th { font-weight: 600; font-size: .85rem; color: var(--soft); white-space: nowrap; }
tbody th { font-weight: 500; } .number { text-align: right; white-space: nowrap; }
.fit { width: 1%; white-space: nowrap; } .bar { min-width: 10rem; width: 40%; }
.track { display: flex; height: .8rem; gap: 1px; } .track i { display: block; height: 100%; min-width: 1px; border-radius: 2px; }
.read { background: var(--pale); } .delta { background: var(--blue); } .puts, .plan { background: var(--come); }
.bound { background: var(--gold); }
.own { background: var(--blue); } .gone-bar { background: var(--go); } .other { background: var(--pale); }
.key { display: flex; flex-wrap: wrap; gap: .25rem 1.5rem; list-style: none; padding: 0; margin: .5rem 0 0; font-size: .875rem;
  color: var(--soft); }
.key i { display: inline-block; width: .8rem; height: .8rem; border-radius: 2px; margin-right: .4rem; vertical-align: -1px; }
details { background: var(--card); border: 1px solid var(--line); border-radius: 8px; margin: .5rem 0; }
summary { padding: .55rem 1rem; cursor: pointer; } summary h3 { display: inline; } details > :not(summary) { margin: 0 1rem .9rem; }
details > .wide { border-width: 1px 0 0; border-radius: 0; margin: 0; }
.changes td, .changes th { white-space: pre; max-width: 22rem; overflow: hidden; text-overflow: ellipsis; }
.changes thead tr:first-child th { width: 50%; } .changes .after { border-left: 2px solid var(--line); }
.changes .none { color: var(--soft); }
.gone { background: var(--go-paper); color: var(--go); } .come { background: var(--come-paper); color: var(--come); }
.tag { display: inline-block; border: 1px solid var(--line); border-radius: 99px; padding: 0 .6rem; font-size: .8rem; color: var(--soft);
  }
.curves { display: grid; grid-template-columns: repeat(auto-fill, minmax(15rem, 1fr)); gap: .75rem; }
figure { min-width: 0; margin: 0; background: var(--card); border: 1px solid var(--line); border-radius: 8px; padding: .6rem .9rem; }
figure svg { display: block; width: 100%; height: 56px; margin-top: .35rem; }
figure b { float: right; font-variant-numeric: tabular-nums; }
figure polyline { fill: none; stroke: var(--blue); stroke-width: 2; stroke-linejoin: round; stroke-linecap: round; }
figure circle { fill: var(--blue); } figcaption { font-size: .8rem; }
ol.tree { list-style: none; padding: 0; margin: 0; }
ol.tree li { padding: .3rem 0 .3rem calc(min(var(--deep) * 1rem, 20vw) + .6rem); border-left: 2px solid var(--line); }
dl.why { margin: 0 1rem .9rem; } dl.why dt { margin-top: .5rem; } dl.why dd { margin: 0 0 0 1.5rem; color: var(--soft); }
button { font: inherit; padding: .35rem 1rem; border: 1px solid var(--blue); border-radius: 6px; background: var(--blue);
  color: var(--card); cursor: pointer; }
footer { padding-top: 1rem; padding-bottom: 3rem; color: var(--soft); font-size: .875rem; }
@media (max-width: 52rem) { .figures { grid-template-columns: 1fr 1fr; } }
@media (max-width: 40rem) { main, header, nav, footer { padding-left: 1rem; padding-right: 1rem; } .bar { min-width: 6rem; width: 30%; }
th, td { padding: .3rem .5rem; } }
@media print { .wide { overflow: visible; } nav { display: none; } }
"""


# A cell: HTML, or HTML with its class.
Cell: TypeAlias = str | tuple[str, str]


def element(name: str, content: str, **attributes: object) -> str:
    """An element with its content, which is HTML already; `_` at the end of an attribute's name is none of it."""
    given = "".join(f' {key.rstrip("_").replace("_", "-")}="{escape(str(value))}"' for key, value in attributes.items())
    return f"<{name}{given}>{content}</{name}>"


def row(cells: Iterable[Cell], name: str = "td") -> str:
    """A row of cells."""
    pairs = [cell if isinstance(cell, tuple) else (cell, "") for cell in cells]
    return element("tr", "".join(element(name, content, class_=kind) if kind else element(name, content) for content, kind in pairs))


def table(heads: str | Iterable[Cell], rows: Iterable[str], kind: str = "") -> str:
    """A table of heads and rows that are made already, in a box that scrolls by the keyboard where it is wide."""
    head = element("thead", heads if isinstance(heads, str) else row(heads, "th"))
    return element("table", head + element("tbody", "\n".join(rows)), **({"class_": kind} if kind else {}))


def scrolling(content: str, label: str, kind: str = "wide") -> str:
    """A box that scrolls where its content is wide."""
    return element("div", content, class_=kind, tabindex=0, role="region", aria_label=label)


def section(name: str, title: str, content: str) -> str:
    """A section with its title, to which links lead by its name."""
    return element("section", element("h2", escape(title)) + content, id=name)


def page(title: str, body: str) -> str:
    """The page, whose parts stand in its body."""
    head = f'<meta charset="utf-8"><meta name="viewport" content="width=device-width, initial-scale=1"><title>{escape(title)}</title>'
    skip = '<a class="skip" href="#content">To the content</a>'
    return f'<!DOCTYPE html>\n<html lang="en"><head>{head}<style>{STYLE}</style></head>\n<body>{skip}{body}</body></html>\n'
