"""The page of `serve` for a browser: the views of the version that is read, the versions, their reports, and the session."""

from __future__ import annotations

import os
import time
from collections.abc import Mapping
from html import escape
from pathlib import Path
from typing import TYPE_CHECKING

from .blocks import Damaged, opened
from .report.facts import told
from .report.page import element, page, row, scrolling, section, table
from .report.parts import number
from .versions import named, place, whole

if TYPE_CHECKING:
    from .reading import Tables
    from .report.facts import Told
    from .report.page import Cell
    from .sizes import Size

REST = "GET /VIEW?version=N&after=A&limit=L&where=COLUMN=VALUE&order=COLUMN&columns=A,B&format=json|jsonl|csv"
# How many versions are shown.
SHOWN = 100


def report_of(folder: Path, version: int) -> Told | None:
    """What the report of a version says, or None without one."""
    try:
        with opened(place(folder, version) / "report.txt") as file:
            return told(file.read().decode())
    except (OSError, Damaged):
        return None


def is_page_of(file: Path, version: Path) -> bool:
    """Whether there is a page of a version: one that is older is of a night before, which was moved away."""
    try:
        return file.stat().st_mtime_ns >= version.stat().st_mtime_ns
    except OSError:
        return False


def view_row(tables: Tables, name: str, sizes: Mapping[str, Size]) -> str:
    """A view, with its columns and the ways to its rows."""
    view, version = tables.views.get(name), tables.number
    columns = ", ".join(f"{column} {kind}" for column, kind in view.columns) if view else ""
    kind = "" if view is None else "base" if view.is_base else f"over {', '.join(view.over)}"
    ways = (element("a", text, href=f"/{name}?version={version}&format={text.lower()}") for text in ("JSON", "CSV"))
    rows = f"{sizes[name].after:,}" if name in sizes else ""
    cells: list[Cell] = [(element("code", escape(name)), "fit"), (rows, "number fit"), escape(kind), (escape(columns), "soft")]
    return row([*cells, (" ".join(ways), "fit")])


def version_row(folder: Path, version: int, current: int | None, shown: int) -> str:
    """A version, with what its night came to; nothing where it was pruned meanwhile."""
    found = report_of(folder, version)
    try:
        made = time.strftime("%Y-%m-%d %H:%M", time.localtime(place(folder, version).stat().st_mtime))
    except OSError:
        return ""
    known = ("current", version == current), ("shown here", version == shown), ("computed anew", found and found.anew)
    marks = [word for word, is_it in known if is_it]
    tags = " ".join(element("span", mark, class_="tag") for mark in marks)
    name = element("a", f"version {version}", href=f"/?version={version}")
    has_page = is_page_of(folder / f"reports/{version}.html", place(folder, version))
    report = element("a", "report", href=f"/reports/{version}.html") if has_page else ""
    numbers: list[Cell] = ["", ""]
    if found:
        numbers = [number(found.work), number(sum(size.changed for size in found.sizes.values()))]
    return row([(name, "fit"), tags, (made, "fit"), *numbers, (report, "fit")])


def session_box(tables: Tables, left: float | None, promise: float, said: str) -> str:
    """The session of this browser, if it has one, and how to open or to leave one."""
    if left is not None:
        text = f"Your session pins version {tables.number} for {left / 60:.0f} more minutes, whatever nights do meanwhile."
        button = element("form", '<button>Leave it</button>', method="post", action="/session/leave")
    else:
        text = f"Each request reads one version whole. A session pins the current one for {promise / 60:g} minutes."
        button = element("form", '<button>Open a session</button>', method="post", action="/session")
    told_of = element("p", element("strong", escape(said[:1].upper() + said[1:] + "."))) if said else ""
    return section("session", "Your session", told_of + element("p", text) + button)


def page_of_versions(folder: Path, tables: Tables, left: float | None, promise: float, said: str) -> str:
    """The page of a version, for a session that has so many seconds left, or for none, beneath what is said."""
    name, found = os.path.basename(os.path.abspath(folder)), report_of(folder, tables.number)
    sizes, current = found.sizes if found else {}, named(folder)
    views = [view_row(tables, each, sizes) for each in tables.paths]
    heads: list[Cell] = ["view", ("rows", "number"), "", "columns", "read"]
    versions = [version_row(folder, each, current, tables.number) for each in reversed(whole(folder)[-SHOWN:])]
    rest, following, after = (element("code", escape(text)) for text in (REST, "next", "after"))
    about = element("p", f"Programs read by {rest}; a page's {following} is the {after} of the next one.", class_="soft")
    parts = [section("views", f"The views of version {tables.number}", about + scrolling(table(heads, views), "the views"))]
    heads = ["version", "", "made", ("work", "number"), ("changed rows", "number"), ""]
    parts.append(session_box(tables, left, promise, said))
    parts.append(section("versions", "The versions", scrolling(table(heads, versions), "the versions")))
    header = element("header", element("h1", escape(name)) + element("p", f"Version {tables.number} of this warehouse.", class_="soft"))
    return page(name, header + element("main", "\n".join(parts), id="content"))
