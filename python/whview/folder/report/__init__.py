"""`report`: a night as one HTML file that needs nothing else: reports/N.html of a version, the current one where none is named; and
reports/preview.html of the preview in new/, where the word is `new` or there is no version yet.

Work is what the metric counts, all rows of what each step reads; beside it stands how many changed rows really go through a step, and how
many seconds the whole night took. Where the night went by another catalogue than the one before, its views were computed anew, and what
is told of their rows compares the tables of both versions.
"""

from __future__ import annotations

import os
from collections.abc import Sequence
from html import escape
from pathlib import Path
from typing import TYPE_CHECKING

from ...disk import remove, telling, write
from ...finding import Failure
from ...program import told_of
from ...status import BAD_INPUT, DONE, Status
from ..reading import whole_number
from . import parts
from .facts import Night
from .page import element, page
from .plans import beside, least
from .rows import changed, opening

if TYPE_CHECKING:
    from ..command import Words
    from .plans import Beside

FOLDER, PREVIEW = "reports", "new"
PARTS = ("graph", "The graph"), ("steps", "Steps"), ("views", "Views"), ("rows", "Changed rows"), ("plans", "Plans")
LATER = ("certificate", "The certificate"), ("history", "History")


def head(night: Night, strategies: Sequence[Beside]) -> str:
    """The title, and the night in a few numbers."""
    name = os.path.basename(os.path.abspath(night.folder))
    how = f"{night.made}. {night.told.how[:1].upper()}{night.told.how[1:]}." if night.told.how else f"{night.made}."
    readers = "".join(element("p", escape(line), class_="soft mono") for line in night.told.readers)
    title, took = element("h1", f"{escape(name)}, {night.title}"), f" It took {night.told.time}." if night.told.time else ""
    aside = element("p", element("strong", escape(night.told.aside))) if night.told.aside else ""
    told = element("p", escape(how + took), class_="soft") + readers + aside + parts.anew(night)
    return element("header", title + told + parts.figures(night, strategies))


def text_of(night: Night, words: Words) -> str:
    """The report of a night."""
    before = opening(night, words)
    night.count(before)
    plan = least(night, words)
    strategies = beside(night, plan)
    rows = {view.name: changed(night, view, before) for view in night.views}
    night.compare(rows)
    made = [parts.graph(night), parts.steps(night), parts.views(night, rows), parts.first_rows(night, rows)]
    made += [parts.plans(night, strategies, plan), parts.certificate(night, plan), parts.history(night)]
    links = (element("li", element("a", text, href=f"#{name}")) for name, text in PARTS + LATER if name != "certificate" or plan.text)
    nav = element("nav", element("ul", "".join(links)), aria_label="parts of this report")
    by = f"By {escape(told_of(words.named, words.unproved))}, as far as a program was asked for this page."
    foot = element("footer", f"Made by <code>whview folder report</code> of {escape(str(night.folder))}, {night.title}. {by}")
    body = head(night, strategies) + nav + element("main", "\n".join(made), id="content") + foot
    return page(f"{os.path.basename(os.path.abspath(night.folder))}, {night.title}", body)


def put(file: Path, text: str) -> None:
    """Writes a file whole, by a rename."""
    os.makedirs(file.parent, exist_ok=True)
    part = file.with_name(f".{file.name}.{os.getpid()}")
    try:
        with telling(file):
            # A folder's name may be no text.
            write(part, [text.encode(errors="replace")])
            os.rename(part, file)
    finally:
        remove(part)


def run(words: Words) -> Status:
    asked = words.operands[1] if len(words.operands) > 1 else None
    number = None if asked is None or asked == PREVIEW else whole_number(asked, f"a version, where it is not {PREVIEW},", 0, 2**63 - 1)
    night = Night(words.folder, number, asked == PREVIEW)
    with night.kept:
        faults = [finding for finding in night.catalogue.findings if not finding.warns]
        if faults:
            raise Failure(BAD_INPUT, *faults)
        if not night.views:
            raise Failure(BAD_INPUT, f"{night.title} of {words.folder} has no views, and no page")
        text = text_of(night, words)
    file = words.folder / FOLDER / f"{'preview' if night.number is None else night.number}.html"
    put(file, text)
    print(file)
    return DONE
