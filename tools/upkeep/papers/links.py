"""Whether links lead somewhere, and whether each paper is led to."""

import re

from upkeep.papers.paper import Judged, line_of

LINK = re.compile(r"\]\((?P<to>[^)\s]+)\)")
OUTSIDE = ("http:", "https:", "mailto:")


def inner_links(paper):
    """The place, the file and the anchor of each link that does not leave the tree by its form."""
    for found in LINK.finditer(paper.prose):
        if not found["to"].startswith(OUTSIDE):
            path, _, anchor = found["to"].partition("#")
            led = (paper.path.parent / path).resolve() if path else paper.path.resolve()
            yield found, led, anchor


def fault_of(paper, papers, led, anchor):
    """What is wrong with a link to this file and anchor, if anything is."""
    root = paper.root.resolve()
    if not led.exists():
        return "which is not there"
    if root not in (led, *led.parents):
        return "which is outside of the tree"
    target = papers.get(led.relative_to(root).as_posix())
    if anchor and target and anchor not in target.anchors:
        return "where no heading has that name"
    return ""


def judged_links(papers):
    """Each link."""
    for paper in papers.values():
        for found, led, anchor in inner_links(paper):
            fault = fault_of(paper, papers, led, anchor)
            yield Judged(paper.name, line_of(paper.prose, found.start()), fault and f"leads to {found['to']}, {fault}")


def judged_reached(papers, start="README.md"):
    """Each paper: whether links lead to it from the first one."""
    if start not in papers:
        yield Judged(start, 1, "is not there")
        return
    reached, left = {start}, [start]
    while left:
        paper = papers[left.pop()]
        root = paper.root.resolve()
        led = {to.relative_to(root).as_posix() for _, to, _ in inner_links(paper) if root in to.parents}
        new = (led & papers.keys()) - reached
        reached |= new
        left += sorted(new)
    for name in papers:
        yield Judged(name, 1, "" if name in reached else f"no links lead here from {start}")
