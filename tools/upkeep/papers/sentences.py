"""How long the sentences of a paper may be."""

import re

from upkeep.papers.paper import MARK, Judged, without_blocks

MOST_WORDS = 30
CODE = "\0"
# A sentence ends before a capital letter, a mark of code, or our own name.
END = re.compile(rf"(?<=[.!?:])[\"*)]*\s+(?=[\"*(\[]*(?:[A-Z0-9{CODE}]|whview\b))")
WORD = re.compile(rf"[\w{CODE}'’-]+")
TARGET = re.compile(r"\]\([^)]*\)")


def sentences(paper):
    """The line and the text of each sentence, a mark of code being one word; a quoted line is somebody's own words."""
    text = TARGET.sub("]", MARK.sub(CODE, without_blocks(paper.by_hand)))
    for number, line in enumerate(text.split("\n"), 1):
        cells = line.strip("|").split(" | ") if line.startswith("|") else [line]
        yield from ((number, each) for cell in cells if not line.startswith(">") for each in END.split(cell) if each.strip())


def judged_sentences(papers):
    """Each sentence that is written by hand."""
    for name, paper in papers.items():
        for line, text in sentences(paper):
            words = len(WORD.findall(text))
            told = " ".join(text.replace(CODE, "``").split()[:6])
            yield Judged(name, line, "" if words <= MOST_WORDS else f"{told!r} .. has {words} words, and a sentence may have {MOST_WORDS}")
