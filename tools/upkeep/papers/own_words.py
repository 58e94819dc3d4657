"""Whether words that the project uses in a sense of its own stand in the paper that says what they are called elsewhere."""

import re

from upkeep.papers.paper import Judged, line_of

PAGE = "docs/WORDS.md"
# Whoever uses a word in a sense that no dictionary of the field gives adds it here, and a row for it there.
OWN = (
    "away, bag, base view, batch, budget, bundle, capture, carry out, catalogue, certificate, claim word, clause, combined row, come true, Comp, couple, course,"
    " cut night, derived view, desired order, desk, dictionary, drawn, fit, fold, gate, generation, ghost count, give up, handle, heir, held, Inst, job, kit, law, ledger,"
    " legal run, machine, manifest, mark, mirror, must-fail edit, net growth, night, night list, one-way, opening contents, pair bound, pending, piece, pin, plant,"
    " preview, print, published list, quarantine, room, rung, scope, session, shape, sieve, slot, spoilt, strategy, summary, sweep, term, torn, trial,"
    " unexpired, version, wave, weight, wide, worker"
).split(", ")
ITALIC = re.compile(r"\*([^*]+)\*")


def form(word):
    """How a word is found, also as a plural."""
    return re.compile(rf"\b{re.escape(word)}s?\b", re.IGNORECASE)


def rows_said(paper):
    """What the rows of the paper say: their first cells, and the words in italics behind these."""
    for line in paper.unfenced.split("\n"):
        cells = line.strip("|").split(" | ") if line.startswith("|") else []
        if cells and not cells[0].startswith("-"):
            yield " ".join([cells[0], *(word for cell in cells[1:] for word in ITALIC.findall(cell))])


def judged_own_words(papers):
    """Each of these words that a paper has, where it stands first: whether a row says what it is called elsewhere."""
    said = "\n".join(rows_said(papers[PAGE])) if PAGE in papers else ""
    for word in OWN:
        known = form(word).search(said)
        first = next(((name, found.start()) for name, paper in papers.items() if (found := form(word).search(paper.prose, 0, paper.end_by_hand))), None)
        if first:
            name, at = first
            yield Judged(name, line_of(papers[name].prose, at), "" if known else f"says {word!r}, and no row of {PAGE} says what that is called elsewhere")
