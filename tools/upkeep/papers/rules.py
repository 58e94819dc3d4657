"""Words that no paper has, and words that a paper has to explain."""

import re

from upkeep.papers.own_words import judged_own_words
from upkeep.papers.paper import Judged, line_of

# What was said of things before they were there, and what stands outside of the repository.
FORBIDDEN = [
    (r"\bwide forms?\b", "of forms that there are no more"),
    (r"\bto be given later\b", "of what was to come"),
    (r"\bNo command uses it yet\b", "of what was to come"),
    (r"\|\s*planned\s*\||\(planned\)|\*planned\*\*|\bStatus: planned\b|\bplanned for (?:later|a later)\b|\bstill planned\b", "of what was to come"),
    (r"\bnot yet (?:built|written|done|proved|there)\b|\b(?:will|shall) come later\b|\bTODO\b|\bFIXME\b", "of what was to come"),
    (r"(?<![\w.])/(?:home|root|work)/\w|(?<![\w/.])spec/", "a place outside of the repository"),
    (r"\b[Ii]ssues? #?\d+|(?<![\w&/])#\d{2,}\b", "the number of an issue"),
]


def judged_words(papers):
    """Each paper and each word that none has, and each word of our own."""
    yield from judged_own_words(papers)
    for name, paper in papers.items():
        for form, why in FORBIDDEN:
            found = list(re.finditer(form, paper.by_hand))
            yield from (Judged(name, line_of(paper.by_hand, each.start()), f"says {each[0].strip()!r}: {why}") for each in found)
            if not found:
                yield Judged(name, 1)
