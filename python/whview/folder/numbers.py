"""Whole numbers of 64 bits, as texts have them."""

from __future__ import annotations

import re

NUMBER = re.compile(r"([+-]?)0*([0-9]+)")
# The least number that is too large, and how many digits it has.
MOST, DIGITS = 2**63, 19


def number_of(text: str) -> int | None:
    """The number that a text is; None of a text that is none, or one that leaves 64 bits, however many digits it has."""
    found = NUMBER.fullmatch(text)
    if not found or len(found[2]) > DIGITS:
        return None
    value = int(found[1] + found[2])
    return value if -MOST <= value < MOST else None


def is_between(text: str, least: int, most: int) -> bool:
    """Whether a text is a whole number from the least to the most, which have 64 bits."""
    value = number_of(text)
    return value is not None and least <= value <= most
