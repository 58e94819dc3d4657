"""Tests of docs/OPERATING.md: each status and each text of a refusal that docs/FORMATS.md has stands in it, and no other."""

import re

from upkeep.words import ROOT
from whview.status import AT_WORK, NO_ANSWER

FORMATS = (ROOT / "docs/FORMATS.md").read_text()
OPERATING = (ROOT / "docs/OPERATING.md").read_text()
CODE = re.compile(r"`([^`\n]+)`")


def section(text, heading):
    """What stands below a heading, up to the next one of its level or a higher one."""
    level = len(heading) - len(heading.lstrip("#"))
    below = text[text.index(f"\n{heading}\n") + len(heading) + 1 :]
    return re.split(rf"\n#{{1,{level}}} ", below)[0]


def rows(text):
    return [re.split(r" \| ", line.strip("| ")) for line in text.splitlines() if line.startswith("| ")]


def said(cell):
    return CODE.findall(cell)


def faults():
    """The texts of the faults of the input and of a shape."""
    listed = section(FORMATS, "## Faults of the input")
    return {text for row in rows(listed) for cell in row for text in said(cell) if re.match(r"fault [a-z]+( |$)|memory$", text)}


def replies():
    """The refusals of a replay and what an expired session is told."""
    listed = rows(section(FORMATS, "### Replies of `replay`"))
    names = [name for row in listed if said(row[0]) == ["refused NAME"] for name in said(row[1])]
    return {f"refused {name}" for name in names} | {text for row in listed for text in said(row[0]) if text.startswith("expired ")}


def verdicts():
    """The negative verdicts of all commands, and how a night is refused."""
    cells = [cell for row in rows(section(FORMATS, "## What is printed")) for cell in row]
    texts = {text for cell in cells for text in said(cell)}
    negative = {text for text in texts if re.match("broken |rejected |budget |left |memory$", text)}
    return negative | {f"refused {text}" for text in texts if re.fullmatch("(large|range|absent) V", text)}


def told_of():
    """The texts in the first cells of its tables."""
    return {text for row in rows(OPERATING) for text in said(row[0])}


def test_each_text_of_a_refusal_stands_in_it_and_no_other():
    wanted = faults() | replies() | verdicts()
    for text in ("fault toml", "fault shape empty V", "memory", "refused Busy", "expired S current C idle", "broken Sk at P", "refused absent V"):
        assert text in wanted
    assert told_of() == wanted


def test_each_status_stands_in_it():
    statuses = {row[0] for row in rows(section(FORMATS, "## The command line")) if row[0].isdecimal()}
    assert statuses == set("012345")
    told = {status for row in rows(section(OPERATING, "## By status")) for status in re.findall(r"\d+", row[0])}
    assert statuses | {str(AT_WORK), str(NO_ANSWER), "129", "130", "143"} <= told
