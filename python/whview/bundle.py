"""Bundles, written and read, and the tables of an answer.

Bytes are kept as they are: a line that begins with `@` gets a second one, and a last line without a line feed gets one.
"""

import re
from collections.abc import Iterable, Mapping, Sequence
from mmap import mmap
from typing import TypeAlias

HEADING = re.compile(rb"^(?:(?:view|changes) ([A-Za-z_][A-Za-z0-9_]{0,63})|reader [^\n]*)$", re.MULTILINE)
TABLE, CHANGES = b"view ", b"changes "
READER = re.compile(rb"reader [0-9]+ version [0-9]+ rows [0-9]+")
READERS_END = 4096
# An answer, as bytes or as they stand in a file.
Answer: TypeAlias = bytes | mmap
Span: TypeAlias = tuple[int, int]
PIECE = re.compile(rb"(?:^|(?<=\n))@[^\n]*\n?(?:(?!@)[^\n]*\n|(?!@)[^\n]+)*")


# ---- what is written


def part_pieces(heading: str, content: bytes) -> list[bytes]:
    """The same as `part`, in pieces, so that a large content is not copied."""
    if b"@" in content and (content.startswith(b"@") or b"\n@" in content):
        content = (b"\n" + content).replace(b"\n@", b"\n@@")[1:]
    ended = not content or content.endswith(b"\n")
    return [b"@" + heading.encode() + b"\n", content, *([] if ended else [b"\n"])]


def part(heading: str, content: bytes) -> bytes:
    """A part of a bundle: its heading, and its lines, of which those that begin with `@` get a second one."""
    return b"".join(part_pieces(heading, content))


# ---- what is read


def parts_of(text: str) -> tuple[dict[str, list[str]], list[dict[str, list[str]]]]:
    """The parts that stand once, by their headings, and those of each night."""
    once: dict[str, list[str]] = {}
    nights: list[dict[str, list[str]]] = [{}]
    lines: list[str] = []
    for line in text.removesuffix("\n").split("\n"):
        if line.startswith("@") and not line.startswith("@@"):
            heading, lines = line[1:].removesuffix("\r").rstrip(" \t"), []
            if heading == "night":
                nights.append({})
            elif heading == "strategy" or heading.startswith("changes "):
                nights[-1][heading] = lines
            else:
                once[heading] = lines
        else:
            lines.append(line.removeprefix("@") if line.startswith("@@") else line)
    return once, nights


def words_of(lines: Iterable[str]) -> list[list[str]]:
    """The words of each line that is not blank."""
    split = [[word for word in re.split("[ \t]", line.removesuffix("\r")) if word] for line in lines]
    return [words for words in split if words]


def pieces(text: bytes) -> list[bytes]:
    """The bytes of each part with its heading, as they stand."""
    return PIECE.findall(text)


# ---- answers


def has_changes(answer: Answer) -> bool:
    """Whether an answer has the changes of views, and not their tables: what stands behind the line of its version says so."""
    place = answer.find(b"\n", answer.find(b"\nversion ") + 1) + 1
    return answer[place : place + len(CHANGES)] == CHANGES


def headings(answer: Answer) -> list[int]:
    """Where lines begin that may be a view's or a reader's heading, in order. The readers' stand at the end, where there are any."""
    word = CHANGES if has_changes(answer) else TABLE
    found = [0] if answer[: len(word)] == word else []
    found += [line.end() for line in re.finditer(b"\n(?=" + word + b")", answer)]
    last = sum(len(line) + 1 for line in readers(answer))
    return [*found, len(answer) - last] if last else found


def spans_of(answer: Answer, names: Sequence[str]) -> Mapping[str, Span]:
    """Where the tables or changes of these views begin and end, where no more lines read as a heading than there are views; else by
    `spans`.
    """
    places = headings(answer)
    found = [HEADING.match(answer, place) for place in places]
    views = [heading for heading in found if heading and heading[1]]
    if [heading[1].decode() for heading in views] != names or None in found:
        return spans(answer[:])
    ends = [*places[1 : len(views)], places[len(views)] if len(places) > len(views) else len(answer)]
    return {name: (min(heading.end() + 1, end), end) for name, heading, end in zip(names, views, ends)}


def spans(answer: bytes) -> dict[str, Span]:
    """Where the table or the change of each view begins and ends in an answer, by the view's name.

    A line inside a quoted cell is no line of the answer, whatever it reads: quotes in a cell are doubled, so a line ends
    inside a cell exactly where the quotes so far are odd.
    """
    found: dict[str, Span] = {}
    view: str | None = None
    start, counted, quotes = 0, 0, 0
    for place in headings(answer):
        heading = HEADING.match(answer, place)
        if not heading:
            continue
        quotes += answer.count(b'"', counted, place) if view else 0
        counted = place
        if quotes % 2 == 0:
            if view:
                found[view] = start, place
            view, start = heading[1].decode() if heading[1] else None, min(heading.end() + 1, len(answer))
            counted = start
    return found | ({view: (start, len(answer))} if view else {})


def unpack(answer: bytes) -> dict[str, bytes]:
    """The tables of an answer, or the changes, by the names of their views."""
    answer += b"" if answer.endswith(b"\n") else b"\n"
    return {view: answer[start:end] for view, (start, end) in spans(answer).items()}


def readers(answer: Answer) -> list[str]:
    """The lines of an answer's readers, which stand at its end, sixteen at most."""
    found: list[str] = []
    for line in reversed(answer[-READERS_END:].removesuffix(b"\n").split(b"\n")):
        if not READER.fullmatch(line):
            break
        found.insert(0, line.decode())
    return found
