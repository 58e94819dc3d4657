"""Where the values of a catalogue stand in its text: of each view its keys, and of each key its value with all that is in it."""

import re
from collections.abc import Callable, Iterator
from typing import NamedTuple, TypeAlias, TypeVar

TOKEN = re.compile(
    r"""(?P<skip>[ \t\r]+|\#[^\n]*)|(?P<line>\n)|(?P<value>\"{3}.*?\"{3,5}|'{3}.*?'{3,5}|"(?:\\.|[^"\\\n])*"|'[^'\n]*'|[A-Za-z0-9_+.:-]+)"""
    r"|(?P<mark>.)",
    re.DOTALL,
)


# A line and a column, counted from 1.
At: TypeAlias = tuple[int, int]
Member = TypeVar("Member")


class Token(NamedTuple):
    """A value, a mark such as `[`, or a line's end."""

    kind: str
    text: str
    line: int
    column: int

    @property
    def at(self) -> At:
        return self.line, self.column


class Spot(NamedTuple):
    """Where a value begins, and the spots of its members, which an inline table has by their keys."""

    place: At
    members: "list[Spot] | dict[str, KeyPlaces]"


class KeyPlaces(NamedTuple):
    """Where a key stands, and its value."""

    key: At
    value: Spot


def tokens(text: str) -> Iterator[Token]:
    """The tokens of a text, without comments and blanks."""
    line, start = 1, 0
    for found in TOKEN.finditer(text):
        if found.lastgroup and found.lastgroup != "skip":
            yield Token(found.lastgroup, found[0], line, found.start() - start + 1)
        if "\n" in found[0]:
            line += found[0].count("\n")
            start = found.start() + found[0].rfind("\n") + 1


def statements(text: str) -> Iterator[list[Token]]:
    """The tokens of each statement: a value that is open at a line's end goes on in the next line."""
    statement: list[Token] = []
    depth = 0
    for token in tokens(text):
        if token.kind == "line" and depth == 0:
            yield statement
            statement = []
        elif token.kind != "line":
            depth += {"[": 1, "{": 1, "]": -1, "}": -1}.get(token.text, 0) if token.kind == "mark" else 0
            statement.append(token)
    yield statement


def is_mark(token: Token, marks: str) -> bool:
    return token.kind == "mark" and token.text in marks


def spot(found: list[Token]) -> Spot:
    """The spot of the value that these tokens begin with, which are taken off their list. The tokens are those of sound TOML."""
    first = found.pop(0)
    if is_mark(first, "["):
        return Spot(first.at, members(found, "]", spot))
    if is_mark(first, "{"):
        return Spot(first.at, dict(members(found, "}", entry)))
    return Spot(first.at, [])


def members(found: list[Token], end: str, taken: Callable[[list[Token]], Member]) -> list[Member]:
    """What stands between two brackets, up to this end."""
    listed = []
    while not is_mark(found[0], end):
        listed.append(taken(found))
        while not is_mark(found[0], "," + end):
            found.pop(0)
        if is_mark(found[0], ","):
            found.pop(0)
    found.pop(0)
    return listed


def entry(found: list[Token]) -> tuple[str, KeyPlaces]:
    """A key of an inline table, and its value."""
    key = found.pop(0)
    while not is_mark(found.pop(0), "="):
        pass
    return key.text.strip("\"'"), KeyPlaces(key.at, spot(found))


def top_place(text: str, key: str) -> At:
    """The place of a key of the catalogue itself, or of the first heading of a table of this name."""
    for statement in filter(None, statements(text)):
        words = [token.text.strip("\"'") for token in statement if not is_mark(token, "[")]
        if words[0].partition(".")[0] == key:
            return statement[0].at
    return 1, 1


class ViewPlaces(NamedTuple):
    """Where a view's heading stands, and its keys by name."""

    heading: At
    keys: dict[str, KeyPlaces]


def places(text: str) -> list[ViewPlaces]:
    """Of each view the place of its heading, and its keys by name. A table of a view is a key that stands at its heading."""
    found: list[ViewPlaces] = []
    within: dict[str, KeyPlaces] | None = None
    for statement in filter(None, statements(text)):
        words = [token.text for token in statement]
        if words == ["[", "[", "view", "]", "]"]:
            found.append(ViewPlaces(statement[0].at, {}))
            within = None
        elif words[0] == "[" and found:
            within = {}
            found[-1].keys.setdefault(words[1].removeprefix("view."), KeyPlaces(statement[0].at, Spot(statement[0].at, within)))
        elif words[1:2] == ["="] and within is not None:
            within[words[0].strip("\"'")] = entry(list(statement))[1]
        elif words[1:2] == ["="] and (found or words[0] != "view"):
            if found:
                found[-1].keys[words[0].strip("\"'")] = entry(list(statement))[1]
        elif words[:2] == ["view", "="]:
            listed = entry(list(statement))[1].value.members
            found += [ViewPlaces(each.place, each.members if isinstance(each.members, dict) else {}) for each in listed if isinstance(each, Spot)]
    return found
