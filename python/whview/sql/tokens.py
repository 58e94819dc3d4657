"""SQL as tokens: a script is made of words, quoted names, quoted texts, numbers and comments, and no other text comes into it."""

from __future__ import annotations

import re
from collections.abc import Iterable, Sequence
from functools import lru_cache
from typing import NamedTuple, Union

WORD, NAME, TEXT, NUMBER, COMMENT, BODY, END, LINE = "word", "name", "text", "number", "comment", "body", "end", "line"
# The longer ones stand before those that they begin with.
MARKS = "->> #>> !~* -> #> @> <@ && ?| ?& !~ ~* ~ ? :: || <= >= <> >> := ( ) , . * = < > + - / % & [ ] #".split()
PIECE = re.compile(
    r"(?P<hole>\{[a-z_]+\})|(?P<line>\n *)|(?P<blank> +)|(?P<word>[A-Za-z_][A-Za-z0-9_]*)|(?P<number>[0-9]+)|(?P<mark>"
    + "|".join(map(re.escape, MARKS))
    + ")"
)
SOUND = {
    WORD: re.compile(r"[A-Za-z_][A-Za-z0-9_]*|" + "|".join(map(re.escape, MARKS))),
    NUMBER: re.compile(r"-?[0-9]+"),
    COMMENT: re.compile(r"[^\x00-\x1f\x7f\x85\u2028\u2029\ud800-\udfff]*"),
    NAME: re.compile(r"[^\x00-\x1f\x7f\ud800-\udfff]+"),
    TEXT: re.compile(r"[^\x00\ud800-\udfff]*"),
    END: re.compile(";"),
    LINE: re.compile("\n *"),
}


class Unfit(Exception):
    """Why no script can be made."""


class Token(NamedTuple):
    """A token of a kind: what it says, which of a body are the tokens of a program of the engine's."""

    kind: str
    said: Union[str, Sql]


class Sql:
    """Tokens in their order. Nothing is added to them once they are made."""

    __slots__ = ("tokens",)
    tokens: tuple[Token, ...]

    def __init__(self, tokens: Sequence[Token]) -> None:
        for token in tokens:
            self.judge(token)
        object.__setattr__(self, "tokens", tuple(tokens))

    @classmethod
    def of(cls, parts: Iterable[Sql | Judged]) -> Sql:
        """The tokens of parts, each of which is SQL already or a token that was judged."""
        found: list[Token] = []
        for part in parts:
            if isinstance(part, Sql):
                found += part.tokens
            elif isinstance(part, Judged):
                found.append(part.token)
            else:
                raise TypeError(f"{part!r} is no SQL")
        made = object.__new__(cls)
        object.__setattr__(made, "tokens", tuple(found))
        return made

    def __setattr__(self, *_: object) -> None:
        raise AttributeError("tokens stay as they are made")

    def __eq__(self, other: object) -> bool:
        return isinstance(other, Sql) and self.tokens == other.tokens

    def __hash__(self) -> int:
        return hash(self.tokens)

    def __bool__(self) -> bool:
        return bool(self.tokens)

    def __repr__(self) -> str:
        return f"Sql({self.tokens!r})"

    @staticmethod
    def judge(token: Token) -> None:
        """Refuses a token that says more than one of its kind may."""
        said = token.said
        sound = token.kind == BODY if isinstance(said, Sql) else token.kind != BODY and SOUND[token.kind].fullmatch(said)
        if not sound:
            raise Unfit(f"{token.said!r} cannot stand in SQL as a {token.kind}")


class Judged:
    """A token that was judged."""

    __slots__ = ("token",)

    def __init__(self, token: Token) -> None:
        Sql.judge(token)
        self.token = token


END_OF_STATEMENT = Sql([Token(END, ";")])


@lru_cache(maxsize=None)
def pieces(template: str) -> list[str | Judged]:
    """The fixed tokens of a template, and the names of its holes."""
    found: list[str | Judged] = []
    at = 0
    while at < len(template):
        piece = PIECE.match(template, at)
        if piece is None or template.startswith(("--", "/*"), at):
            raise Unfit(f"the template {template!r} has {template[at]!r}")
        kind, said, at = piece.lastgroup, piece[0], piece.end()
        if kind and kind != "blank":
            found.append(said[1:-1] if kind == "hole" else Judged(Token(WORD if kind == "mark" else kind, said)))
    return found


def sql(template: str, **parts: Sql) -> Sql:
    """A template whose holes are filled with tokens."""
    return Sql.of(parts[piece] if isinstance(piece, str) else piece for piece in pieces(template))


def word(said: str, number: int | str = "") -> Sql:
    """A word of the script's own, such as c1."""
    return Sql([Token(WORD, f"{said}{number}")])


def name(said: str) -> Sql:
    """A name, in quotes."""
    return Sql([Token(NAME, said)])


def name_of(said: Sql) -> str:
    """The name that tokens end with, without its quotes."""
    last = said.tokens[-1].said
    if isinstance(last, Sql):
        raise Unfit(f"{said!r} ends with no name")
    return last


def text(said: str) -> Sql:
    """A text, in quotes."""
    if "\0" in said:
        raise Unfit(f"the text {said!r} has U+0000, which SQL has no texts with: put another letter in its place")
    return Sql([Token(TEXT, said)])


def number(said: int) -> Sql:
    return Sql([Token(NUMBER, str(int(said)))])


def comment(said: str) -> Sql:
    return Sql([Token(COMMENT, said)])


def body(statements: Sql) -> Sql:
    """A program as the text of a statement."""
    return Sql([Token(BODY, statements)])


def line(depth: int = 0) -> Sql:
    """A line's end."""
    return Sql([Token(LINE, "\n" + "  " * depth)])


def joined(parts: Iterable[Sql], between: str | None = ",") -> Sql:
    """Parts with words or a mark between them."""
    mark, found = sql(between) if between else None, list[Sql]()
    for part in parts:
        found += [mark, part] if mark and found else [part]
    return Sql.of(found)


def statements(parts: Iterable[Sql], depth: int = 0) -> Sql:
    """Statements and comments, each on a line of its own; a statement gets its end."""
    found: list[Sql] = []
    for part in parts:
        ends = part.tokens[-1].kind in (COMMENT, END)
        found += [line(depth), part] if ends else [line(depth), part, END_OF_STATEMENT]
    return Sql.of(found)
