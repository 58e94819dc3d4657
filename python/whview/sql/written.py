"""The one place where tokens are written out."""


from __future__ import annotations

from .tokens import COMMENT, END, LINE, NAME, TEXT, WORD, Sql, Token

CLOSE_BEFORE, CLOSE_AFTER = frozenset((*",).];[", "::")), frozenset((*"(.[", "::"))
ESCAPES = {"\\": "\\\\", "'": "\\'", "\n": "\\n", "\r": "\\r"}
# Words before a bracket that call nothing.
APART = frozenset("AND AS BY CHECK ELSE EXISTS FROM HAVING IN JOIN NOT ON OR OVER SELECT SET THEN USING VALUES WHEN WHERE".split())


class Writer:
    """Writes tokens as an engine reads them whose quotes are doubled within quotes."""

    def written(self, given: Sql) -> str:
        """The text of tokens."""
        found: list[str] = []
        before: Token | None = None
        for token in given.tokens:
            if before is not None and before.kind == COMMENT and token.kind != LINE:
                found.append("\n")
            if before is not None and self.parted(before, token):
                found.append(" ")
            found.append(self.token(token))
            before = token
        return "".join(found)

    def parted(self, before: Token, token: Token) -> bool:
        """Whether a blank stands between two tokens."""
        if LINE in (before.kind, token.kind) or before.kind == COMMENT:
            return False
        if token.kind == END or (token.kind == WORD and token.said in CLOSE_BEFORE):
            return False
        if before.kind == WORD and before.said in CLOSE_AFTER:
            return False
        calls = before.kind == WORD and str(before.said).isidentifier() and before.said not in APART
        return not (calls and token.kind == WORD and token.said == "(")

    def token(self, token: Token) -> str:
        """A token as it is written: words, numbers and lines' ends as they are."""
        kind, said = token.kind, token.said
        if isinstance(said, Sql):
            return self.body(said)
        if kind == NAME:
            return self.name(said)
        if kind == TEXT:
            return self.text(said)
        return self.comment(said) if kind == COMMENT else said

    def name(self, said: str) -> str:
        return '"' + said.replace('"', '""') + '"'

    def text(self, said: str) -> str:
        return "'" + said.replace("'", "''") + "'"

    def comment(self, said: str) -> str:
        return f"-- {said}"

    def body(self, said: Sql) -> str:
        """A program between two marks that do not stand in it."""
        inner, tag = self.written(said), "night"
        while f"${tag}$" in inner:
            tag += "_"
        return f"${tag}${inner}\n${tag}$"


class EscapingWriter(Writer):
    """The same where a text with a backslash or a line's end is one with escapes."""

    def text(self, said: str) -> str:
        if set(said) & {"\\", "\n", "\r"}:
            return "E'" + "".join(ESCAPES.get(letter, letter) for letter in said) + "'"
        return super().text(said)
