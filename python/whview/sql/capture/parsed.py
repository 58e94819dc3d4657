"""A view's SELECT as it is read: its columns, tables, joins, conditions and groups; or why it is none that whview keeps."""

from __future__ import annotations

import re
from collections.abc import Callable
from typing import NamedTuple, NoReturn, TypeVar

from .reasons import CLAUSES, CURRENT, WHO, of_cast, of_function, of_word
from .selected import (
    Aggregate, Cast, Column, Compared, Computed, Condition, Distinct, Every, Expression, From, IsNull, Not, Number, Select, Shown, Some, Text, Using,
)

TOKEN = re.compile(
    r"(?P<blank>\s+|--[^\n]*|/\*.*?\*/)|(?P<name>\"(?:[^\"]|\"\")+\"|`[^`]+`)|(?P<text>[Ee]?'(?:[^']|'')*')|(?P<number>\d+(?:\.\d+)?(?![\w.]))"
    r"|(?P<word>[^\W\d]\w*)|(?P<mark>::|<>|!=|!?~~\*?|!?~\*?|->>?|#>>?|#-|<<=|>>=|<=|>=|==|<<|>>|@>|<@|@@|@\?|&&|<->|-\|-|\^@|\|\||.)",
    re.DOTALL,
)
COMPARED = {"=": "=", "==": "=", "<>": "<>", "!=": "<>", "<": "<", "<=": "<=", ">": ">", ">=": ">="}
RESERVED = {
    *CLAUSES, "SELECT", "FROM", "WHERE", "GROUP", "BY", "JOIN", "INNER", "CROSS", "ON", "USING", "AND", "OR", "NOT", "AS", "IN", "IS", "BETWEEN", "ANY", "ALL",
    "NULL", "COLLATE",
}


class NotTaken(Exception):
    """Why a view is not taken."""


class Token(NamedTuple):
    """A token: its kind, and what it says."""

    kind: str
    said: str


T = TypeVar("T")


def tokens(text: str) -> list[Token]:
    """The tokens of a text."""
    found: list[Token] = []
    for piece in TOKEN.finditer(text):
        kind, said = piece.lastgroup, piece[0]
        if kind == "name":
            said = said[1:-1].replace('""', '"')
        elif kind == "text":
            said = said[said.index("'") + 1 : -1].replace("''", "'").replace("\\\\", "\\") if said[0] in "Ee" else said[1:-1].replace("''", "'")
        if kind is not None and kind != "blank":
            found.append(Token(kind, said))
    return [*found, Token("end", "its end")]


class Parser:
    """Reads one SELECT from its tokens."""

    def __init__(self, text: str) -> None:
        self.tokens, self.at = tokens(text), 0
        self.equal: list[Using | Condition] = []

    # ---- tokens

    @property
    def said(self) -> str | None:
        """The next word, in capitals, or the next mark."""
        kind, said = self.tokens[self.at]
        return said.upper() if kind == "word" else said if kind in ("mark", "end") else None

    def took(self, *words: str) -> bool:
        """Whether the next tokens are these words, which are gone through then."""
        there = [said.upper() if kind == "word" else said for kind, said in self.tokens[self.at : self.at + len(words)] if kind in ("word", "mark")]
        if there != list(words):
            return False
        self.at += len(words)
        return True

    def want(self, word: str) -> None:
        """Goes through a word that has to stand here."""
        if not self.took(word):
            self.refuse_here(f"where {word} is read")

    def refuse_here(self, where: str) -> NoReturn:
        """Refuses what stands here, by its own reason where it has one."""
        is_zone = [said.upper() for _, said in self.tokens[self.at : self.at + 3]] == ["AT", "TIME", "ZONE"]
        raise NotTaken(of_word("AT TIME ZONE" if is_zone else self.said or "") or f"{self.tokens[self.at][1]!r} stands {where}")

    def name(self) -> str:
        """A name, which no word of SQL's own is."""
        kind, said = self.tokens[self.at]
        if kind not in ("word", "name") or (kind == "word" and said.upper() in RESERVED):
            self.refuse_here("where a name is read")
        self.at += 1
        return said

    def listed(self, read: Callable[[], T]) -> list[T]:
        """What stands between commas."""
        found = [read()]
        while self.took(","):
            found.append(read())
        return found

    # ---- the statement

    def heading(self) -> list[str] | None:
        """What a statement that makes a view calls its columns, if it does, and what it makes is gone through."""
        if not self.took("CREATE"):
            return None
        self.want("VIEW")
        self.took("IF", "NOT", "EXISTS")
        self.name()
        while self.took("."):
            self.name()
        names = None
        if self.took("("):
            names = self.listed(self.name)
            self.want(")")
        self.want("AS")
        return names

    def select(self) -> Select:
        """The SELECT, to its end."""
        self.want("SELECT")
        shown = self.listed(self.output)
        self.want("FROM")
        tables = [table for joined in self.listed(self.joined) for table in joined]
        where = self.condition() if self.took("WHERE") else None
        groups = self.listed(self.expression) if self.took("GROUP", "BY") else None
        self.took(";")
        if self.said != "its end":
            self.refuse_here("behind its end")
        return Select(shown, tables, self.equal, where, groups)

    def output(self) -> Shown:
        """A column that is shown, and its name or None."""
        if self.took("*"):
            raise NotTaken("it has *: name its columns")
        found = self.expression()
        if self.took("AS"):
            return Shown(found, self.name())
        kind, said = self.tokens[self.at]
        if kind == "name" or kind == "word" and said.upper() not in RESERVED:
            return Shown(found, self.name())
        if isinstance(found, Column):
            return Shown(found, found.said)
        return Shown(found, found.kind.lower() if isinstance(found, Aggregate) else None)

    def joined(self) -> list[From]:
        """Tables that are joined."""
        found = self.table()
        while self.said in ("JOIN", "INNER", "CROSS"):
            crosses = self.took("CROSS")
            self.took("INNER")
            self.want("JOIN")
            more = self.table()
            if crosses:
                pass
            elif self.took("USING"):
                self.want("(")
                left, right = (tuple(table.alias for table in side) for side in (found, more))
                self.equal += [Using(name, left, right) for name in self.listed(self.name)]
                self.want(")")
            else:
                self.want("ON")
                self.equal.append(self.condition())
            found = found + more
        return found

    def table(self) -> list[From]:
        """A table with its name there, or a join in brackets."""
        if self.took("("):
            if self.said == "SELECT":
                raise NotTaken("it has a SELECT in its FROM: make that a view")
            found = self.joined()
            self.want(")")
            return found
        is_only = self.took("ONLY")
        schema: str | None = None
        name = self.name()
        while self.took("."):
            schema, name = name, self.name()
        if is_only:
            raise NotTaken(f"it is over ONLY {name}, and a table's rows are taken with those of its heirs and parts: leave ONLY out")
        if self.said == "(":
            raise NotTaken(f"it is over the function {name}")
        kind, said = self.tokens[self.at]
        named = self.took("AS") or kind == "name" or kind == "word" and said.upper() not in RESERVED
        return [From(schema, name, self.name() if named else name)]

    # ---- conditions

    def condition(self) -> Condition:
        """A condition, or several between OR."""
        found = [self.all_of()]
        while self.took("OR"):
            found.append(self.all_of())
        return Some(tuple(found)) if len(found) > 1 else found[0]

    def all_of(self) -> Condition:
        """A condition, or several between AND."""
        found = [self.negated()]
        while self.took("AND"):
            found.append(self.negated())
        return Every(tuple(found)) if len(found) > 1 else found[0]

    def negated(self) -> Condition:
        """A condition behind NOT, or without."""
        return Not(self.negated()) if self.took("NOT") else self.compared()

    def compared(self) -> Condition:
        """A comparison, or a condition in brackets, which is told from an expression in brackets by what follows. Where it is neither, the
        reason is that of the reading which went further."""
        start, reached = self.at, -1
        reason: NotTaken | None = None
        if self.took("("):
            try:
                found = self.condition()
                self.want(")")
                if self.said not in (*COMPARED, "+", "-", "*", "::", "IS", "IN", "BETWEEN", "NOT"):
                    return found
            except NotTaken as why:
                reached, reason = self.at, why
            self.at = start
        try:
            return self.compared_with()
        except NotTaken:
            if reason is not None and self.at < reached:
                raise reason from None
            raise

    def compared_with(self) -> Condition:
        """A comparison, or another test of an expression."""
        left = self.expression()
        if self.said not in COMPARED:
            return self.tested(left)
        sign = COMPARED[self.tokens[self.at].said]
        self.at += 1
        if self.took("ANY"):
            if sign != "=":
                raise NotTaken("it compares with ANY of an array: write each comparison")
            return self.one_of(left, self.array())
        if self.took("ALL"):
            if sign != "<>":
                raise NotTaken("it compares with ALL of an array: write each comparison")
            return Not(self.one_of(left, self.array()))
        return Compared(sign, left, self.expression())

    def tested(self, left: Expression) -> Condition:
        """What stands behind an expression that is no comparison."""
        if self.took("IS"):
            is_not = self.took("NOT")
            found = self.tested_is(left, "IS NOT" if is_not else "IS")
        else:
            is_not = self.took("NOT")
            found = self.among(left, is_not)
        return Not(found) if is_not else found

    def tested_is(self, left: Expression, words: str) -> Condition:
        """What stands behind IS, or IS NOT."""
        if self.took("DISTINCT", "FROM"):
            return Distinct(left, self.expression())
        if self.said != "NULL":
            word = f"{words} {self.tokens[self.at].said}"
            raise NotTaken(f"it has {word}: write the condition or the comparison itself, and IS NULL or IS NOT NULL beside it where it may be NULL")
        self.want("NULL")
        return IsNull(left)

    def among(self, left: Expression, is_not: bool) -> Condition:
        """That an expression lies between two others or is one of several; a column alone is a truth value."""
        if self.took("BETWEEN"):
            least = self.expression()
            self.want("AND")
            return Every((Compared(">=", left, least), Compared("<=", left, self.expression())))
        if self.took("IN"):
            self.want("(")
            found = self.one_of(left, self.listed(self.expression))
            self.want(")")
            return found
        if is_not or not isinstance(left, Column):
            self.refuse_here("where a comparison is read")
        return Compared("<>", left, Number(0, 0))

    def one_of(self, left: Expression, members: list[Expression]) -> Condition:
        """That an expression is one of these."""
        return Some(tuple(Compared("=", left, member) for member in members))

    def array(self) -> list[Expression]:
        """The members of an array, as PostgreSQL writes a list."""
        self.want("(")
        brackets = 1
        while self.took("("):
            brackets += 1
        if self.said != "ARRAY":
            raise NotTaken("it compares with the members of an array that is no list of values: join a table that has them row by row")
        self.want("ARRAY")
        self.want("[")
        found = self.listed(self.expression)
        self.want("]")
        for _ in range(brackets):
            self.casts(found[0])
            self.want(")")
        return found

    # ---- expressions

    def expression(self) -> Expression:
        """Products between + and -."""
        found = self.product()
        while self.said in ("+", "-"):
            sign = self.tokens[self.at].said
            self.at += 1
            found = Computed(sign, found, self.product())
        kind, said = self.tokens[self.at]
        if kind == "mark" and said not in COMPARED and of_word(said):
            self.refuse_here("")
        return found

    def product(self) -> Expression:
        """Atoms between *."""
        found = self.casts(self.atom())
        while self.took("*"):
            found = Computed("*", found, self.casts(self.atom()))
        return found

    def casts(self, found: Expression) -> Expression:
        """An expression with the types that it is cast to, none of which may cut or round."""
        while self.took("::"):
            kind, said = self.tokens[self.at][0], self.name()
            said = f'"{said}"' if kind == "name" else said.lower()
            said += self.more_of_type()
            if self.said in ("(", "."):
                raise NotTaken(of_cast(self.bounded_type(said)))
            while self.took("["):
                self.want("]")
            found = Cast(said, found)
        return found

    def more_of_type(self) -> str:
        """The words behind the first one of a type."""
        found = ""
        while (said := self.said) in ("VARYING", "PRECISION", "WITH", "WITHOUT", "TIME", "ZONE"):
            found += f" {said}".lower()
            self.at += 1
        return found

    def bounded_type(self, said: str) -> str:
        """A type with its length or its places, or in its schema, in words."""
        closed, found = (")", ""), said
        while self.said not in (*closed, "its end"):
            found += self.tokens[self.at][1]
            self.at += 1
        if self.took(")"):
            found += ")" + self.more_of_type()
        return found

    def atom(self) -> Expression:
        """What has no sign within it but within brackets."""
        kind, said = self.tokens[self.at]
        if self.took("("):
            if self.said == "SELECT":
                self.refuse_here("")
            found = self.expression()
            self.want(")")
            return found
        if self.took("-"):
            return Computed("-", Number(0, 0), self.casts(self.atom()))
        if kind == "number":
            self.at += 1
            whole, _, places = said.partition(".")
            return Number(int(whole + places), len(places))
        if kind == "text":
            self.at += 1
            return Text(said)
        if self.said in ("TRUE", "FALSE"):
            self.at += 1
            return Number(int(said.upper() == "TRUE"), 0)
        return self.called_or_column()

    def called_or_column(self) -> Expression:
        """A function that is called, or a column by its name."""
        kind, said = self.tokens[self.at]
        is_array = kind == "word" and said.upper() == "ARRAY" and self.tokens[self.at + 1][1] == "["
        if is_array or kind == "word" and said.upper() in CURRENT | WHO:
            self.refuse_here("")
        names = [self.name()]
        if self.took("("):
            return self.called(names[0].upper())
        if names[0].upper() in ("DATE", "TIMESTAMP", "TIMESTAMPTZ") and self.tokens[self.at][0] == "text":
            return Cast(names[0].lower(), self.atom())
        while self.took("."):
            if self.said == "*":
                raise NotTaken("it has *: name its columns")
            names.append(self.name())
        return Column(names[-2] if len(names) > 1 else None, names[-1])

    def called(self, said: str) -> Aggregate:
        """A count, a sum or an average."""
        if said == "COUNT" and self.took("*"):
            found = Aggregate(said, None)
        elif said in ("COUNT", "SUM", "AVG"):
            found = Aggregate(said, self.expression())
        elif said in ("MIN", "MAX"):
            raise NotTaken(f"it has {said}, which changes alone do not keep up to date")
        else:
            raise NotTaken(of_function(said.lower()))
        self.want(")")
        return found


def parsed(text: str) -> Select:
    """The SELECT of a view's text, or of the statement that makes it."""
    parser = Parser(text)
    names, found = parser.heading(), parser.select()
    if names is None:
        return found
    if len(names) != len(found.shown):
        raise NotTaken("it calls its columns otherwise than it shows them")
    return found._replace(shown=[Shown(shown.value, said) for shown, said in zip(found.shown, names)])
