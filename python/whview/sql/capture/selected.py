"""A view's SELECT as it was read: its expressions, conditions and tables."""

from __future__ import annotations

from dataclasses import dataclass
from typing import NamedTuple, TypeAlias

# ---- expressions


@dataclass(frozen=True, slots=True)
class Column:
    """A column, and of which table, where that is said."""

    of: str | None
    said: str


@dataclass(frozen=True, slots=True)
class Number:
    """A number without its point, and how many digits stand behind that."""

    said: int
    places: int


@dataclass(frozen=True, slots=True)
class Text:
    """A text."""

    said: str


@dataclass(frozen=True, slots=True)
class Cast:
    """An expression that is cast to a type."""

    to: str
    of: Expression


@dataclass(frozen=True, slots=True)
class Computed:
    """A sum, a difference or a product, by its sign."""

    sign: str
    left: Expression
    right: Expression


@dataclass(frozen=True, slots=True)
class Aggregate:
    """A count, a sum or an average: of an expression, or None where rows are counted."""

    kind: str
    of: Expression | None


Expression: TypeAlias = Column | Number | Text | Cast | Computed | Aggregate


# ---- conditions


@dataclass(frozen=True, slots=True)
class Every:
    """All of these hold."""

    members: tuple[Condition, ...]


@dataclass(frozen=True, slots=True)
class Some:
    """One of these holds at least."""

    members: tuple[Condition, ...]


@dataclass(frozen=True, slots=True)
class Not:
    """This does not hold."""

    of: Condition


@dataclass(frozen=True, slots=True)
class IsNull:
    """An expression is NULL."""

    of: Expression


@dataclass(frozen=True, slots=True)
class Compared:
    """Two expressions compare so."""

    sign: str
    left: Expression
    right: Expression


@dataclass(frozen=True, slots=True)
class Distinct:
    """Two expressions are distinct, where NULL is a value."""

    left: Expression
    right: Expression


Condition: TypeAlias = Every | Some | Not | IsNull | Compared | Distinct


# ---- the statement


@dataclass(frozen=True, slots=True)
class Using:
    """USING: the names by which the tables on the left have one column of this name with those on the right."""

    said: str
    left: tuple[str, ...]
    right: tuple[str, ...]


class Shown(NamedTuple):
    """A column that is shown, and its name, if it has one."""

    value: Expression
    said: str | None


class From(NamedTuple):
    """A table: its schema, where that is said, and the name that it has in the statement."""

    schema: str | None
    name: str
    alias: str


class Select(NamedTuple):
    """What is shown; the tables; what joins them; a condition, if there is one; and the groups, or None where there are none."""

    shown: list[Shown]
    tables: list[From]
    equal: list[Using | Condition]
    where: Condition | None
    groups: list[Expression] | None
