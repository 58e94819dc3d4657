"""Statements of PL/pgSQL, in which a night of PostgreSQL is written."""

from __future__ import annotations

from collections.abc import Iterable

from .tokens import END_OF_STATEMENT, Sql, joined, sql, word


def raised(told: Sql) -> Sql:
    """The end of a night, with these words."""
    return sql("RAISE EXCEPTION USING MESSAGE = {told}", told=told)


def where(test: Sql, statement: Sql) -> Sql:
    """A statement that is carried out where a test holds."""
    return sql("IF {test} THEN {statement}{end} END IF", test=test, statement=statement, end=END_OF_STATEMENT)


def refuse_with(query: Sql) -> list[Sql]:
    """A refusal with the text that a query gives, where it gives one."""
    return [sql("finding := ({query})", query=query), where(sql("finding IS NOT NULL"), raised(word("finding")))]


def created(table: Sql, columns: Iterable[Sql]) -> Sql:
    """A table that passes with the night."""
    return sql("CREATE TEMPORARY TABLE {table} ({columns}) ON COMMIT DROP", table=table, columns=joined(columns))
