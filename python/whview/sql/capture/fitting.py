"""Whether a captured table is as it was captured, which nearly every statement wants to know: it is judged once in each session, and again when the
table was altered.

Functions that are told to be immutable are carried out when an expression is planned. The plan of an expression that names a table by its number
is made anew when the table was altered in whatever way, and when others begin to inherit from it: so a trigger finds the answer in its plan."""

from __future__ import annotations

from collections.abc import Iterable
from typing import TYPE_CHECKING

from ..postgresql import PATH
from ..tokens import END_OF_STATEMENT, Sql, body, joined, sql, text

if TYPE_CHECKING:
    from .merge import MergeScript
    from .sources import Source

FITS, ALONE, HEIRLESS = "~fits", "~alone", "~heirless"
# The names of columns at their places and their types, by what the server knows now: a snapshot may be from before, and what is asked of the
# server's tables would be as old. Whatever cannot be found out does not fit.
OF_COLUMNS = (
    "\nDECLARE found pg_catalog.oid{end}\nBEGIN\n  FOR at IN 1 .. cardinality(places) LOOP\n    IF pg_describe_object(1259, relation, places[at]) IS DISTINCT FROM"
    " described[at] THEN RETURN FALSE{end} END IF{end}\n    EXECUTE format({typed}, relation, names[at]) INTO found{end}\n"
    "    IF found IS DISTINCT FROM types[at] THEN RETURN FALSE{end} END IF{end}\n  END LOOP{end}\n  RETURN TRUE{end}\nEXCEPTION WHEN OTHERS THEN RETURN FALSE{end}\nEND{end}"
)
# The snapshot of whoever plans may be from before an heir that the plan was made anew for: a function that is not immutable takes one of its own. Where a
# transaction is one snapshot it does not, and what it sees is not kept.
OF_HEIRS = "\nBEGIN\n  RETURN NOT EXISTS (SELECT 1 FROM pg_inherits AS i WHERE i.inhparent = relation){end}\nEND{end}"
PLANNED = "\nBEGIN\n  RETURN current_setting({key}) = {wanted} AND {heirless}(relation){end}\nEND{end}"


def array(said: Iterable[object]) -> Sql:
    """A text of an array of these."""
    return text("{" + ",".join('"' + str(each).replace("\\", "\\\\").replace('"', '\\"') + '"' for each in said) + "}")


class Fitting:
    """The functions that judge, and the tests that a trigger's function makes by them."""

    names = (FITS, ALONE, HEIRLESS)

    def __init__(self, script: MergeScript) -> None:
        self.script, self.dialect = script, script.dialect

    def function(self, said: str) -> Sql:
        """A function by the end of its name."""
        return self.script.tables.own(said)

    def made(self) -> list[Sql]:
        """The functions, which anybody may call: they tell nothing that the server's own tables do not."""
        columns = sql("relation regclass, places int[], described text[], names text[], types oid[]")
        relation = sql("relation regclass")
        return [
            self.one(FITS, columns, sql("IMMUTABLE"), sql(OF_COLUMNS, typed=text("SELECT pg_typeof((NULL::%s).%I)"), end=END_OF_STATEMENT)),
            self.one(HEIRLESS, relation, sql("VOLATILE"), sql(OF_HEIRS, end=END_OF_STATEMENT)),
            self.one(ALONE, relation, sql("IMMUTABLE"), sql(PLANNED, heirless=self.function(HEIRLESS), end=END_OF_STATEMENT, key=text("transaction_isolation"),
                                                            wanted=text("read committed"))),
        ]

    def one(self, said: str, given: Sql, kind: Sql, program: Sql) -> Sql:
        """The statement that makes a function."""
        made = "CREATE OR REPLACE FUNCTION {function}({given}) RETURNS bool LANGUAGE plpgsql {kind} SET search_path = " + PATH + " AS {program}"
        return sql(made, function=self.function(said), given=given, kind=kind, program=body(program))

    # ---- what a trigger asks

    def relation(self, source: Source) -> Sql:
        """A table by its number."""
        return sql("{number}::regclass", number=text(str(source.number)))

    def fits(self, source: Source) -> Sql:
        """Whether the table's columns are as they were captured."""
        told = source.told
        lists = [array(each) for each in zip(*((each.place, each.described, each.name, each.own_number) for each in told))]
        kinds = [sql("{said}::" + kind, said=said) for said, kind in zip(lists, ("int[]", "text[]", "text[]", "oid[]"))]
        return sql("{fits}({given})", fits=self.function(FITS), given=joined([self.relation(source), *kinds]))

    def is_alone(self, source: Source) -> Sql:
        """Whether nobody inherits from the table: where that is known it is all that stands in the plan."""
        return sql("({alone}({relation}) OR {heirless}({relation}))", alone=self.function(ALONE), heirless=self.function(HEIRLESS), relation=self.relation(source))
