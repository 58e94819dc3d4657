"""Values as an application has them in a file of SQLite, which keeps any value in any column: what is kept of one is read back to the bit, and what is of another
kind than its column is kept as such, so that a night refuses it."""

from __future__ import annotations

from collections.abc import Iterator
from typing import TYPE_CHECKING

from .. import tree
from ..asked import Judged
from ..kinds import NULL_NUMBER, Encoding
from ..leaves import Leaf
from ..record import RowExpression
from ..tree import Node
from ..words import Sums
from .kinds import DATE, INTEGER, TEXT, TIMESTAMP, Kind, encoding, numeric
from .reserved import names_in_quotes
from .typed import NULLIF, moments_in
from .words import SQLiteWords

if TYPE_CHECKING:
    from ...sql.capture.turned import Told

MOST_DIGITS = 15
# A text that no column of numbers keeps, and a value that none keeps.
STRANGE = "zeroblob(1)"
NULL = f"'{NULL_NUMBER}'::bigint"
# A number of so many places, where a REAL has it to the last digit; it is whole where nothing stands behind its point.
UNITS = (
    "CASE WHEN typeof({x}) NOT IN ('integer', 'real') THEN {x} WHEN {x} NOT BETWEEN - {most} AND {most} THEN 'beyond ' || {x}"
    " WHEN round({x} * {unit}) / {unit} = {x} THEN CAST(round({x} * {unit}) AS bigint) ELSE 'not of {places} places: ' || {x} END"
)
UNITS_AGAIN = "CASE WHEN {k} = " + NULL + " THEN NULL WHEN {k} % {unit} = 0 THEN {k} / {unit} ELSE {k} / {unit}.0 END"
# A number of any width as SQLite writes it, where it reads the same again; with one zero.
WRITTEN = (
    "CASE WHEN typeof({x}) NOT IN ('integer', 'real') THEN CASE WHEN {x} IS NOT NULL THEN " + STRANGE + " END"
    " WHEN {x} = 0 THEN CASE typeof({x}) WHEN 'real' THEN '0.0' ELSE '0' END"
    " WHEN CAST(quote({x}) AS {word}) = {x} AND typeof(CAST(quote({x}) AS {word})) = typeof({x}) THEN quote({x}) ELSE " + STRANGE + " END"
)
WRITTEN_AGAIN = r"CAST(nullif({k}, '\N') AS {word})"


def affinity(declared: str) -> str:
    """What SQLite makes of values that come into a column of a declared type: the word of a cast, or none where they stay what they are."""
    said = declared.upper()
    if "INT" in said:
        return "INTEGER"
    if any(word in said for word in ("CHAR", "CLOB", "TEXT")):
        return "TEXT"
    if "BLOB" in said or not said:
        return ""
    return "REAL" if any(word in said for word in ("REAL", "FLOA", "DOUB")) else "NUMERIC"


def kind_of(told: Told) -> Kind:
    """Of which kind a column is; a column of which nothing is kept is of one that is neither a number nor a text."""
    from ...sql.capture.turned import NUMBER_FORM, by_word, in_form
    made, found = affinity(told.type), by_word(told.type)
    if told.digits is not None and told.digits <= MOST_DIGITS and 0 <= (told.places or 0) <= told.digits:
        return numeric(told.places or 0, told.digits)
    if found is not None and found.turning is None:
        form = in_form(told)
        if form == NUMBER_FORM:
            return INTEGER
        kind = DATE if len(form) == len("0000-00-00") else TIMESTAMP
        return Kind(kind.name, is_loose=made == "NUMERIC")
    if found is not None and (found.kind == "int" or not told.is_folded):
        return INTEGER if found.kind == "int" else TEXT
    if made == "REAL" or told.type.upper().startswith(("NUMERIC", "DECIMAL")):
        return Kind("real", is_whole=made == "NUMERIC")
    return Kind(f"{told.type or 'no type'} in a collation of its own" if told.is_folded else told.type or "no type")


def number_of(expression: str, places: int) -> str:
    """A number of so many places in units, or what refuses it."""
    parts = {"unit": str(10**places), "most": str(10 ** (MOST_DIGITS - places)), "places": str(places), "x": f"({expression})"}
    made = UNITS
    for name, said in parts.items():
        made = made.replace("{" + name + "}", said)
    return made


class StoredWords(SQLiteWords):
    """The words for what is kept in the application's own file. The kind real has numbers of any width there, whole ones as well where its column has them."""

    def encoding(self, judged: Judged) -> Encoding | None:
        if judged.type == "numeric" and judged.digits:
            places = judged.digits[1]
            return Encoding("int", number_of("{x}", places), UNITS_AGAIN.replace("{unit}", str(10**places)), "", f"numeric of {places}", True)
        if judged.type in ("real", "number"):
            word = "NUMERIC" if judged.type == "number" else "REAL"
            return Encoding("text", WRITTEN.replace("{word}", word), WRITTEN_AGAIN.replace("{word}", word), "", judged.type)
        return encoding(judged)

    def keeps(self, kind: Kind) -> bool:
        """What is computed of numbers with places may be whole or not: that is seen where it is computed as it is read."""
        return kind.name != "numeric" and super().keeps(kind)

    def times(self, many: str) -> str:
        """An array of so many elements, which SQLite makes a table of."""
        return f" CROSS JOIN json_each('[0' || replace(hex(zeroblob({many} - 1)), '00', ',0') || ']') AS often"

    def units(self, leaf: Leaf) -> str:
        digits = leaf.judged.digits
        return f"coalesce({number_of(leaf.text, digits[1])}, 0)" if digits else f"coalesce({leaf.text}, 0)"

    def strange(self, leaf: Leaf) -> str | None:
        """A number with places, by which a sum is one as well."""
        return f"typeof({leaf.text}) = 'real'" if leaf.judged.digits else None

    def is_strange(self, said: str) -> bool:
        return any(letter in said for letter in ".eE")

    def total(self, sums: Sums) -> str:
        unit = 10**sums.places
        pointed = f"WHEN {sums.strange} > 0 THEN ({sums.units}) / {unit}.0 " if sums.strange else ""
        return f"CASE {pointed}WHEN {sums.there} > 0 THEN {sums.units if unit == 1 else f'({sums.units}) / {unit}'} END"


def handed_on(node: Node) -> Iterator[Node]:
    """The expressions one of which an expression is, as it is."""
    match tree.kind(node):
        case "CaseExpr":
            below = [node.defresult, *(each.result for each in node.args)]
        case "CoalesceExpr":
            below = list(node.args)
        case "FuncCall" if tree.function_name(node) in ("ifnull", "iif"):
            below = list(node.args[-2:])
        case "A_Expr" if int(node.kind) == NULLIF:
            below = [node.lexpr]
        case _:
            yield node
            return
    for each in below:
        if each is not None:
            yield from handed_on(each)


def as_stored(column: RowExpression) -> RowExpression:
    """A row expression that is kept as none where a function of time is given a text that means now, or where a remainder has become one with places."""
    node, said = tree.expression(column.expression), column.expression
    if column.kind == "int" and any(tree.operator(each) in ("/", "%") for each in handed_on(node)):
        said = f"CASE WHEN typeof({said}) = 'real' THEN {STRANGE} ELSE {said} END"
    if moments := sorted(moments_in(node)):
        tests = " OR ".join(f"lower({tree.printed(tree.column('r', name))}) = 'now'" for name in moments)
        said = f"CASE WHEN {tests} THEN {STRANGE} ELSE {said} END"
    return RowExpression(column.name, column.kind, names_in_quotes(tree.printed(tree.expression(said))), column.reads)
