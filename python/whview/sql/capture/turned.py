"""How a column of an application's table is turned into a whole number or a text: each value into one, so that no writer meets a fault."""

from __future__ import annotations

import re
from collections.abc import Callable
from typing import Literal, NamedTuple, TypeAlias

from ...catalogue.nulls import NULL_NUMBER, NULL_TEXT
from ..dialect import LEAST, MOST
from ..tokens import Sql, Unfit, joined, name, number, sql, text, word

# The kinds of columns, and how the cell of a column is turned.
Kind: TypeAlias = Literal["int", "text"]
Turning: TypeAlias = Callable[[Sql], Sql]
# What is no number, and a day or a moment without end, come after all others; those without a beginning before them.
LAST, FIRST = MOST - 1, LEAST + 1
# So many digits fit 64 bits, and a REAL of SQLite.
MOST_DIGITS, MOST_DIGITS_OF_REALS = 18, 15
NEITHER = "which is neither a whole number nor a text to the byte: make it numeric(p,s), or leave the column out"
OTHER = "which is neither a whole number nor a text to the byte: fill a column of a text or a number with what you want of it, or leave the column out"
FOLDED = "whose collation takes unequal texts for equal ones, as a night does not: leave the column out"
TOO_WIDE = "whose values need not fit 64 bits: make it numeric(p,s) with p up to {most}, or leave the column out"


class Told(NamedTuple):
    """What a database says of a column: its name, its type in words and by its bare name, its digits and places, whether it may be NULL, and
    whether its collation takes unequal texts for equal ones. PostgreSQL tells the number of its type below all domains, too, that of the domain, if
    it is one, its place, how the server describes it, what modifies the type, and the number of its table. Of a day or a moment in SQLite is told
    how the first one is written, digits as 0."""

    name: str
    shown: str
    type: str
    digits: int | None
    places: int | None
    may_be_null: bool
    is_folded: bool = False
    number: int | None = None
    own_number: int | None = None
    place: int = 0
    described: str = ""
    modifier: int = -1
    form: str | None = None
    relation: int | None = None

    @property
    def is_domain(self) -> bool:
        return self.number != self.own_number

    @property
    def own_type(self) -> int:
        """The number of its own type, which PostgreSQL tells."""
        if self.own_number is None:
            raise Unfit(f"the column {self.name} has no type of PostgreSQL's")
        return self.own_number


class OfPostgreSQL(NamedTuple):
    """What a column is beside that in PostgreSQL: a test of whether a row a of the server's attributes is this column, and still of the type that is
    turned so; how it is turned where it may be of another type by now, and then is nothing; how it is turned in two steps where it may be NULL by now,
    below and above; and what the database says of it."""

    fits: Sql
    sure: Sql
    below: Sql
    above: Sql
    told: Told


class Turned(NamedTuple):
    """How a column is turned: into which kind, from the cell of a row r, whether it may be NULL, and whether unequal values stay unequal; and what it
    is beside that, where PostgreSQL was asked."""

    name: str
    kind: Kind
    said: Sql
    may_be_null: bool
    is_apart: bool
    known: OfPostgreSQL | None = None

    @property
    def of_postgresql(self) -> OfPostgreSQL:
        if self.known is None:
            raise Unfit(f"the column {self.name} is none that PostgreSQL told of")
        return self.known

    @property
    def fits(self) -> Sql:
        return self.of_postgresql.fits

    @property
    def told(self) -> Told:
        return self.of_postgresql.told

    @property
    def is_computed_below(self) -> bool:
        """Whether the lower step calls a function."""
        return self.kind == "text" and self.told.type not in ("text", "varchar")


class Unturned(NamedTuple):
    """A column that is not turned, and why."""

    name: str
    why: str


def refused(told: Told, why: str) -> Unturned:
    """A column that is not turned."""
    return Unturned(told.name, f"its column {told.name} is of the type {told.shown}, {why}")


def cell(told: Told) -> Sql:
    """The cell of a row r."""
    return sql("r.{column}", column=name(told.name))


def apart_from_null(said: Sql) -> Sql:
    """A text, with one backslash more where it is one or more of them and an N: none is what stands for NULL."""
    template = "CASE WHEN ltrim({said}, {slash}) = {last} AND {said} <> {last} THEN {slash} || {said} ELSE {said} END"
    return sql(template, said=said, slash=text("\\"), last=text("N"))


def apart_from_null_at_once(said: Sql) -> Sql:
    """The same where hardly any text begins with a backslash, which is found out sooner: byte by byte, whatever the column's collation is by then."""
    template = "CASE WHEN starts_with({said} COLLATE {bytes}, {slash}) AND ltrim({said}, {slash}) = {last} THEN {slash} || {said} ELSE {said} END"
    return sql(template, said=said, slash=text("\\"), last=text("N"), bytes=name("C"))


def literal_apart(said: str) -> str:
    """The same of a text that is known."""
    return f"\\{said}" if said != "N" and said.lstrip("\\") == "N" else said


# ---- PostgreSQL


def whole(said: int) -> Sql:
    """A number of 64 bits."""
    return sql("{said}::bigint", said=text(str(said)))


def calendar(template: str) -> Turning:
    """A day or a moment, which may be without end or beginning."""
    wanted = "CASE WHEN isfinite({cell}) THEN " + template + " WHEN {cell} > {day}::timestamp THEN {last} WHEN {cell} < {day}::timestamp THEN {first} END"
    return lambda cell: sql(wanted, cell=cell, day=text("1970-01-01"), last=whole(LAST), first=whole(FIRST))


def units(digits: int, places: int) -> Turning:
    """A numeric of so many digits and places; what is none of them, as one of a wider column would be, comes after all others."""
    wanted = ("CASE WHEN {cell} BETWEEN - {most}::numeric AND {most}::numeric THEN ({cell} * {unit}::numeric)::bigint WHEN {cell} IS NOT NULL THEN {last} END")
    return lambda cell: sql(wanted, cell=cell, most=text(str(10 ** (digits - places))), last=whole(LAST), unit=text(str(10**places)))


SECONDS = calendar("floor(extract(epoch FROM {cell}))::bigint")
NUMBERS: dict[str, Turning] = {
    **dict.fromkeys(("int2", "int4", "int8"), lambda cell: sql("{cell}::bigint", cell=cell)),
    "bool": lambda cell: sql("{cell}::integer::bigint", cell=cell),
    "date": calendar("({cell} - {day}::date)::bigint"),
    **dict.fromkeys(("timestamp", "timestamptz"), SECONDS),
}
TEXTS = ("text", "varchar", "bpchar", "uuid", "name", "enum")


# A domain down to the type below it, whether its values may be NULL, and what modifies the type.
DOMAIN = (
    "EXISTS (WITH RECURSIVE d (type, modifier, nothing) AS (SELECT a.atttypid, a.atttypmod, NOT a.attnotnull UNION ALL SELECT y.typbasetype,"
    " CASE WHEN d.modifier = -1 THEN y.typtypmod ELSE d.modifier END, d.nothing AND NOT y.typnotnull FROM d JOIN pg_type AS y ON y.oid = d.type"
    " AND y.typtype = {domain}) SELECT 1 FROM d WHERE d.type = {number} AND {modified} AND {filled})"
)


def fits(told: Told) -> Sql:
    """A test of whether a row a of the server's attributes is this column, of the type that is turned. Types are told by their numbers, which only the
    server's own have: whoever owns a table may give a column a type of his own, and with it a cast that would be called in the place of the
    server's. An enumeration's values are written by the server itself, whoever has made it."""
    modifier = "d.modifier" if told.is_domain else "a.atttypmod"
    filled = sql("TRUE") if told.may_be_null else sql("NOT d.nothing") if told.is_domain else sql("a.attnotnull")
    modified = sql(modifier + " = {modifier}", modifier=number(told.modifier)) if told.type == "numeric" else sql("TRUE")
    parts = {"column": text(told.name), "number": number(told.number or 0), "modified": modified, "filled": filled}
    if told.is_domain:
        return sql("a.attname = {column} AND " + DOMAIN, domain=text("d"), **parts)
    if told.type == "enum":
        return sql("a.attname = {column} AND {filled} AND EXISTS (SELECT 1 FROM pg_type AS y WHERE y.oid = a.atttypid AND y.typtype = {enum})",
                   enum=text("e"), **parts)
    return sql("a.attname = {column} AND a.atttypid = {number} AND {modified} AND {filled}", **parts)


def of_postgresql(told: Told) -> Turned | Unturned:
    """How PostgreSQL turns a column, or why it does not."""
    found = how_of_postgresql(told)
    if isinstance(found, Unturned) or told.number is None:
        return found
    sure = sql("CASE WHEN pg_typeof({cell}) = {own}::regtype THEN {said} END", cell=cell(told), own=text(str(told.own_number)), said=found.said)
    below, above = (soon_as_text(told), apart_from_null_at_once(cell(told))) if found.kind == "text" else (cell(told), number_of(told))
    above = sql("coalesce({above}, {null})", above=above, null=null_of(found.kind))
    return found._replace(known=OfPostgreSQL(fits(told), sure, below, above, told))


def number_of(told: Told) -> Sql:
    """A column that is turned into a whole number."""
    found = as_number(told)
    if found is None:
        raise Unfit(f"the column {told.name} is turned into no number")
    return found(cell(told))


def null_of(kind: Kind) -> Sql:
    """What stands for NULL."""
    return whole(NULL_NUMBER) if kind == "int" else sql("{said}::text", said=text(NULL_TEXT))


def as_text(told: Told) -> Sql:
    """A column as a text."""
    return sql("textin(enum_out({cell}))" if told.type == "enum" else "{cell}::text", cell=cell(told))


def soon_as_text(told: Told) -> Sql:
    """The same of a char(n) in a third of the time: its blanks are told from the rest byte by byte, and not letter by letter."""
    said = "left(textin(bpcharout({cell})), length({cell}))"
    return sql(said, cell=cell(told)) if told.type == "bpchar" else as_text(told)


def as_number(told: Told) -> Turning | None:
    """How a column is turned into a whole number, or None."""
    if told.type != "numeric":
        return NUMBERS.get(told.type)
    return None if told.digits is None or told.places is None else units(told.digits, told.places)


def how_of_postgresql(told: Told) -> Turned | Unturned:
    """How a column is turned, without what is asked of the server about it."""
    if told.type == "numeric" and (told.digits is None or told.places is None or not 0 <= told.places <= told.digits <= MOST_DIGITS):
        return refused(told, TOO_WIDE.format(most=MOST_DIGITS))
    if told.type in TEXTS:
        return refused(told, FOLDED) if told.is_folded else turned(told, "text", as_text(told), null_of("text"))
    found = as_number(told)
    if found is None:
        return refused(told, NEITHER if told.type in ("float4", "float8", "money") else OTHER)
    return turned(told, "int", found(cell(told)), null_of("int"), found is not SECONDS)


def turned(told: Told, kind: Kind, said: Sql, null: Sql, is_apart: bool = True) -> Turned:
    """A column that is turned; of a text is told what stands for NULL from what does not."""
    said = apart_from_null(said) if kind == "text" else said
    if told.may_be_null:
        said = sql("coalesce({said}, {null})", said=said, null=null)
    return Turned(told.name, kind, said, told.may_be_null, is_apart)


# ---- SQLite, which keeps any value in any column: what is of another kind than its column is left as it is, and a night refuses it


# Days and moments are compared by SQLite as the texts that they are: in one form these come in the order of time.
DAY = "0000-00-00"
MOMENT_FORM = re.compile(rf"{DAY}[ T]00:00:00(\.0+)?Z?")
NUMBER_FORM = "a number"


def form_of(said: object) -> str | None:
    """How a value of a column of days or moments is written, digits as 0; a number of the application's own has a form too."""
    if isinstance(said, str):
        return re.sub("[0-9]", "0", said)
    return None if said is None else NUMBER_FORM


def has_form(type_name: str) -> bool:
    """Whether a column of a declared type has days or moments."""
    found = by_word(type_name)
    return found is not None and found.turning is None


def in_form(told: Told) -> str:
    """The form that all values of a column have to have: that of its first one, or else how SQLite itself writes them."""
    if "DATE" in told.type.upper() and "DATETIME" not in told.type.upper():
        return NUMBER_FORM if told.form == NUMBER_FORM else DAY
    is_known = told.form is not None and (told.form == NUMBER_FORM or MOMENT_FORM.fullmatch(told.form))
    return told.form if told.form is not None and is_known else f"{DAY} 00:00:00"


def calendar_of_texts(form: str) -> Turning:
    """A day or a moment of a form, as the number that it is; whatever else stands there is told as a text, which a night refuses. Behind a moment
    without a zone any fraction of a second may stand: texts with one come in the order of time beside those without."""
    if form == NUMBER_FORM:
        return lambda cell: cell
    fits = "{cell} GLOB {form}"
    if form != DAY and not form.endswith("Z"):
        form = form[: len(f"{DAY} 00:00:00")]
        fits = "(" + fits + " OR {cell} GLOB {form} || {point} AND substr({cell}, 21) NOT GLOB {letter})"
    # What is no day, such as the 31st of February, SQLite takes for another one; by its text it stays where it is.
    fits += " AND strftime({day}, {cell}, {none}) = substr({cell}, 1, 10)"
    fits += " AND strftime({time}, {cell}) = substr({cell}, 12, 8)" if form != DAY else ""
    turned_to = "unixepoch({cell})" if form != DAY else "unixepoch({cell}) / 86400"
    wanted = "CASE WHEN {cell} IS NULL THEN NULL WHEN typeof({cell}) = {kind} AND " + fits + " THEN " + turned_to + " ELSE {other} || {cell} END"
    parts = {"kind": "text", "form": form.replace("0", "[0-9]"), "day": "%Y-%m-%d", "time": "%H:%M:%S", "other": f"not written {form}: ",
             "point": ".[0-9]*", "none": "+0 days", "letter": "*[^0-9]*"}
    return lambda cell: sql(wanted, cell=cell, **{name: text(said) for name, said in parts.items()})


def units_of_reals(places: int) -> Turning:
    """A number of so many places; one that has more, or that a REAL has not to the last digit, is told as a text, which a night refuses."""
    wanted = (
        "CASE WHEN typeof({cell}) NOT IN ({kinds}) THEN {cell} WHEN {cell} NOT BETWEEN - {most} AND {most} THEN {beyond} || {cell}"
        " WHEN round({cell} * {unit}) / {unit} = {cell} THEN CAST(round({cell} * {unit}) AS INTEGER) ELSE {between} || {cell} END"
    )
    kinds, most = joined([text("integer"), text("real")]), number(10 ** (MOST_DIGITS_OF_REALS - places))
    parts = {"beyond": text("beyond "), "between": text(f"not of {places} places: ")}
    return lambda cell: sql(wanted, cell=cell, kinds=kinds, unit=number(10**places), most=most, **parts)


class ByWord(NamedTuple):
    """A word of declared types: into which kind their columns are turned, and how; of days and moments their form says how."""

    word: str
    kind: Kind
    turning: Turning | None


# The first word that is found in a declared type says how it is turned.
BY_WORDS = (
    ByWord("INT", "int", lambda cell: cell),
    ByWord("BOOL", "int", lambda cell: cell),
    ByWord("TIMESTAMP", "int", None),
    ByWord("DATE", "int", None),
    ByWord("CHAR", "text", lambda cell: cell),
    ByWord("CLOB", "text", lambda cell: cell),
    ByWord("TEXT", "text", lambda cell: cell),
)
DIGITS = re.compile(r"(?:NUMERIC|DECIMAL) *\( *(\d+) *(?:, *(\d+) *)?\)")


def by_word(type_name: str) -> ByWord | None:
    """What a declared type says, or None."""
    return next((each for each in BY_WORDS if each.word in type_name.upper()), None)


def of_sqlite(told: Told) -> Turned | Unturned:
    """How SQLite turns a column, or why it does not."""
    if digits := DIGITS.fullmatch(told.type.upper()):
        if not int(digits[2] or 0) <= int(digits[1]) <= MOST_DIGITS_OF_REALS:
            return refused(told, TOO_WIDE.format(most=MOST_DIGITS_OF_REALS))
        return turned(told, "int", units_of_reals(int(digits[2] or 0))(cell(told)), number(NULL_NUMBER))
    found = by_word(told.type)
    if found is None:
        return refused(told, NEITHER)
    if found.turning is None:
        form = in_form(told)
        return turned(told, "int", calendar_of_texts(form)(cell(told)), number(NULL_NUMBER), form in (DAY, NUMBER_FORM))
    if found.kind == "text" and told.is_folded:
        return refused(told, FOLDED)
    null = number(NULL_NUMBER) if found.kind == "int" else text(NULL_TEXT)
    return turned(told, found.kind, found.turning(cell(told)), null)


def again(said: Sql, row: Sql) -> Sql:
    """What turns a cell, of another row than r: of `old` or `new` in a trigger."""
    tokens, found = list(said.tokens), []
    for at, token in enumerate(tokens):
        is_row = token == word("r").tokens[0] and at + 1 < len(tokens) and tokens[at + 1].said == "."
        found.append(row.tokens[0] if is_row else token)
    return Sql(found)
