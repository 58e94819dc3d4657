"""Why a view is not taken, by the word or the mark that stands in it, and what to write in its place."""

from __future__ import annotations

FILL = "let the application fill a column with it, or make one that is GENERATED"
READ = "leave it out, and ask for it when you read the view"
ROWS = "the night would not know when its rows change: " + READ
# Words that no name of a table or a column may be read as, each with what is said of it where it stands.
CLAUSES = {
    "DISTINCT": "it has DISTINCT: group by all its columns", "LEFT": "it has an outer join: take the inner one, and read beside it what is missing",
    "RIGHT": "it has an outer join: take the inner one, and read beside it what is missing",
    "FULL": "it has an outer join: take the inner one, and read beside it what is missing", "NATURAL": "it has a NATURAL join: name the columns",
    "HAVING": f"it has HAVING: {READ}", "ORDER": f"it has ORDER BY: {READ}", "LIMIT": f"it has LIMIT: {READ}", "OFFSET": f"it has OFFSET: {READ}",
    "FETCH": f"it has FETCH: {READ}", "UNION": "it has UNION: make a view of each part", "EXCEPT": "it has EXCEPT: make a view of each part",
    "INTERSECT": "it has INTERSECT: make a view of each part", "WITH": "it has WITH: make a view of what stands there", "CASE": f"it has CASE: {FILL}",
    "OVER": f"it has a window: {READ}", "WINDOW": f"it has a window: {READ}", "FILTER": "it has FILTER: make a view with that condition in its WHERE",
    "EXISTS": "it has EXISTS: join the table, or a view of its groups", "LIKE": f"it has LIKE: {FILL}", "ILIKE": f"it has ILIKE: {FILL}",
    "VALUES": "it has VALUES: make a table of them", "TABLESAMPLE": "it has TABLESAMPLE, by which no rows are sure: leave it out",
    "LATERAL": "it has LATERAL: make a view of what stands there",
}
# Marks, as PostgreSQL writes them too where a view was made with a word.
LIKES = {"~~": "LIKE", "!~~": "NOT LIKE", "~~*": "ILIKE", "!~~*": "NOT ILIKE"}
JSON = "looks into JSON, a range or an array"
MARKS = {
    **{mark: f"it has {word}: {FILL}" for mark, word in LIKES.items()},
    **{mark: f"it has the operator {mark}, which looks for a pattern: {FILL}" for mark in ("~", "~*", "!~", "!~*", "*~", "GLOB", "REGEXP", "MATCH")},
    **{mark: f"it has the operator {mark}, which {JSON}: {FILL}" for mark in ("->", "->>", "#>", "#>>", "@>", "<@", "@@", "@?", "?", "&&", "#-")},
    **{mark: f"it has the operator {mark}: {FILL}" for mark in ("||", "/", "%", "^", "&", "|", "#", "<<", ">>", "<<=", ">>=", "-|-", "@", "<->", "^@")},
    "[": f"it takes a part of an array: {FILL}", "COLLATE": "it has COLLATE, and a night compares texts byte by byte: leave it out",
    "SIMILAR": f"it has SIMILAR TO: {FILL}", "AT TIME ZONE": f"it has AT TIME ZONE: {FILL}", "ARRAY": f"it makes an array: {FILL}",
    "FOR": "it locks what it reads by FOR: leave that out",
}
# Words that stand for a value of their own.
CURRENT = {"CURRENT_DATE", "CURRENT_TIME", "CURRENT_TIMESTAMP", "LOCALTIME", "LOCALTIMESTAMP"}
WHO = {"CURRENT_USER", "SESSION_USER", "CURRENT_ROLE", "CURRENT_CATALOG", "CURRENT_SCHEMA", "USER"}
VALUES = {
    **{word: f"it has {word}, which changes while no row does, and {ROWS}" for word in CURRENT},
    **{word: f"it has {word}, which is another one for whoever reads: {READ}" for word in WHO},
    "NULL": "it has NULL as a value: leave it out",
    "SELECT": "it has a SELECT within another: make that a view, and join it",
}
# Functions of which more is to be said than their names.
MOMENTS = ("now", "transaction_timestamp", "statement_timestamp", "clock_timestamp", "timeofday", "random", "nextval", "date", "datetime", "julianday",
           "strftime", "unixepoch", "time")
GROUPS = ("rollup", "cube", "sets")


def of_function(said: str) -> str:
    """What is said of a function."""
    if said in GROUPS:
        return f"it groups by {said.upper()}: make a view for each list of groups"
    if said == "cast":
        return f"it has CAST: leave it out, or {FILL}"
    if said in MOMENTS:
        return f"it has the function {said}: where it tells the time or a chance, {ROWS}; else {FILL}"
    return f"it has the function {said}: {FILL}"


def of_cast(to: str, inner: str | None = None) -> str:
    """What is said of a cast that may change a value; of a count or a sum it is left out."""
    if inner:
        return f"it casts {inner} to {to}: leave the cast out, since it is a whole number, or a sum in the units of its column"
    if to == "interval":
        return f"it has an INTERVAL: {FILL}"
    return f"it casts to {to}: leave the cast out where it changes nothing, or {FILL}"


def of_word(said: str) -> str | None:
    """What is said of a word or a mark that stands where none may, or None."""
    return CLAUSES.get(said) or MARKS.get(said) or VALUES.get(said)
