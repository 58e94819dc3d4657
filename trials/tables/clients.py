"""Cases that people met, one by one: names and texts, clients that go on after an error, encodings and settings, and limits of parsers."""


from trials.servers.databases import Client
from trials.tables.cases import ALE_COMES, DONE, EITHER, JAM_IS_DEARER, REFUSED, Case
from trials.tables.fixed import BOTH, LITE, PG, keyed

# ---- names

WORDS = """
[[view]]
name = "a"
columns = ["true", "false:text", "n", "rest"]
[[view]]
name = "v"
over = ["a"]
where = ["<", "a.true", "a.n"]
keep = [["false", "a.false"], ["true", "a.true"], ["n", "a.rest"]]
[[view]]
name = "s"
over = ["v"]
group = [["false", "v.false"], ["true", "v.true"]]
count = "n"
sum = [["rest", "v.n"]]
"""
SPOKEN = {"a": [(1, "yes", 5, 7), (2, "no", 6, 8), (9, "no", 3, 9)]}
SPOKEN_CHANGES = {"a": [((1, "yes", 5, 7), -1), ((3, "no", 5, 7), 1), ((2, "maybe", 6, 8), 1)]}
WITHOUT_COUNT = {
    "products~changes": [
        'CREATE TABLE "products~changes" (product text NOT NULL, price bigint NOT NULL);',
        """INSERT INTO "products~changes" VALUES ('ale', 220);""",
    ]
}


def names():
    found = []
    for engine in BOTH:
        found += [
            Case("columns are named true, false and n", engine, SPOKEN_CHANGES, catalogue=WORDS, rows=SPOKEN),
            Case("columns of a counted table are named true, false and n", engine, SPOKEN_CHANGES, catalogue=WORDS, rows=SPOKEN, counted=("a",)),
            *(Case(f"a table is named {name}", engine, {name: SPOKEN_CHANGES["a"]}, catalogue=WORDS.replace('"a', f'"{name}'), rows={name: SPOKEN["a"]},
                   counted=counted, wanted=EITHER if engine == LITE else DONE)
              for name in ("new", "OLD", "excluded") for counted in ((), (name,))),
            Case("a table of changes has no count", engine, {}, WITHOUT_COUNT, wanted=REFUSED, word="products~changes does not fit"),
        ]
    return found


# ---- clients

ABSENT = {**ALE_COMES, "lines": [((1, "tea", 2), -1), ((77, "rum", 2), -1)]}
CLIENTS = {
    PG: {
        "psql that goes on": Client(),
        "psql that goes on and reads its input": Client(is_piped=True),
        "psql that rolls back what fails": Client(("-v", "ON_ERROR_ROLLBACK=on")),
        "psql that rolls back what fails, as an answer": Client(("-v", "ON_ERROR_ROLLBACK=on"), is_piped=True),
        "a client that rolls back what fails": Client(("-v", "ON_ERROR_ROLLBACK=on"), is_piped=True, is_bare=True),
        "a client that goes on": Client(is_piped=True, is_bare=True),
        "psql without AUTOCOMMIT": Client(("-v", "AUTOCOMMIT=off")),
        "psql in one transaction": Client(("-1",)),
        "psql in one transaction, stopping": Client(("-1", "-v", "ON_ERROR_STOP=1")),
    },
    LITE: {
        "the shell without -bail": Client(), "the shell with -bail": Client(("-bail",)), "executescript": Client(name="executescript"),
        "a client that goes on": Client(name="statements"),
    },
}


def clients():
    found = []
    for engine in BOTH:
        for name, client in CLIENTS[engine].items():
            found.append(Case(f"{name}, and a night that is refused", engine, ABSENT, wanted=REFUSED, word="refused absent lines", client=client))
            found.append(Case(f"{name}, and a price that changes", engine, JAM_IS_DEARER, keyed(), client=client))
    return found


def again():
    """The script twice in one session: what the first run leaves there is not in the way of the second."""
    found = []
    for engine in BOTH:
        client = Client() if engine == LITE else Client(is_piped=True, is_bare=True)
        found += [
            Case("a night and one without changes, in one session", engine, JAM_IS_DEARER, keyed(), client=client, times=2),
            Case("a night that is refused twice, in one session", engine, ABSENT, wanted=REFUSED, word="refused absent lines", client=client, times=2, never="exists"),
        ]
    hidden = "CREATE TEMPORARY TABLE products (product text NOT NULL, price bigint NOT NULL);"
    found += [
        Case("a temporary table has a table's name", PG, JAM_IS_DEARER, keyed(), client=Client(("-v", "ON_ERROR_STOP=1", "-c", hidden))),
        Case("a temporary table has a table's name", LITE, JAM_IS_DEARER, keyed(), client=Client(("-bail", "-cmd", hidden)), wanted=EITHER),
    ]
    for pragma in ("reverse_unordered_selects = 1", "recursive_triggers = 1", "case_sensitive_like = 1", "ignore_check_constraints = 1",
                   "automatic_index = 0", "temp_store = 2", "trusted_schema = 0", "defer_foreign_keys = 1",
                   "count_changes = 1"):
        found.append(Case(f"a price changes under {pragma}", LITE, JAM_IS_DEARER, keyed(), client=Client(("-bail", "-cmd", f"PRAGMA {pragma}"))))
    return found


# ---- encodings and settings

TREES = """
[[view]]
name = "trees"
columns = ["kind:text", "height"]
[[view]]
name = "high"
over = ["trees"]
where = ["all", ["=", "trees.kind", { text = "Bäume" }], [">", "trees.height", 3]]
keep = [["kind", "trees.kind"], ["again", { text = "größer" }], ["height", "trees.height"]]
"""
GROWN = {"trees": [("Bäume", 5), ("Bäume", 2), ("oak", 9)]}
GROWING = {"trees": [(("Bäume", 2), -1), (("Bäume", 4), 1), (("Sträucher", 7), 1)]}
SETTINGS = {
    "default_transaction_isolation": "serializable", "default_transaction_deferrable": "on", "standard_conforming_strings": "off", "backslash_quote": "on",
    "escape_string_warning": "off", "DateStyle": "German", "quote_all_identifiers": "on", "plpgsql.variable_conflict": "use_variable",
    "plpgsql.extra_errors": "all", "transform_null_equals": "on", "search_path": "elsewhere", "constraint_exclusion": "on", "enable_hashjoin": "off",
    "check_function_bodies": "off", "client_min_messages": "error", "jit_above_cost": "0", "row_security": "off", "extra_float_digits": "0",
    "session_replication_role": "origin", "lock_timeout": "20s", "temp_buffers": "100",
}
STRINGS = """
[[view]]
name = "a"
columns = ["t:text", "x"]
[[view]]
name = "v"
over = ["a"]
where = ["<>", "a.t", { text = "back\\\\" }]
keep = [["t", "a.t"], ["u", { text = "it's \\\\' and \\\\n" }]]
"""
ESCAPED = {"a": [("back\\", 1), ("back\\\\", 1), ("b\\' --", 2)]}
ESCAPED_CHANGES = {"a": [(("b\\' --", 2), -1), (("\\\\", 3), 1), (("back\\", 1), 1)]}


def encodings():
    found = []
    for database, other in (("", "WIN1252"), ("latin", ""), ("ascii", "EUC_JP")):
        for encoding in filter(None, ("UTF8", "LATIN1", "SQL_ASCII", other)):
            client = Client(("-v", "ON_ERROR_STOP=1"), {"PGCLIENTENCODING": encoding})
            named = f"trees in {database or 'UTF8'}, asked in {encoding}"
            found.append(Case(named, PG, GROWING, catalogue=TREES, rows=GROWN, database=database, client=client))
    return found


def settings():
    options = " ".join(f"-c {name}={value}" for name, value in SETTINGS.items())
    client = Client(("-v", "ON_ERROR_STOP=1"), {"PGOPTIONS": options, "PGCLIENTENCODING": "UTF8"})
    found = [Case("a price changes under settings of all kinds", PG, JAM_IS_DEARER, keyed(), client=client)]
    serial = Client(("-1", "-v", "ON_ERROR_STOP=1"), {"PGOPTIONS": "-c default_transaction_isolation=serializable", "PGCLIENTENCODING": "UTF8"})
    found.append(Case("a price changes within a transaction that is SERIALIZABLE", PG, JAM_IS_DEARER, keyed(), client=serial, wanted=EITHER))
    conforming = {"PGOPTIONS": "-c standard_conforming_strings=off", "PGCLIENTENCODING": "UTF8"}
    found.append(Case("texts with backslashes that do not conform", PG, ESCAPED_CHANGES, catalogue=STRINGS, rows=ESCAPED,
                      client=Client(("-v", "ON_ERROR_STOP=1"), conforming)))
    shadows = [
        "CREATE SCHEMA elsewhere;",
        "CREATE TABLE elsewhere.products (product text, price bigint);",
        'CREATE TABLE elsewhere."products~changes" (product text, price bigint, "#" bigint);',
        "CREATE FUNCTION elsewhere.sum(bigint) RETURNS bigint LANGUAGE sql AS 'SELECT 7::bigint';",
    ]
    before = Client(("-v", "ON_ERROR_STOP=1"), {"PGOPTIONS": "-c search_path=elsewhere,public,pg_catalog", "PGCLIENTENCODING": "UTF8"})
    types = [f"CREATE TABLE {said} (other int);" for said in ("bool", "text", "int8", "oid", "tid")]
    return found + [
        Case("another schema stands first in the path", PG, JAM_IS_DEARER, keyed(), shadows, client=before),
        Case("types of others stand first in the path", PG, JAM_IS_DEARER, keyed(), types, client=before),
    ]


# ---- limits of parsers


def formula(where="true", kept='"a.x"'):
    catalogue = f'[[view]]\nname = "a"\ncolumns = ["x", "y"]\n[[view]]\nname = "v"\nover = ["a"]\nwhere = {where}\nkeep = [["x", {kept}]]\n'
    return {"catalogue": catalogue, "rows": {"a": [(1, 2), (3, 4), (5, 6)]}}


NUMBERS = {"a": [((1, 2), -1), ((7, 8), 1), ((2, 0), 1)]}


def nested(begin, inner, end, times):
    return begin * times + inner + end * times


def limits():
    found = []
    members = ", ".join(f'["=", "a.x", {n}]' for n in range(3, 3003))
    shapes = {
        "not 45 deep": {"where": nested('["not", ', '["=", "a.x", 3]', "]", 45)},
        "not 62 deep": {"where": nested('["not", ', '["=", "a.x", 3]', "]", 62)},
        "arithmetic 30 deep": {"kept": nested('["+", ', '"a.x"', ', "a.y"]', 30)},
        "arithmetic 30 deep to the right": {"kept": nested('["-", "a.y", ', '"a.x"', "]", 30)},
        "arithmetic 63 deep": {"kept": nested('["-", "a.y", ', '"a.x"', "]", 63)},
        "arithmetic 30 deep in a filter": {"where": '["<", ' + nested('["+", ', '"a.x"', ', "a.y"]', 30) + ", 99]"},
        "all in any in all 60 deep": {"where": nested('["all", ["any", ["not", ', '["=", "a.x", 3]', '], ["=", "a.y", 2]]]', 20)},
        "any of 3,000": {"where": f'["any", {members}]'},
        "all of 3,000": {"where": '["all", ' + members.replace('"="', '"<>"') + "]"},
    }
    for engine in BOTH:
        wanted = {"wanted": EITHER} if engine == LITE else {}
        found += [Case(name, engine, NUMBERS, **formula(**shape), **wanted) for name, shape in shapes.items()]
    return found


def cases():
    return [*names(), *clients(), *again(), *encodings(), *settings(), *limits()]
