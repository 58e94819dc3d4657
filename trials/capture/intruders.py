"""Whoever owns or may write one captured table, or may see the schema of the nights: he gains nothing by it. And what the role of captures may."""

from trials.capture.altered import COLOURS
from trials.ended import faults
from trials.servers.postgresql import Broken
from trials.tables.given_nights import written

# The table is the seller's, who notes as whom anything of his is called.
OWNED = (
    "ALTER TABLE lines OWNER TO seller; GRANT ALL ON SCHEMA public TO seller; CREATE TABLE caught (called text, whose name); GRANT ALL ON caught TO PUBLIC;"
    " GRANT REFERENCES ON orders TO seller;"
)
MINE = (
    "SET ROLE seller; CREATE TYPE mine AS (x int); CREATE FUNCTION {kind}_of(mine) RETURNS {kind} LANGUAGE plpgsql AS $f$ BEGIN INSERT INTO public.caught"
    " VALUES ('cast', current_user); RETURN 1; END $f$; CREATE CAST (mine AS {kind}) WITH FUNCTION {kind}_of(mine); ALTER TABLE lines ALTER {column} TYPE mine USING"
    " ROW(1)::mine;"
)
COLOURED = COLOURS + "ALTER TYPE colour OWNER TO seller; GRANT ALL ON orders TO seller;"
OF_COLOUR = (
    "SET ROLE seller; CREATE FUNCTION text_of(colour) RETURNS text LANGUAGE plpgsql AS $f$ BEGIN INSERT INTO public.caught VALUES ('cast', current_user); RETURN 'x';"
    " END $f$; CREATE CAST (colour AS text) WITH FUNCTION text_of(colour);"
)
VIEWED = (
    "SET ROLE seller; CREATE FUNCTION seen() RETURNS smallint LANGUAGE plpgsql AS $f$ BEGIN INSERT INTO public.caught VALUES ('view', current_user); RETURN 1; END $f$;"
    " ALTER TABLE lines RENAME TO hidden; CREATE VIEW lines AS SELECT id, product, seen() AS pieces FROM hidden;"
)
ENDS = "RESET ROLE;"


def caught(live, told, *allowed):
    """Who called anything of the seller's, but for himself and those who are allowed to."""
    names = ", ".join(f"'{each}'" for each in ("seller", *allowed))
    return [f"{told}: {each}" for each in live.asked(f"SELECT DISTINCT called || ' by ' || whose FROM caught WHERE whose NOT IN ({names});")]


def cast_mistakes(live):
    """Types of the seller's in a captured column, with casts that tell by whom they are called: by a writer, a capture or a night."""
    live.as_whom = ("--without-role",)
    wrong = [text for each in (of_later, of_colour, viewed, of_before, indexed, unsafe) for text in each(live)]
    live.as_whom = ()
    return wrong


def of_later(live):
    """A type that a column gets once it is captured."""
    wrong = []
    for kind, column, value in (("bigint", "pieces", "(3, 'product 3', ROW(1)::mine)"), ("text", "product", "(3, ROW(1)::mine, 1)")):
        wrong += live.fresh(OWNED)
        script = live.words("--capture", *live.as_whom)
        live.asked(MINE.format(kind=kind, column=column) + f"INSERT INTO lines VALUES {value}; UPDATE lines SET id = id; DELETE FROM lines WHERE id = 5;"
                   " TRUNCATE lines;" + f"INSERT INTO lines VALUES {value};" + ENDS)
        told = [live.database.run(script), live.night()]
        wrong += caught(live, f"a cast to {kind}") + [f"with a column of another type was told {each!r}" for each in told if "lines" not in (each or "")]
    return wrong


def of_colour(live):
    """A cast of an enumeration, which whoever made it may make at any time."""
    wrong = live.fresh(COLOURED + OWNED)
    live.asked(OF_COLOUR + "INSERT INTO orders (id, day, region) VALUES (901, '2026-02-02', 'region 2'); UPDATE orders SET region = 'region 3' WHERE id = 4;"
               " TRUNCATE lines;" + ENDS)
    told = faults(live.night(), live.capture(), live.night())
    wrong += caught(live, "a cast of an enumeration") + told
    live.asked("DROP CAST (colour AS text);")
    return wrong + live.mistakes()


def unsafe(live):
    """A superuser's capture of the seller's table is refused and leaves nothing, unless a role is named or it is said that it does not matter."""
    wrong = live.bare(OWNED)
    before = live.database.state()
    told = live.run("--capture")
    wrong += [] if "public.lines is owned by seller" in (told or "") and "--role whview" in told else [f"a capture without a role is told {told!r}"]
    return wrong + before.differences(live.database.state())


def viewed(live):
    """A view of the seller's in the place of a table that is to be captured."""
    wrong = live.fresh(OWNED)
    script = live.words("--capture", *live.as_whom)
    live.asked(VIEWED + ENDS)
    told = live.database.run(script)
    return wrong + caught(live, "a view in the table's place") + ([] if told else ["a view in the table's place was captured"])


def of_before(live):
    """A type of the seller's that comes after the snapshot of a transaction of his, which then writes."""
    wrong = live.fresh(OWNED)
    with live.database.another() as stale:
        stale.asked("SET ROLE seller; BEGIN ISOLATION LEVEL REPEATABLE READ; SELECT 1;")
        live.asked(MINE.format(kind="bigint", column="pieces") + ENDS)
        wrong += [f"a writer by an older snapshot was told {told}"[:300] for told in stale.goes_on("INSERT INTO lines VALUES (3, 'product 3', ROW(1)::mine); COMMIT;")]
    return wrong + caught(live, "a cast of a later type")


INDEXED = (
    "SET ROLE seller; CREATE FUNCTION notes() RETURNS int LANGUAGE plpgsql AS $f$ BEGIN INSERT INTO public.caught VALUES ('index', current_user); RETURN 1; END $f$;"
    " CREATE FUNCTION one(int) RETURNS int IMMUTABLE LANGUAGE plpgsql AS $f$ BEGIN RETURN public.notes(); END $f$;"
    " CREATE OPERATOR === (LEFTARG = int, RIGHTARG = int, FUNCTION = {operate}); CREATE INDEX ON lines (id) WHERE {condition};"
)
# Whoever is a member of the role that reads has its trust.
MEMBER = "CREATE ROLE keeper; GRANT keeper TO seller;"
CONDITIONS = (("int4eq", "one(1) = 1"), ("is_it", "1 === 1"))
IS_IT = "CREATE FUNCTION is_it(int, int) RETURNS boolean IMMUTABLE LANGUAGE plpgsql AS $f$ BEGIN RETURN public.notes() = 1; END $f$; ALTER FUNCTION is_it OWNER TO seller;"


def told_of_index(live, told, what):
    """What is called or told of a table whose index calls a function of the seller's, otherwise than that this is refused."""
    return caught(live, "the condition of an index") + ([] if "no superuser's" in (told or "") else [f"{what} is told {told!r}"])


def indexed(live):
    """An index whose condition calls a function of the seller's when the table is read."""
    wrong = []
    for operate, condition in CONDITIONS:
        wrong += live.fresh(OWNED + IS_IT)
        live.asked(INDEXED.format(operate=operate, condition=condition) + "TRUNCATE lines; INSERT INTO lines VALUES (3, 'product 3', 3);" + ENDS)
        wrong += told_of_index(live, live.night(), "a night") + told_of_index(live, live.capture(), "a capture")
        wrong += told_of_index(live, live.run("--capture", "--role", ROLE), "a role's capture")
        live.asked(MEMBER)
        told = faults(live.run("--capture", "--role", ROLE) or live.night())
        wrong += caught(live, "the condition of an index", ROLE) + told
        live.asked(GONE)
    return wrong + checked(live)


def checked(live):
    """A superuser's check and repair of a table of the seller's, on which he puts an index later."""
    wrong = live.fresh(OWNED + IS_IT)
    live.asked(INDEXED.format(operate="int4eq", condition="one(1) = 1") + ENDS)
    for words in (["--check"], ["--check", "--repair"]):
        live.asked("DELETE FROM caught;")
        made = live.written(*words, live.path)
        wrong += told_of_index(live, made.told if made.status else "", str(words))
    return wrong


# All that the owner of a table may put on it which calls a function of his. That one leaves for another role where it may.
LEAVES = (
    "SET ROLE seller; CREATE FUNCTION notes(text) RETURNS int LANGUAGE plpgsql AS $f$ BEGIN BEGIN PERFORM pg_catalog.set_config('role', 'none', FALSE); EXCEPTION WHEN"
    " OTHERS THEN NULL; END; INSERT INTO public.caught VALUES ($1, current_user); RETURN 1; END $f$; CREATE FUNCTION one(text) RETURNS int IMMUTABLE LANGUAGE plpgsql AS"
    " $f$ BEGIN RETURN public.notes($1); END $f$; CREATE INDEX ON lines (id) WHERE one('index') = 1; ALTER TABLE lines ADD CHECK (one('check') = 1);"
    " CREATE STATISTICS of_lines ON (one('statistics')), pieces FROM lines; CREATE INDEX ON lines ((one('expression')));"
    " CREATE DOMAIN few AS smallint CHECK (one('domain') = 1); SET ROLE seller; ALTER TABLE lines ALTER pieces TYPE few; SET ROLE seller; ANALYZE lines; RESET ROLE;"
)
STEPS = (["--capture", "--role", "keeper"], ["--live", "--open"], ["--live"], ["--check"], ["--check", "--repair"], ["--capture", "--role", "keeper"], ["--live"],
         ["--capture", "--changed", "--role", "keeper"], ["--uncapture"])


def owned_mistakes(live):
    """Captures, checks, repairs and nights of a role over such a table: nothing of its owner's is called as a superuser, whatever it tries."""
    wrong = live.bare()
    live.asked(OWNED + LEAVES + "RESET ROLE; DELETE FROM caught;")
    wrong += told_of_index(live, live.run("--capture", "--role", ROLE), "a capture of what calls")
    live.asked(MEMBER)
    for step in STEPS:
        live.asked("SET ROLE seller; UPDATE lines SET id = id WHERE id < 9; RESET ROLE; DELETE FROM caught;")
        if "--check" in step:
            live.asked("UPDATE wh.lines SET pieces = pieces + 1 WHERE id = 5; UPDATE wh.sales SET cost = 1 WHERE cost = 0; DELETE FROM caught;")
        made = live.written(*step, live.path)
        told = made.told if made.status > 1 or "Traceback" in made.told else "" if "--check" in step else live.database.run(made.text)
        wrong += [f"{step}: {text}" for text in faults(told) + caught(live, "called", ROLE) + (live.mistakes() if step == ["--live"] else [])]
    live.asked(GONE)
    return wrong


FORGED = (
    'CREATE TEMPORARY TABLE forged (LIKE lines); CREATE TRIGGER a AFTER INSERT ON forged REFERENCING NEW TABLE AS come FOR EACH STATEMENT EXECUTE FUNCTION'
    ' wh."lines~capture"(); CREATE TRIGGER b AFTER INSERT ON forged FOR EACH ROW EXECUTE FUNCTION wh."lines~capture"(\'rows\'); CREATE TRIGGER c BEFORE TRUNCATE'
    ' ON forged FOR EACH STATEMENT EXECUTE FUNCTION wh."lines~capture"();'
)
FORGES = "INSERT INTO forged VALUES (3, 'product 3', 100); TRUNCATE forged;"


def forged_mistakes(live):
    """A table of the seller's with triggers that call the function of a captured table: he may not make them, and where he may they forge nothing."""
    wrong = live.fresh("GRANT USAGE ON SCHEMA public TO seller; GRANT SELECT ON lines TO seller;")
    live.asked("GRANT USAGE ON SCHEMA wh TO seller;")
    try:
        live.asked("SET ROLE seller;" + FORGED)
        wrong.append("anybody may put the function of a capture on a table")
    except Broken as told:
        wrong += [] if "permission denied for function" in told.told else [told.told[:300]]
    live.asked('RESET ROLE; GRANT EXECUTE ON FUNCTION wh."lines~capture"() TO seller; SET ROLE seller;' + FORGED + FORGES + ENDS)
    wrong += [f"{live.pending()} rows were forged"] if live.pending() else []
    live.asked("DROP TABLE forged;")
    return wrong + live.right()


def schema_mistakes(live):
    """A schema that the seller has made by the name of the night's: nothing is captured into it, and he gets no right by it."""
    wrong = live.bare()
    live.asked("CREATE SCHEMA wh AUTHORIZATION seller;")
    before = live.database.state()
    for words in ((), ("--role", ROLE)):
        told = live.run("--capture", *words)
        wrong += [] if "is owned by seller" in (told or "") else [f"a capture into the seller's schema is told {told!r}"]
    return wrong + before.differences(live.database.state())


ROLE = "keeper"
# As whom the functions of a view's triggers are called, which whoever carries a night out has.
ON_VIEW = (
    "CREATE TABLE nights_of (whose name); GRANT INSERT ON nights_of TO PUBLIC; CREATE FUNCTION whose() RETURNS trigger LANGUAGE plpgsql AS $f$ BEGIN INSERT INTO"
    " public.nights_of VALUES (current_user); RETURN NULL; END $f$; CREATE TRIGGER whose AFTER UPDATE OR INSERT OR DELETE ON wh.daily FOR EACH STATEMENT EXECUTE"
    " FUNCTION whose();"
)
OWNERS = (
    "SELECT format('%s is owned by %s', k.relname, k.relowner::regrole) FROM pg_class AS k WHERE k.relnamespace = 'wh'::regnamespace AND k.relowner <> 'keeper'::regrole"
    " UNION ALL SELECT format('%s is owned by %s', p.proname, p.proowner::regrole) FROM pg_proc AS p WHERE p.pronamespace = 'wh'::regnamespace AND p.proowner <>"
    " 'keeper'::regrole UNION ALL SELECT 'the schema is owned by another' FROM pg_namespace WHERE nspname = 'wh' AND nspowner <> 'keeper'::regrole;"
)
# All that the role may elsewhere, as the page has it: rights that everybody has left out.
RIGHTS = (
    "SELECT format('%s %s', a.privilege_type, k.relname) FROM pg_class AS k, aclexplode(k.relacl) AS a WHERE a.grantee = 'keeper'::regrole AND k.relowner <> 'keeper'::regrole"
    " UNION ALL SELECT format('%s %s', a.privilege_type, n.nspname) FROM pg_namespace AS n, aclexplode(n.nspacl) AS a WHERE a.grantee = 'keeper'::regrole AND n.nspowner <>"
    " 'keeper'::regrole UNION ALL SELECT format('%s database', a.privilege_type) FROM pg_database AS d, aclexplode(d.datacl) AS a WHERE a.grantee = 'keeper'::regrole"
    " ORDER BY 1;"
)
WANTED = ["SELECT lines", "SELECT orders", "SELECT products", "TEMPORARY database", "USAGE public"]
ATTRIBUTES = "SELECT rolname FROM pg_roles WHERE rolname = 'keeper' AND NOT (rolsuper OR rolcreaterole OR rolcreatedb OR rolcanlogin OR rolreplication OR rolbypassrls);"
GONE = "RESET ROLE; DROP SCHEMA IF EXISTS wh CASCADE; DROP OWNED BY keeper; DROP ROLE keeper; DROP ROLE IF EXISTS keeper_log;"


def otherwise(live):
    """What the role has otherwise than it should."""
    found = live.asked(OWNERS) + [f"a superuser carries out nights: {each}" for each in live.asked("SELECT whose FROM nights_of WHERE whose <> 'keeper';")]
    rights, attributes = live.asked(RIGHTS), live.asked(ATTRIBUTES)
    return found + ([] if rights == WANTED else [f"it may {rights}"]) + ([] if attributes == [ROLE] else ["it may more than a role without attributes"])


def role_mistakes(live):
    """Captures and nights of a role of their own: what is made is the role's, also what was another's before, and nights run as that role, whoever begins
    them, while applications write as ever."""
    wrong = live.fresh("REVOKE ALL ON SCHEMA public FROM PUBLIC;")
    for number in range(2):
        wrong += [f"--capture --role: {told}" for told in faults(live.opened("--role", ROLE))]
        live.asked(ON_VIEW if not number else "SELECT 1;")
        live.asked("UPDATE lines SET pieces = pieces + 1 WHERE id < 9; DELETE FROM orders WHERE id = 7; TRUNCATE lines; INSERT INTO lines VALUES (3, 'product 3', 1);")
        wrong += live.right("a superuser's night: ") + otherwise(live)
    live.asked("UPDATE lines SET pieces = pieces + 1;")
    told = live.database.run("SET ROLE keeper;\n" + live.script) or live.run("--capture", "--role", ROLE)
    wrong += [f"the role's own night: {text}" for text in faults(told) or live.mistakes() + otherwise(live)]
    told = live.capture()
    wrong += [] if "is owned by keeper" in (told or "") else [f"a capture that does not name the role is told {told!r}"]
    told = live.run("--uncapture")
    wrong += [f"--uncapture: {told}"] if told else [f"{each} is left" for each in live.asked("SELECT relname FROM pg_class WHERE relowner = 'keeper'::regrole;")]
    live.asked(GONE)
    return wrong + supers(live)


def supers(live):
    """A role that may too much is not taken."""
    wrong = live.bare()
    before = live.database.state()
    told = live.run("--capture", "--role", "postgres")
    wrong += [] if "is a superuser" in (told or "") else [f"a superuser as the role is told {told!r}"]
    wrong += before.differences(live.database.state())
    told = written("--live", "--role", ROLE, live.path).told
    return wrong + ([] if "go with `capture`" in told else [f"--live --role is told {told!r}"])


TRIED = {
    "what is the seller's": cast_mistakes, "what an owner puts on his table": owned_mistakes, "forged rows": forged_mistakes,
    "a schema of the seller's": schema_mistakes, "a role of captures": role_mistakes,
}
