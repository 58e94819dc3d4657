"""Partitions that come and leave: those of captured tables are captured as they come, without that any command fails by it, and nobody who makes one
gains anything by it."""

import random
from contextlib import ExitStack

from trials.capture.altered import PARTED
from trials.capture.case import Case
from trials.capture.intruders import GONE, ROLE, caught
from trials.ended import faults
from trials.servers.beside import Beside
from trials.servers.postgresql import Broken

HOSTILE = """"a'; DROP TABLE lines; --%s $night$ ""part""\\" """.strip()
MADE = "CREATE TABLE more (id int NOT NULL, product text NOT NULL, pieces smallint NOT NULL);"
OF_MORE = "INSERT INTO orders (id, day, region) VALUES (2000, '2026-03-03', 'region 7'), (2001, '2026-03-03', 'region 7');"
ATTACHED = (
    MADE + "INSERT INTO more VALUES (2000, 'product 2', 5), (2001, 'product 3', 6); ALTER TABLE lines ATTACH PARTITION more FOR VALUES FROM (2000) TO (3000);" + OF_MORE
)
NEW = "CREATE TABLE more PARTITION OF lines FOR VALUES FROM (2000) TO (3000);"
WRITTEN = "INSERT INTO more VALUES (2000, 'product 2', 5), (2001, 'product 4', 3); UPDATE more SET pieces = 7 WHERE id = 2000;" + OF_MORE
# Parts of parts, of which one has its columns otherwise.
TREE = (
    "CREATE TABLE more (product text NOT NULL, id int NOT NULL, pieces smallint NOT NULL) PARTITION BY LIST (product); CREATE TABLE most PARTITION OF more DEFAULT;"
    " CREATE TABLE least PARTITION OF more FOR VALUES IN ('product 2'); INSERT INTO more VALUES ('product 2', 2000, 5), ('product 3', 2001, 6), ('product 3', 2001, 6);"
)
LATE = "BEGIN ISOLATION LEVEL REPEATABLE READ; SELECT 1; "
OTHER = "rows came or left with a partition at another isolation"
COMING = {
    "a part whose name is hostile": Case(
        f"INSERT INTO lines VALUES (3500, 'product 2', 1); UPDATE {HOSTILE} SET pieces = 2; TRUNCATE {HOSTILE}; INSERT INTO {HOSTILE} VALUES"
        f" (3501, 'product 3', 4); ALTER TABLE lines DETACH PARTITION {HOSTILE};",
        made=PARTED + f"CREATE TABLE {HOSTILE} PARTITION OF lines FOR VALUES FROM (3000) TO (4000);",
    ),
    "a new part whose name is hostile": Case(
        f"CREATE TABLE {HOSTILE} PARTITION OF lines FOR VALUES FROM (3000) TO (4000); INSERT INTO {HOSTILE} VALUES (3501, 'product 3', 4); INSERT INTO orders (id, day,"
        f" region) VALUES (3501, '2026-03-03', 'region 7'); TRUNCATE {HOSTILE}; INSERT INTO {HOSTILE} VALUES (3501, 'product 4', 4);", made=PARTED,
    ),
    "a part that is attached": Case(ATTACHED, made=PARTED),
    "a part that is attached, and written to": Case(ATTACHED + "INSERT INTO lines VALUES (2000, 'product 4', 1); DELETE FROM more WHERE id = 2001;", made=PARTED),
    "a part that is attached, written to and detached again": Case(
        ATTACHED + "INSERT INTO lines VALUES (2000, 'product 4', 1); ALTER TABLE lines DETACH PARTITION more; DROP TABLE more;", made=PARTED,
    ),
    "a part that is attached, and rolled back": Case("BEGIN;" + ATTACHED + "ROLLBACK; BEGIN; SAVEPOINT a;" + ATTACHED + "ROLLBACK TO a; COMMIT;", made=PARTED),
    "a part that is attached within savepoints": Case("BEGIN; SAVEPOINT a;" + ATTACHED + "SAVEPOINT b; UPDATE more SET pieces = 2; RELEASE b; RELEASE a; COMMIT;", made=PARTED),
    "a part that is attached within a function": Case(f"DO $f$ BEGIN BEGIN {ATTACHED} EXCEPTION WHEN division_by_zero THEN NULL; END; END $f$;", made=PARTED),
    "parts of parts that are attached": Case(
        TREE + "ALTER TABLE lines ATTACH PARTITION more FOR VALUES FROM (2000) TO (3000); UPDATE most SET pieces = 9; INSERT INTO least VALUES ('product 2', 2000, 1);"
        " UPDATE lines SET product = 'product 2' WHERE id = 2001;" + OF_MORE, made=PARTED,
    ),
    "parts of parts that are detached": Case(
        "ALTER TABLE lines DETACH PARTITION more; UPDATE most SET pieces = 9; INSERT INTO least VALUES ('product 2', 2000, 1); DROP TABLE least; INSERT INTO lines VALUES"
        " (4, 'product 4', 4);",
        made=PARTED + TREE + "ALTER TABLE lines ATTACH PARTITION more FOR VALUES FROM (2000) TO (3000);" + OF_MORE,
    ),
    "a new part": Case(NEW + WRITTEN, made=PARTED),
    "a new part, emptied and written to": Case(NEW + WRITTEN + "TRUNCATE more;" + "INSERT INTO more VALUES (2001, 'product 3', 1);", made=PARTED),
    "a new part of a part": Case(
        "CREATE TABLE thirds PARTITION OF high FOR VALUES IN ('product 30'); INSERT INTO thirds VALUES (25, 'product 30', 4); INSERT INTO lines VALUES (26, 'product 30', 4);"
        " INSERT INTO products (product, price) VALUES ('product 30', 2);", made=PARTED,
    ),
    "a new part within CREATE SCHEMA": Case("CREATE SCHEMA shelf " + NEW.replace("TABLE more", "TABLE shelf.more").replace("OF lines", "OF public.lines")
                                            + "INSERT INTO shelf.more VALUES (2000, 'product 2', 5);" + OF_MORE + "DROP SCHEMA shelf CASCADE;", made=PARTED),
    "a new part of a later isolation": Case(LATE + NEW + WRITTEN + "COMMIT;", made=PARTED),
    "a part that is attached, of a later isolation": Case(LATE + ATTACHED + "COMMIT;", made=PARTED, refused=OTHER),
    "a part that is detached": Case("ALTER TABLE lines DETACH PARTITION low;", made=PARTED),
    "a part that is detached, of a later isolation": Case(LATE + "ALTER TABLE lines DETACH PARTITION low; COMMIT;", made=PARTED, refused=OTHER),
    "a part that is detached, and written to": Case("ALTER TABLE lines DETACH PARTITION low; INSERT INTO low VALUES (1, 4, 'product 4');", made=PARTED),
    "a part that is detached beside others": Case("ALTER TABLE lines DETACH PARTITION low CONCURRENTLY; INSERT INTO low VALUES (1, 4, 'product 4');", made=PARTED),
    "a part that is detached, written to and attached again": Case(
        "ALTER TABLE lines DETACH PARTITION low; DELETE FROM low WHERE id < 9; UPDATE low SET pieces = 8 WHERE id = 10; ALTER TABLE lines ATTACH PARTITION low FOR VALUES"
        " FROM (0) TO (20); UPDATE low SET pieces = 9 WHERE id = 11;", made=PARTED,
    ),
    "a part that is dropped": Case("UPDATE lines SET pieces = 9 WHERE id IN (2, 22); DROP TABLE low; DELETE FROM lines WHERE id = 23;", made=PARTED),
    "a part with parts that is dropped": Case("DROP TABLE high; DELETE FROM lines WHERE id = 3;", made=PARTED),
    "a part that is detached and dropped": Case("BEGIN; ALTER TABLE lines DETACH PARTITION low; DROP TABLE low; COMMIT;", made=PARTED),
    "a part that is dropped, and made anew": Case(
        "DROP TABLE low; CREATE TABLE low PARTITION OF lines FOR VALUES FROM (0) TO (20); INSERT INTO low SELECT id, 'product 2', 3 FROM orders WHERE id < 9;", made=PARTED
    ),
    "a new part where an event trigger is disabled": Case(f"ALTER EVENT TRIGGER \"whview wh\" DISABLE; {NEW} {WRITTEN} ALTER EVENT TRIGGER \"whview wh\" ENABLE ALWAYS;",
                                                          made=PARTED, refused="more has no triggers"),
    "a part that is dropped where an event trigger is missing": Case("DROP EVENT TRIGGER \"whview wh\"; DROP TABLE low; UPDATE lines SET pieces = 8 WHERE id = 22;", made=PARTED),
}

# The table is the seller's, and whatever of his is called notes as whom.
OWNED = (
    "ALTER TABLE lines OWNER TO seller; ALTER TABLE low OWNER TO seller; ALTER TABLE high OWNER TO seller; ALTER TABLE others OWNER TO seller; GRANT ALL ON SCHEMA public"
    " TO seller; CREATE TABLE caught (called text, whose name); GRANT ALL ON caught TO PUBLIC; GRANT ALL ON orders TO seller;"
)
NOTES = (
    "SET ROLE seller; CREATE FUNCTION notes(text) RETURNS int LANGUAGE plpgsql AS $f$ BEGIN INSERT INTO public.caught VALUES ($1, current_user); RETURN 1; END $f$;"
    " CREATE FUNCTION one(text) RETURNS int IMMUTABLE LANGUAGE plpgsql AS $f$ BEGIN RETURN public.notes($1); END $f$;"
    " CREATE FUNCTION fires() RETURNS trigger LANGUAGE plpgsql AS $f$ BEGIN PERFORM public.notes('trigger'); RETURN NULL; END $f$;"
)
# All that he may put on a part of his, the name of a capture's trigger too.
HIS = (
    "CREATE TABLE {more} (id int NOT NULL, product text NOT NULL, pieces smallint NOT NULL DEFAULT public.one('default'), CHECK (public.one('check') = 1));"
    " CREATE INDEX ON {more} (id) WHERE public.one('index') = 1; CREATE STATISTICS \"s {first}\" ON (public.one(product)), (public.one('statistics')), pieces FROM {more};"
    " CREATE TRIGGER \"whview {made} insert\" AFTER INSERT ON {more} FOR EACH STATEMENT EXECUTE FUNCTION public.fires();"
    " CREATE TRIGGER fires AFTER INSERT OR UPDATE OR DELETE OR TRUNCATE ON {more} FOR EACH STATEMENT EXECUTE FUNCTION public.fires();"
    " CREATE RULE also AS ON INSERT TO {more} DO ALSO SELECT public.one('rule'); ALTER TABLE {more} ALTER product SET STATISTICS 0;"
    " INSERT INTO {more} VALUES ({first}, 'product 2', 5), ({first}, 'product 3', 6); ALTER TABLE lines ATTACH PARTITION {more} FOR VALUES FROM ({first}) TO ({last});"
    " INSERT INTO {more} VALUES ({first}, 'product 4', 5); INSERT INTO orders (id, day, region) VALUES ({first}, '2026-03-03', 'region 7');"
)
BY_WHOEVER_CALLS = (
    'ALTER FUNCTION wh."lines~parting"(text) SECURITY INVOKER; SET ROLE seller; CREATE TABLE last PARTITION OF lines FOR VALUES FROM (9000) TO (9900); RESET ROLE;'
)
CALLED = "what is the seller's was called"
NAMES = ("more", 'most', '"; DROP TABLE x; --"')


def his_parts(live, function='wh."lines~capture"()'):
    """Parts of the seller's come and leave, with all of his on them."""
    (made,) = live.asked(f"SELECT '{function}'::regprocedure::oid;")
    for number, each in enumerate(NAMES, 2):
        live.asked("SET ROLE seller;" + HIS.format(more=each, made=made, first=number * 1000, last=number * 1000 + 1000))
    live.asked(f"ALTER TABLE lines DETACH PARTITION most; CREATE TABLE his PARTITION OF lines FOR VALUES FROM (8000) TO (9000); DROP TABLE {NAMES[2]};"
               " INSERT INTO his VALUES (8000, 'product 2', 4); RESET ROLE;")


def owner_mistakes(live):
    """The owner of a table gets nothing of his called by whoever captured it, by what he puts on its parts."""
    live.as_whom = ("--without-role",)
    wrong = live.fresh(PARTED, OWNED)
    live.as_whom = ()
    live.asked(NOTES + "RESET ROLE;")
    his_parts(live)
    return wrong + live.refuses("is not captured as it was") + caught(live, CALLED)


def role_mistakes(live):
    """The same where captures are a role's: that role reads what comes and leaves, and nights go on."""
    wrong = live.bare(PARTED)
    live.asked(OWNED)
    wrong += faults(live.opened("--role", ROLE))
    live.asked(NOTES + "RESET ROLE; GRANT keeper TO seller;")
    his_parts(live)
    for said in ("DELETE FROM caught; SET ROLE seller; UPDATE his SET pieces = 2; TRUNCATE more; RESET ROLE;", BY_WHOEVER_CALLS):
        told = live.night()
        # Whoever compares the tables reads them too, and so only afterwards.
        wrong += caught(live, CALLED, ROLE) + (faults(told) or live.mistakes())
        live.asked(said)
    wrong += live.refuses("last has no triggers", "a function of whoever calls it was called: ")
    told = live.run("--uncapture")
    left = live.asked("SELECT evtname FROM pg_event_trigger UNION ALL SELECT proname FROM pg_proc WHERE proname LIKE '%~%';")
    wrong += [f"--uncapture: {told}"] if told else [f"{each} is left" for each in left]
    live.asked(GONE)
    return wrong


def stranger_mistakes(live):
    """The same where the owner is no member of the role: nothing of his is called as that one, and the night says so."""
    wrong = live.bare(PARTED)
    live.asked(OWNED)
    wrong += faults(live.opened("--role", ROLE))
    live.asked(NOTES + "RESET ROLE;")
    his_parts(live)
    wrong += live.refuses("is not captured as it was") + caught(live, CALLED)
    live.asked(GONE)
    return wrong


# What the role may do to its own function: a type of its own with a cast, and a path of names that stays.
CASTS = (
    "SET ROLE keeper; CREATE TYPE wh.mine AS (x int); CREATE FUNCTION wh.gets(wh.mine) RETURNS oid[] LANGUAGE plpgsql AS $f$ BEGIN PERFORM wh.notes('cast'); RETURN '{}';"
    ' END $f$; CREATE CAST (wh.mine AS oid[]) WITH FUNCTION wh.gets(wh.mine) AS ASSIGNMENT; DROP FUNCTION wh."lines~parting"(text); CREATE FUNCTION wh."lines~parting"(act'
    " text) RETURNS wh.mine LANGUAGE plpgsql SECURITY DEFINER AS $f$ BEGIN RETURN ROW(1)::wh.mine; END $f$; RESET ROLE;"
)
PATHS = (
    'SET ROLE keeper; CREATE FUNCTION wh.concat(text, text, text, regclass) RETURNS text LANGUAGE plpgsql AS $f$ BEGIN PERFORM wh.notes(\'path\'); RETURN \'\'; END $f$;'
    ' CREATE FUNCTION wh.same(oid, oid) RETURNS bool LANGUAGE plpgsql AS $f$ BEGIN PERFORM wh.notes(\'operator\'); RETURN FALSE; END $f$; CREATE OPERATOR wh.= (LEFTARG ='
    ' oid, RIGHTARG = oid, FUNCTION = wh.same); CREATE OR REPLACE FUNCTION wh."lines~parting"(act text) RETURNS oid[] LANGUAGE plpgsql SECURITY DEFINER AS $f$ BEGIN PERFORM'
    " pg_catalog.set_config('search_path', 'wh, pg_catalog', FALSE); RETURN ARRAY['public.low'::pg_catalog.regclass::pg_catalog.oid]; END $f$; RESET ROLE;"
)
BY_KEEPER = (
    "CREATE TABLE caught (called text, whose name); GRANT ALL ON caught TO PUBLIC; SET ROLE keeper; CREATE FUNCTION wh.notes(text) RETURNS int LANGUAGE plpgsql AS $f$ BEGIN"
    " INSERT INTO public.caught VALUES ($1, current_user); RETURN 1; END $f$; RESET ROLE;"
)


def member_mistakes(live):
    """Whoever is a member of the role may make its functions other ones: the event trigger, which is a superuser's, calls nothing of that for itself."""
    wrong = []
    for said in (CASTS, PATHS):
        wrong += live.bare(PARTED) + faults(live.opened("--role", ROLE))
        live.asked(BY_KEEPER + said + NEW + "SET search_path = public;")
        wrong += caught(live, CALLED, ROLE)
        live.asked(GONE)
    return wrong


SLOW = (
    "CREATE FUNCTION slow() RETURNS trigger LANGUAGE plpgsql AS $f$ BEGIN PERFORM pg_catalog.pg_sleep(9); RETURN NULL; END $f$; CREATE TRIGGER slow AFTER INSERT ON"
    ' wh."lines~changes" FOR EACH STATEMENT EXECUTE FUNCTION slow(); SET statement_timeout = 400;'
)
# What goes wrong as a part comes, what ends that, and what the next night says.
FAILING = {
    "a function that is gone": ('DROP FUNCTION wh."lines~parting"(text);', "", "more has no triggers"),
    "a function that fails": ('ALTER TABLE wh."~parts" RENAME view TO v;', 'ALTER TABLE wh."~parts" RENAME v TO view;', "more has no triggers"),
    "a statement that takes too long": (SLOW, 'RESET statement_timeout; DROP TRIGGER slow ON wh."lines~changes"; DROP FUNCTION slow;', "more has no triggers"),
    "a function of somebody who may nothing": ('CREATE ROLE other; ALTER FUNCTION wh."lines~parting"(text) OWNER TO other;', "DROP OWNED BY other CASCADE; DROP ROLE other;",
                                               "more has no triggers"),
}


def failing_mistakes(live):
    """What goes wrong beside a command fails no command, and the next night says so."""
    wrong = []
    for name, (said, ended, word) in FAILING.items():
        wrong += live.fresh(PARTED)
        try:
            live.asked(said + ATTACHED)
        except Broken as told:
            wrong.append(f"{name}: the command was told {told.told[:300]}")
        live.asked(ended + "SELECT 1;")
        wrong += live.refuses(word, f"{name}: ") + live.anew(f"{name}: ")
    return wrong


# What partitions come and leave by while others write and nights run, for a number; and what their writers write.
GOES_ON = (
    "CREATE TABLE d{n} PARTITION OF lines FOR VALUES FROM ({a}) TO ({b}); INSERT INTO d{n} SELECT {a} + i % 9, 'product ' || i % 20, 2 FROM generate_series(1, 40) AS i;\n",
    "ALTER TABLE lines DETACH PARTITION d{m};\nUPDATE d{m} SET pieces = 3;\nALTER TABLE lines ATTACH PARTITION d{m} FOR VALUES FROM ({c}) TO ({d});\n",
    "ALTER TABLE lines DETACH PARTITION d{m} CONCURRENTLY;\nDROP TABLE d{m};\n",
    "DROP TABLE d{m};\n",
    "BEGIN; ALTER TABLE lines DETACH PARTITION d{m}; DELETE FROM d{m} WHERE id % 2 = 0; ROLLBACK;\n",
    "TRUNCATE d{m};\n",
)
WRITES = (
    "INSERT INTO lines SELECT {n} % 40, 'product ' || {n} % 20, 1;", "UPDATE lines SET pieces = {n} % 9 WHERE id = {n} % 40;", "DELETE FROM lines WHERE id = ({n} + 7) % 40;",
    "UPDATE lines SET id = id + 15 WHERE id = {n} % 20;", "INSERT INTO d{m} VALUES ({c} + 1, 'product 3', 4);", "INSERT INTO lines VALUES ({c} + 2, 'product 5', 6);",
    "UPDATE lines SET pieces = {n} % 7 WHERE id BETWEEN {c} AND {d};", "BEGIN; INSERT INTO lines VALUES ({c} + 3, 'product 6', 1); DELETE FROM d{m} WHERE id = {c}; COMMIT;",
)
# What PostgreSQL itself says where a part is there no more, and nights where a part leaves as they begin.
OF_ITSELF = ("no partition of relation", "does not exist", "would overlap", "is not a partition", "deadlock detected", "already exists", "is already a partition",
             "current transaction is aborted", "violates partition constraint", "already moved to another partition")
AGAIN = ("run it again", "could not serialize")


def drawn(source, number, templates):
    """A statement about a part that has come lately."""
    least = max(0, number - source.randrange(1, 5))
    return source.choice(templates).format(n=number, a=2000 + number * 10, b=2010 + number * 10, m=least, c=2000 + least * 10, d=2010 + least * 10)


def busy_mistakes(live, many=120, seed=7):
    """Partitions come and leave while others write and nights run: no command fails by it, and at last the views are what the tables give."""
    wrong, source, nights = live.fresh(PARTED.replace("TO (2000)", "TO (1999)")), random.Random(seed), []
    parts = [drawn(source, n, GOES_ON[:1]) + drawn(source, n, GOES_ON[1:]) + "SELECT pg_sleep(0.02);\n" for n in range(many)]
    texts = [parts, *([drawn(source, n % many, WRITES) + "\n" for n in range(many * 5)] for _ in range(2))]
    with ExitStack() as stack:
        sessions = [stack.enter_context(live.database.another()) for _ in texts]
        begun = [stack.enter_context(Beside(session.goes_on, "".join(text))) for session, text in zip(sessions, texts)]
        while any(each.is_at_work() for each in begun):
            nights.append(live.night())
    wrong += [told for each in begun for told in each.answer if not any(word in told for word in OF_ITSELF)][:3]
    wrong += [f"a night was told {told}" for told in faults(*nights) if not any(each in told for each in AGAIN)][:3]
    wrong += live.right("the last night: ")
    return wrong + ([] if len(nights) > 3 and None in nights else [f"{len(nights)} nights ran beside"])


OWNER = (
    "DO $$ DECLARE t regclass; BEGIN FOR t IN SELECT oid FROM pg_class WHERE relnamespace = 'public'::regnamespace AND relkind IN ('r', 'p') LOOP EXECUTE"
    " format('ALTER TABLE %s OWNER TO seller', t); END LOOP; EXECUTE format('GRANT CREATE ON DATABASE %I TO seller', current_database()); END $$;"
    " GRANT ALL ON SCHEMA public TO seller;"
)


def unwatched_mistakes(live):
    """Where a table's owner captures it, who may make no event trigger, that is told, and nights tell as before what came."""
    wrong, database = live.bare(PARTED), live.database
    live.asked(OWNER)
    capture = database.begun("SET ROLE seller;\n" + live.words("--capture") + live.words("--live", "--open"))
    told = capture.communicate()[1]
    wrong += [] if not capture.returncode and b"no event trigger is made" in told else [f"a capture by the owner: {told}"]
    live.asked(f"SET ROLE seller; {NEW} RESET ROLE;")
    told = database.run("SET ROLE seller;\n" + live.script)
    wrong += [] if "more has no triggers" in (told or "") else [f"the night was told {told!r}"]
    live.asked("DROP SCHEMA wh CASCADE; DROP OWNED BY seller;")
    return wrong


TRIED = {
    "an owner's parts": owner_mistakes, "an owner's parts, by a role": role_mistakes, "a stranger's parts, by a role": stranger_mistakes,
    "a member's function": member_mistakes, "parts": failing_mistakes, "parts that come and leave beside writers and nights": busy_mistakes,
    "without an event trigger": unwatched_mistakes,
}
