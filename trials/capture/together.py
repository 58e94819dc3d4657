"""A role of captures, long texts, checks, repairs and a catalogue that changes, in one database of PostgreSQL: by a superuser, and by a member of the role."""

from trials.capture.application import unlike
from trials.capture.long_texts import CATALOGUE, LONG, MADE
from trials.tables.given_nights import lay, written

OWN = "wh_keeper"
CHANGED = """
[[view]]
name = "notes"
columns = ["id", "said:text"]
[[view]]
name = "by_said"
over = ["notes"]
group = [["said", "notes.said"]]
count = "n"
sum = [["ids", "notes.id"]]
[[view]]
name = "said_twice"
over = ["by_said"]
where = [">", "by_said.n", 1]
keep = [["said", "by_said.said"], ["n", "by_said.n"]]
"""
ROLES = f"SET client_min_messages = error; DROP ROLE IF EXISTS runner; CREATE ROLE runner LOGIN; GRANT {OWN} TO runner;"
GONE = f"DROP OWNED BY runner; DROP ROLE runner; DROP OWNED BY {OWN}; DROP ROLE {OWN};"
WRITTEN = (
    "INSERT INTO notes VALUES (4, {long}, 'here'), (5, {long} || 'y', 'there'), (5, {long} || 'z', 'there'), (5, {long} || 'z', 'there');",
    "UPDATE notes SET id = 6 WHERE said = {long} || 'z'; DELETE FROM notes WHERE said = {long} || 'y'; INSERT INTO notes VALUES (7, {long}, {long} || 'p');",
    "INSERT INTO places VALUES ({long} || 'p', {long}); UPDATE notes SET said = {long} || 'w' WHERE id = 3;",
    "DELETE FROM notes WHERE id = 4; INSERT INTO notes VALUES (8, {long} || 'w', 'here');",
)
# What a member of the role puts on a table of its own: whoever writes there calls it.
PLANTED = (
    "CREATE TABLE wh.caught (whose name); CREATE FUNCTION wh.catch() RETURNS trigger LANGUAGE plpgsql AS $f$ BEGIN INSERT INTO wh.caught VALUES (current_user);"
    " RETURN NULL; END $f$;"
)
TRIGGER = 'CREATE TRIGGER catch AFTER INSERT OR UPDATE OR DELETE ON wh."{table}" FOR EACH STATEMENT EXECUTE FUNCTION wh.catch();'
TABLES = ("~checks", "~captured", "~columns")
OTHERS = f"SELECT k.oid::regclass FROM pg_class AS k WHERE k.relnamespace = 'wh'::regnamespace AND k.relkind = 'r' AND k.relowner <> '{OWN}'::regrole;"
SHOWN = {
    "notes": ("SELECT id, said FROM notes", 'SELECT id, said, "#" FROM wh.notes'),
    "by_said": ("SELECT said, count(*) AS n, sum(id) AS ids FROM notes GROUP BY 1", "SELECT said, n, ids, 1 FROM wh.by_said"),
    "said_twice": ("SELECT said, count(*) AS n FROM notes GROUP BY 1 HAVING count(*) > 1", 'SELECT said, n, "#" FROM wh.said_twice'),
    "by_both": ("SELECT p.town, n.said, count(*) AS n FROM notes AS n JOIN places AS p ON p.place = n.place GROUP BY 1, 2", "SELECT town, said, n, 1 FROM wh.by_both"),
}


class Kept:
    """The tables, captured as a role, with the catalogue as it is now."""

    def __init__(self, live):
        self.live, self.path, self.wrong = live, lay(live.path / "together", CATALOGUE), []
        self.by = {"postgres": live.database.name, "runner": f"dbname={live.database.name} user=runner"}

    def did(self, *words, who="postgres"):
        """A script, carried out by somebody."""
        made = written("--database", self.by[who], *words, self.path)
        told = made.told if made.status else self.live.database.run(f"SET SESSION AUTHORIZATION {who};\n{made.text}")
        self.wrong += [f"{words} by {who}: {told}"] if told else []

    def night(self, said, who):
        """What an application writes, and a night by somebody: by any plan."""
        self.live.asked(said.replace("{long}", LONG["postgresql"]))
        self.did("--live", who=who)

    def check(self, wanted, *words, who="postgres"):
        """A check by somebody, that has to say this at its end."""
        found = written("--database", self.by[who], "--check", *words, self.path)
        last = (found.text.splitlines() or [""])[-1]
        self.wrong += [] if last == wanted and not found.told else [f"a check {words} by {who} says {last!r} and {found.told!r}, and not {wanted!r}"]

    def alike(self, *names):
        """The tables of the nights are what the application's give."""
        self.wrong += unlike(self.live.database, {name: SHOWN[name] for name in names})


def mistakes(live):
    """All of it, one after the other: this is all that a database has, so that the schemas and roles go at the end."""
    kept = Kept(live)
    live.database.fresh()
    live.asked(MADE)
    kept.did("--capture", "--role", OWN)
    live.asked(ROLES)
    kept.did("--live", "--open", who="runner")
    for said, who in zip(WRITTEN[:2], ("runner", "postgres")):
        kept.night(said, who)
    kept.alike("by_said", "by_both")
    kept.check("all 5 agree")
    kept.check("all 5 agree", who="runner")
    live.asked('UPDATE wh.notes SET id = id + 1 WHERE length(said) > 9000; DELETE FROM wh.by_said WHERE length(said) > 9000;')
    kept.check("2 of 5 differ", who="runner")
    kept.check("2 of 5 differ, and rows were put right", "--repair", who="runner")
    kept.check("all 5 agree")
    changed(kept)
    live.asked("DROP SCHEMA wh CASCADE;" + GONE)
    return [f"together: {text}"[:900] for text in kept.wrong]


def changed(kept):
    """A catalogue that leaves a column and views out and has another view, and then the first one again: what a member of the role has put on its tables
    is called as the role, and never as a superuser."""
    live = kept.live
    live.asked(f"SET SESSION AUTHORIZATION runner; SET ROLE {OWN}; {PLANTED}" + "".join(TRIGGER.format(table=table) for table in TABLES)
               + "RESET ROLE; RESET SESSION AUTHORIZATION;")
    for catalogue, many, names in ((CHANGED, 3, ("notes", "by_said", "said_twice")), (CATALOGUE, 5, ("by_said", "by_both"))):
        live.asked(WRITTEN[2 if many == 3 else 3].replace("{long}", LONG["postgresql"]))
        lay(kept.path, catalogue)
        kept.did("--capture", "--role", OWN, "--changed", "--drop", "--live", "--open")
        kept.check(f"all {many} agree")
        kept.night("INSERT INTO notes VALUES (9, {long} || 'w', 'there');", "postgres")
        kept.alike(*names)
        kept.check(f"all {many} agree", who="runner")
    kept.wrong += [f"{each} is not the role's" for each in live.asked(OTHERS)]
    whose = live.asked("SELECT DISTINCT whose FROM wh.caught;")
    kept.wrong += [] if whose == [OWN] else [f"what the role's member has put on its tables is called as {whose}"]
