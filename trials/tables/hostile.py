"""Hostile names and texts in every place where one can stand: what is written is refused before its first line, or does no harm."""

import random
from pathlib import Path
from typing import NamedTuple


from trials.servers.databases import Client, in_folder
from trials.tables.filled import Filled, plainly
from trials.tables.given_nights import Night, begun, written
from trials.tables.judged import Judged, is_sentence
from whview.catalogue.from_bundle import views_of

# The catalogue in which each name has a sign of its own, and what the signs are where they are not tried.
CATALOGUE = """[[view]]
name = <base>
columns = [<key:int>, <word:text>]
[[view]]
name = <other>
columns = [<number>]
[[view]]
name = <joined>
over = [<base>, <other>]
join = [[<base.key>, <other.number>]]
where = ["<>", <base.word>, { text = <filter> }]
keep = [[<kept>, <base.key>], [<said>, { text = <text> }]]
[[view]]
name = <summary>
over = [<joined>]
group = [[<group>, <joined.kept>]]
count = <count>
sum = [[<sum>, <joined.kept>]]
"""
NAMES = {name: name for name in ("base", "key", "word", "other", "number", "joined", "kept", "said", "summary", "group", "sum")}
NAMES |= {"count": "counted", "filter": "none", "text": "said"}
OPTIONS = ("plain", "counted", "schema", "expression", "source", "size", "kind", "reference")

PIECES = [
    "'", "''", '"', '""', "\\", "\\'", "\\\\", "$$", "$night$", "$", "--", "/*", "*/", ";", "\n", "\r", "\r\n", "\x00", "\u2028", "\u2029",
    "\x85", "\x0b",
    "\x1a", "\x7f", "\ufeff", "%", "%s", "{", "}", "{0}", "<", ":canary", ":'canary'", ':"canary"', ":{?canary}", "`touch CANARY`",
    "\n\\! touch CANARY\n",
    "\n\\o CANARY\n", "\\! touch CANARY", "\n.shell touch CANARY\n", "\n\\q\n", "\n\\set ON_ERROR_STOP off\n", "'; DROP TABLE canary; --",
    '"; DROP TABLE canary; --',
    "$night$; DROP TABLE canary; --", "\n; DROP TABLE canary;\n", "*/ DROP TABLE canary; /*", "'); DELETE FROM canary; --", "E'\\''",
    "U&\"\\0041\"", "\n@strategy\n",
    "\n\nCOMMIT;\n", "END; COMMIT;", " ", ".", "#", "~net", "a", "A", "n", "true", "1", "x" * 60, "é", "\u0436", "\U0001f600", "\u0131",
    "NULL", "pg_temp",
]
WHOLE = ["", "a" * 64, "a" * 65, "é" * 32, "_", "_1", "1_", "true", "n", "ctid", "rowid", "new", "old", "user", "x" * 63 + "~"]
SYSTEM = {
    "postgresql": ["pg_class", "pg_authid", "pg_proc", "pg_type", "information_schema"],
    "sqlite": ["sqlite_master", "sqlite_sequence", "sqlite_schema", "sqlite_stat1", "sqlite_temp_master"],
}
# What TOML or UTF-8 refuses, and U+0000, which no engine has texts with.
NO_TEXTS = [b"a\\u0000b", b"\\ud800", b"\\udfff\\ud800", b"\\U00110000", b"\xff", b"\xed\xa0\x80", b"\xc0\x80", b"\x00", b"\x1b"]
ENGINES_OWN = ("does not exist", "reserved for internal use", "unknown database", "no such table")
WORDS = {"--create": "made", "--open": "opened", "--night": "night"}


class Attack(NamedTuple):
    place: str
    text: str


def is_understood(told):
    """Whether a refusal is a sentence, or an engine's about a name that it has not, or has for itself."""
    return is_sentence(told) or any(words in told for words in ENGINES_OWN)


def toml(text):
    """A text as TOML writes it, all of it escaped that has to be."""
    escaped = {'"': '\\"', "\\": "\\\\"}
    return '"' + "".join(escaped.get(c, c) if " " <= c != "\x7f" else f"\\u{ord(c):04x}" for c in text) + '"'


def drawn_text(source, canary):
    """A hostile text, whole or of several pieces."""
    if source.random() < 0.2:
        return source.choice(WHOLE)
    return "".join(source.choice(PIECES) for _ in range(source.choice([1, 1, 2, 3]))).replace("CANARY", str(canary))


def attacks(seed, count, canary):
    source = random.Random(seed)
    places = [*NAMES, *OPTIONS]
    return [Attack(places[number % len(places)], drawn_text(source, canary)) for number in range(count)]


class Attacked:
    """A folder in which a hostile text stands in one place."""

    def __init__(self, attack, folder):
        self.attack, self.folder = attack, Path(folder)
        self.names = {**NAMES, attack.place: attack.text} if attack.place in NAMES else dict(NAMES)
        (self.folder / "catalogue.toml").write_bytes(self.catalogue().encode())
        (self.folder / "strategy.txt").write_bytes(self.strategy().encode())
        sizes = ["view,pre,post,change", *(f"{name},1,1,1" for name in self.views(self.named("size")))]
        (self.folder / "sizes.csv").write_bytes("\n".join(sizes + [""]).encode())

    def named(self, place):
        """The hostile text where it stands in this place, or else the other base view's name."""
        return self.attack.text if self.attack.place == place else self.names["other"]

    def views(self, other):
        return [self.names["base"], other, self.names["joined"], self.names["summary"]]

    def catalogue(self):
        parts = CATALOGUE.split("<")
        found = parts[0]
        for part in parts[1:]:
            sign, _, rest = part.partition(">")
            found += self.signed(sign) + rest if sign and sign[0].isalpha() else "<" + part
        return found

    def signed(self, sign):
        """What stands for a sign: names joined by a point, or with a kind after them."""
        view, point, column = sign.partition(".")
        name, colon, kind = column.partition(":") if point else view.partition(":")
        kind = self.attack.text if self.attack.place == "kind" and colon else kind
        text = self.names[name] + colon + kind
        reference = self.attack.text if self.attack.place == "reference" and sign == "base.key" else None
        return toml(reference if reference is not None else self.names[view] + point + text if point else text)

    def strategy(self):
        base, other, joined, summary = self.views(self.named("source"))
        lines = [f"comp {joined} from {base}", f"inst {base}", f"comp {joined} from {other}", f"inst {self.named('expression')}"]
        return "\n".join([*lines, f"comp {summary} from {joined}", f"inst {joined}", f"inst {summary}", ""])

    def words(self):
        """The options of the command, of which a hostile text may be one."""
        options = ("plain", "counted", "schema")
        return [f"--{self.attack.place}={self.attack.text}"] if self.attack.place in options else []


class Hostile:
    """Attacks upon a database, in which there is a table and beside which there is a file that nothing may touch."""

    def __init__(self, database, folder):
        self.database, self.folder = database, Path(folder)
        self.canary = self.folder / "canary"
        self.client = Client(("-v", "ON_ERROR_STOP=1", "-v", "canary=x'; DROP TABLE canary; --"))
        if database.engine == "sqlite":
            self.client = Client(("-bail",))
        self.run_scripts = 0

    def mistakes(self, attack):
        """What a hostile text does that it should not."""
        if attack.place in ("plain", "counted", "schema") and "\x00" in attack.text:
            return []
        attacked = Attacked(attack, self.folder)
        scripts, found = [], []
        for word in WORDS:
            script = written("--engine", self.database.engine, word, *attacked.words(), self.folder)
            found += self.unwritten(script) if script.status else []
            scripts += [] if script.status else [script.text]
        if scripts:
            found += self.harm(scripts, is_elsewhere=attack.place == "schema")
        return [f"{self.database.engine}: {attack.text!r} as {attack.place}: {text}" for text in found]

    def unwritten(self, script):
        """A refusal is told in words, and before the first line."""
        found = ["a script was begun"] if begun(self.database.engine, script.text) else []
        return found + ([f"the refusal is {script.told.strip()[-200:]!r}"] if "Traceback" in script.told or not script.told.strip() else [])

    def harm(self, scripts, is_elsewhere):
        """What scripts do beside the night's own tables, or that they do not run, where their tables are not elsewhere."""
        self.run_scripts += 1
        self.database.fresh()
        self.database.make(["CREATE TABLE canary (sings int);", "INSERT INTO canary VALUES (7);"])
        before = self.database.state()
        told = [self.database.run(script, self.client) for script in scripts]
        after = self.database.state()
        found = [f"the canary's table: {text}" for text in self.gone(before, after)]
        if self.canary.exists():
            self.canary.unlink()
            found.append("the canary's file is there")
        failed = [text for text in told if text and not (is_elsewhere and is_understood(text))]
        return found + [f"what was written does not run: {text.strip()[:300]}" for text in failed]

    def gone(self, before, after):
        lost = [name for name, rows in before.tables.items() if after.tables.get(name) != rows]
        return lost + list(before.definitions - after.definitions)

    # ---- names of the system

    def system_mistakes(self, name):
        """What is done to a system's table by scripts over a view of its name, one after another and each by itself."""
        found = []
        for place in ("base", "summary") if name == SYSTEM[self.database.engine][0] else ("summary",):
            attacked = Attacked(Attack(place, name), self.folder)
            scripts = [written("--engine", self.database.engine, word, *attacked.words(), self.folder) for word in WORDS]
            found += [text for script in scripts if script.status for text in self.unwritten(script)]
            texts = [script.text for script in scripts if not script.status]
            for chosen in [[text] for text in texts[1:]] + [texts]:
                found += self.system_harm(chosen)
        return [f"{self.database.engine}: a view named {name}: {text}" for text in found]

    def system_harm(self, scripts):
        """What scripts do to the system, by a client that goes on."""
        self.database.fresh()
        self.database.make(self.counted_by_system())
        before = self.database.state()
        told = [self.database.run(script, Client()) for script in scripts]
        after = self.database.state()
        bad = [text for text in told if text and not is_understood(text)]
        return self.gone(before, after) + [f"no sentence: {text.strip()[:300]}" for text in bad]

    def counted_by_system(self):
        if self.database.engine == "postgresql":
            return ["CREATE TABLE canary (sings int);"]
        return ["CREATE TABLE canary (sings INTEGER PRIMARY KEY AUTOINCREMENT);", "INSERT INTO canary DEFAULT VALUES;", "ANALYZE;"]


# ---- texts that are data


def legal_texts(canary):
    pieces = [piece.replace("CANARY", str(canary)) for piece in PIECES if "\x00" not in piece]
    return list(dict.fromkeys([*pieces, "".join(pieces[:20]), "".join(pieces[20:]), ""]))


def text_night(texts):
    """A night in which each text is kept and filtered by, and is a cell of a row that stays, one that leaves and one that comes."""
    catalogue = '[[view]]\nname = "a"\ncolumns = ["x", "t:text"]\n'
    for number, text in enumerate(texts):
        catalogue += f'[[view]]\nname = "v{number}"\nover = ["a"]\nwhere = ["=", "a.t", {{ text = {toml(text)} }}]\n'
        catalogue += f'keep = [["x", "a.x"], ["t", "a.t"], ["u", {{ text = {toml(text)} }}]]\n'
    views = views_of(catalogue)
    records = [[((x, text), 1) for text in texts for x in (1, 2)]] + [[] for _ in texts]
    changes = [[((2, text), -1) for text in texts] + [((3, text), 1) for text in texts]] + [[] for _ in texts]
    night = Night(views, records, changes, plain=[0])
    night.text = catalogue
    return night


def text_mistakes(database, folder, program, texts):
    """What is made of texts that are data, where it is not the program's rows."""
    night = text_night(texts)
    filled = Filled(database, night, [plainly(view) for view in night.views])
    before, after, _ = night.contents(program)
    database.fresh()
    made = [line for v in range(len(night.views)) for line in filled.made(v) + filled.rows(v, before[v])]
    database.make([*made, *filled.made_changes(0), *filled.changed(0)])
    state = database.state()
    script = written("--engine", database.engine, *night.option(), night.folder(folder))
    told = script.told if script.status else database.run(script.text)
    if told:
        return [f"{database.engine}: texts that are data: {told.strip()[:500]}"]
    return [f"{database.engine}: {text}" for text in Judged(database, night, filled.tables, state, database.state()).done(after)]


def no_text_mistakes(database, folder):
    """What is made of texts that are none: each is refused before the first line."""
    found = []
    for raw in NO_TEXTS:
        night = text_night(["MARK"])
        path = night.folder(folder)
        (path / "catalogue.toml").write_bytes(night.catalogue.replace(b"MARK", raw))
        script = written("--engine", database.engine, path)
        if not script.status or begun(database.engine, script.text) or "Traceback" in script.told:
            found.append(f"{database.engine}: {raw!r} in a text: {script.told.strip()[-300:]!r}, and {len(script.text)} letters written")
    return found


def hostile_mistakes(database, program, count, seed):
    """All of it, and how many scripts were run."""
    found = []
    with in_folder() as folder:
        hostile = Hostile(database, folder)
        texts = legal_texts(hostile.canary)
        for start in range(0, len(texts), 60):
            found += text_mistakes(database, folder, program, texts[start : start + 60])
        found += no_text_mistakes(database, folder)
    with in_folder() as folder:
        hostile = Hostile(database, folder)
        for attack in attacks(seed, count, hostile.canary):
            found += hostile.mistakes(attack)
        for name in SYSTEM[database.engine]:
            found += hostile.system_mistakes(name)
    return found, hostile.run_scripts
