"""Views of a database taken by whview sql take, and their nights, beside what the database itself says of them."""

from argparse import Namespace
from contextlib import redirect_stderr
from io import StringIO
from pathlib import Path

from trials.servers.postgresql import Broken
from whview.sql.capture import command as capturing
from whview.sql.capture.database import PostgreSQLAsked
from whview.sql.capture.live_postgresql import LiveInPostgreSQL
from whview.sql.capture.postgresql import LivePostgreSQL
from whview.sql.command import complete
from whview.views import reading, take, written
from whview.views.asked import Asking
from whview.views.taking import Taking

COLUMNS = (
    "SELECT array_agg(concat_ws(' ', a.attname, format_type(a.atttypid, a.atttypmod)) ORDER BY a.attnum) FROM pg_attribute AS a"
    " WHERE a.attrelid = '{schema}.\"{view}\"'::regclass AND a.attnum > 0 AND NOT a.attisdropped"
)


class Kept:
    """A database whose views are taken, in a folder of their own."""

    def __init__(self, server, name, folder):
        self.server, self.name, self.folder, self.taken = server, name, Path(folder), []
        with server.session() as session:
            session.rows(f"DROP DATABASE IF EXISTS {name}")
            session.rows(f"CREATE DATABASE {name} TEMPLATE template0")
        self.session = server.session(name)

    def close(self):
        self.session.close()
        with self.server.session() as session:
            session.rows(f"DROP DATABASE {self.name}")

    def said(self, text):
        """What an application's statements answer."""
        return self.session.asked(text)

    def words(self, **said):
        """The words of a command."""
        return complete(Namespace(engine="postgresql", database=self.name, path=str(self.folder), **said))

    def script(self, **said):
        """What is written for the words of a command over live tables."""
        return capturing.written(LiveInPostgreSQL(self.words(live=True, **said)))

    def carried(self, lines):
        """Has psql carry a script out."""
        ran = self.server.psql(self.name, ("-v", "ON_ERROR_STOP=1"), given="\n".join(lines).encode())
        if ran.returncode:
            raise Broken(ran.stderr.decode(errors="replace")[-900:])

    def refused(self, views):
        """Takes views as far as they are not refused, and answers of each that is why."""
        reasons, wanted = {}, list(views)
        while wanted:
            taking = Taking(Asking(PostgreSQLAsked(self.name, LivePostgreSQL("wh")).command()), "wh", "public")
            decomposition = taking.taken(taking.chosen(wanted))
            if not taking.refused:
                self.made(decomposition)
                break
            told = {each.spot.view if each.spot else "?": each for each in taking.refused}
            reasons.update({view: each.told() for view, each in told.items() if view in wanted})
            left = [view for view in wanted if view not in told]
            if left == wanted:
                raise Broken(f"refused, and no view of these: {[each.told() for each in taking.refused]}")
            wanted = left
        self.taken = wanted
        return reasons

    def made(self, decomposition):
        """Captures, fills and makes what these views want."""
        written.put(self.folder, decomposition, "wh", reading.made("wh", decomposition.reads, None))
        told = StringIO()
        with redirect_stderr(told):
            script = self.script(capture=True, open=True)
        self.carried([*self.again(script, [each.name for each in decomposition.reads]), *reading.made("wh", decomposition.reads, None)])

    def again_taken(self, views):
        """The script of the command that takes these views, which may be taken already."""
        self.taken = list(views)
        with redirect_stderr(StringIO()):
            return take.taken(self.words(views=",".join(views)))

    def again(self, script, names):
        """A script, with the views of these names put aside that are there."""
        there = {row[0] for row in self.session.rows("SELECT viewname FROM pg_views WHERE schemaname = 'wh'")}
        return reading.beside(script, "wh", "public", [name for name in names if name in there])

    def night(self):
        """A night."""
        self.carried(self.script(night=True))

    def differences(self):
        """What the kept views have otherwise than the views, in one snapshot: columns, types and rows."""
        wrong = []
        self.session.rows("BEGIN ISOLATION LEVEL REPEATABLE READ")
        for view in self.taken:
            wrong += self.difference(view)
        self.session.rows("ROLLBACK")
        return wrong

    def difference(self, view):
        """The same of one view."""
        own, kept = f'public."{view}"', f'wh."{view}"'
        columns = [self.session.rows(COLUMNS.format(schema=schema, view=view))[0][0] for schema in ("public", "wh")]
        if columns[0] != columns[1]:
            return [f"{view}: the columns are {columns[1]}, and not {columns[0]}"]
        self.session.rows("SAVEPOINT one")
        try:
            more = self.session.rows(f"SELECT * FROM {kept} EXCEPT ALL SELECT * FROM {own}")
            less = self.session.rows(f"SELECT * FROM {own} EXCEPT ALL SELECT * FROM {kept}")
        except Broken as fault:
            self.session.rows("ROLLBACK TO one")
            return [f"{view}: {fault.told[:500]}"] if not self.fails_itself(own) else []
        return [f"{view}: too many {more[:3]}, missing {less[:3]}"] if more or less else []

    def fails_itself(self, own):
        """Whether the view itself cannot be read."""
        try:
            self.session.rows(f"SELECT * FROM {own}")
            return False
        except Broken:
            return True
        finally:
            self.session.rows("ROLLBACK TO one")
