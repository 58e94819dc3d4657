"""The databases of the trials, with the tables of the nights as each engine has them."""

from trials.servers.databases import PostgreSQLDatabase, SQLiteDatabase


class LivePostgreSQL(PostgreSQLDatabase):
    """A database of a server, in which the tables of the nights stand in the schema wh."""

    before = "wh."

    @property
    def address(self):
        return self.name

    def fresh(self):
        self.asked("DROP SCHEMA IF EXISTS wh CASCADE; DROP SCHEMA public CASCADE; CREATE SCHEMA public;")

    def table(self, name):
        return f'wh."{name}"'


class LiveSQLite(SQLiteDatabase):
    """A file of SQLite, in which the names of the nights' tables begin with wh."""

    before = "wh_"

    @property
    def address(self):
        return str(self.path)

    def table(self, name):
        return f'"wh_{name}"'
