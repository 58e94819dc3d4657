"""The function of each captured table that makes changes of what the log says of it: the rows that its triggers would have noted.

Of a table whose rows the log tells whole before they change or leave (REPLICA IDENTITY FULL) each row leaves and comes as it is told. Where the log tells
the key alone, a row leaves as it stood before the night, and comes as it was told last."""

from __future__ import annotations

from collections.abc import Mapping, Sequence
from typing import TYPE_CHECKING, Literal, TypeAlias

from ..dialect import COUNT
from ..digests import in_index, same_texts
from ..postgresql import PATH
from ..tokens import END_OF_STATEMENT, Sql, Unfit, body, joined, name, number, sql, statements, text, word
from .parting import CHANGED
from .turned import Told, Unturned, how_of_postgresql

if TYPE_CHECKING:
    from .from_log import FromLog
    from .sources import Source

TOLD = "table %s is not captured as it was: %s; run whview sql capture"
Why: TypeAlias = Literal["unlike", "missed"]
WHY: Mapping[Why, str] = {
    "unlike": "rows were written while its columns were not as they were captured, or its rows were not logged so",
    "missed": "the log does not have all its changes",
}
# Types whose values may be stored apart from their rows, which a change that leaves them as they were does not tell again.
LONG = ("text", "varchar", "bpchar")
# Columns of a row that is read, which no column of a catalogue's is called.
PLACE, SIGN, COMES, FRESH, CELLS = (name(f"~{said}") for said in ("place", "sign", "comes", "fresh", "cells"))


class LogRows:
    """The statements that make these functions."""

    def __init__(self, captures: FromLog) -> None:
        self.captures, self.script, self.dialect, self.log = captures, captures.script, captures.dialect, captures.log

    # ---- names

    def log_name(self) -> Sql:
        """The working table of what was read of the log, as it is made."""
        return name("night~log")

    def log_table(self) -> Sql:
        """The same, as it is read."""
        return self.dialect.working("night~log")

    def working(self, v: int, kind: str) -> Sql:
        return self.dialect.working(f"night~{kind}{v}")

    def made_as(self, v: int, kind: str, query: Sql) -> Sql:
        return sql("CREATE TEMPORARY TABLE {kind} ON COMMIT DROP AS {query}", kind=name(f"night~{kind}{v}"), query=query)

    # ---- the function

    def function(self, v: int, source: Source, is_keyed: bool) -> list[Sql]:
        """The function of a view's table."""
        made = [*self.begun(v, source), *self.emptied(v), *self.judged(v, source, is_keyed), *(self.keyed(v, source) if is_keyed else self.whole(v, source)),
                sql("DROP TABLE {read}", read=self.working(v, "read"))]
        program = sql(
            "\n#variable_conflict use_column\nDECLARE wanted text[]{end}\nemptied int8{end}\nfinding text{end}\nlate record{end}\ntouched int8{end}\nBEGIN{made}\nEND{end}",
            made=statements(made, 1), end=END_OF_STATEMENT,
        )
        function = self.captures.log_function(v)
        return [
            sql("CREATE OR REPLACE FUNCTION {function}() RETURNS void LANGUAGE plpgsql SET search_path = " + PATH + " SET quote_all_identifiers = off AS {program}",
                function=function, program=body(program)),
            sql("REVOKE ALL ON FUNCTION {function}() FROM PUBLIC", function=function),
        ]

    def begun(self, v: int, source: Source) -> list[Sql]:
        """What the log says of the table's columns, of transactions that are neither in its mirror nor in its changes."""
        pieces = [sql("concat({blank}, quote_ident({column}), {open}, format_type({type}, NULL), {close})", blank=text(" "), column=text(column.name), open=text("["),
                      type=number(column.told.own_type), close=text("]")) for column in source.own]
        query = sql(
            "SELECT l.place, l.act, p.part, CASE WHEN l.act <> {truncate} THEN {cells}(l.act, l.said, wanted) END AS cells FROM {log} AS l JOIN {parts} AS p"
            " ON p.name = l.part JOIN {state} AS s ON s.view = p.view WHERE p.view = {view} AND l.ended > s.taken AND NOT pg_visible_in_snapshot(l.number, s.since::pg_snapshot)",
            truncate=text("TRUNCATE"), cells=self.log.function("cells"), log=self.log_table(), parts=self.captures.parts, state=self.log.table,
            view=self.captures.view(v),
        )
        return [sql("wanted := ARRAY[{pieces}]", pieces=joined(pieces)), self.made_as(v, "read", query)]

    def raised(self, v: int, why: Why) -> Sql:
        """A refusal."""
        return self.dialect.raised(sql("format({told}, {view}::text, {why}::text)", told=text(TOLD), view=self.captures.view(v), why=text(WHY[why])))

    def refused(self, v: int, why: Why, query: Sql) -> Sql:
        """A refusal where a query finds a row."""
        return self.dialect.where(sql("EXISTS ({query})", query=query), self.raised(v, why))

    def emptied(self, v: int) -> list[Sql]:
        """Where all parts of the table were emptied at once, all that stood before leaves; what was written before that is of no account. Of a part that was
        emptied alone while this night began the log does not tell the rows, and the next night compares the table."""
        read = self.working(v, "read")
        ordinary = sql("JOIN pg_class AS k ON k.oid = {part} AND k.relkind = {kind}", part=sql("p.part"), kind=text("r"))
        some = sql(
            "SELECT 1 FROM {read} AS p {ordinary} WHERE p.act = {truncate} GROUP BY p.place HAVING count(*) < (SELECT count(*) FROM {parts} AS p {ordinary}"
            " WHERE p.view = {view})", read=read, ordinary=ordinary, truncate=text("TRUNCATE"), parts=self.captures.parts, view=self.captures.view(v),
        )
        return [
            sql("emptied := (SELECT max(r.place) FROM {read} AS r WHERE r.act = {truncate})", read=read, truncate=text("TRUNCATE")),
            sql("IF emptied IS NOT NULL THEN {made} END IF", made=statements([
                self.dialect.where(sql("EXISTS ({some})", some=some), self.dialect.raised(text(CHANGED % self.script.views[v].name))),
                self.leave(v, self.standing(v)),
                sql("DELETE FROM {read} AS r WHERE r.place <= emptied", read=read),
            ], 2)),
        ]

    def standing(self, v: int, keys: Sql | None = None) -> Sql:
        """The rows that stand before the night with what waits for it, all or those with these keys, as d."""
        cells, read = self.script.tables.cells(v), self.script.tables.read(v)
        listed = joined([sql("{read} AS {cell}", read=each, cell=cell) for each, cell in zip(read, cells)])
        parts = [sql("SELECT {listed}, t.{count} AS n FROM {table} AS t {keys}", listed=listed, count=COUNT, table=self.script.tables.table(v, suffix),
                     keys=keys or sql("")) for suffix in ("", "~changes")]
        return sql("SELECT {cells}, sum(u.n) AS n FROM ({both}) AS u GROUP BY {cells} HAVING sum(u.n) <> 0", cells=joined(self.script.tables.cells(v, "u")),
                   both=joined(parts, "UNION ALL"))

    def leave(self, v: int, rows: Sql) -> Sql:
        columns = joined([*self.script.tables.users(v), COUNT])
        return sql("INSERT INTO {changes} ({columns}) SELECT {cells}, - d.n FROM ({rows}) AS d", changes=self.script.tables.table(v, "~changes"), columns=columns,
                   cells=joined(self.script.tables.cells(v, "d")), rows=rows)

    # ---- what a change tells

    def told(self, source: Source, place: int, is_new: bool) -> Sql:
        """What is told of a column in the row before a change or after it, where columns are told from 1."""
        return sql("r.cells[{at}]", at=number(place + 1 + (len(source.own) if is_new else 0)))

    def had_before(self, source: Source) -> Sql:
        """Whether a row before the change is told."""
        return sql("r.cells[{at}] IS NOT NULL", at=number(2 * len(source.own) + 1))

    def judged(self, v: int, source: Source, is_keyed: bool) -> list[Sql]:
        """A refusal of changes that do not tell what they should."""
        places, own = range(len(source.own)), source.own
        sure = self.key(source) if is_keyed else [place for place in places if not own[place].may_be_null]
        new = [sql("{told} IS NULL", told=self.told(source, place, True)) for place in places]
        new += [sql("{told} = {null}", told=self.told(source, place, True), null=text("0")) for place in places if not own[place].may_be_null]
        old = [sql("{told} IS NULL", told=self.told(source, place, False)) for place in sure]
        before = sql("NOT ({had})", had=self.had_before(source))
        lacking = joined([before, *old], "OR")
        if is_keyed:
            needed = sql("(r.act = {delete} OR r.act = {update} AND {had})", delete=text("DELETE"), update=text("UPDATE"), had=self.had_before(source))
        else:
            needed = sql("r.act <> {insert}", insert=text("INSERT"))
        query = sql("SELECT 1 FROM {read} AS r WHERE r.act <> {delete} AND ({new}) OR {needed} AND ({lacking})", read=self.working(v, "read"), delete=text("DELETE"),
                    new=joined(new, "OR"), needed=needed, lacking=lacking)
        return [self.refused(v, "unlike", query)]

    def key(self, source: Source) -> list[int]:
        """The places of the key by which rows are told."""
        names = [column.name for column in source.columns]
        return [names.index(said) for said in source.key]

    def value(self, source: Source, place: int, is_new: bool) -> Sql:
        """A column's value, as of the server's own type; one that stayed as it was stands in the row before, where that is told."""
        old, new = (self.told(source, place, side) for side in (False, True))
        said = sql("CASE WHEN {new} = {stays} THEN {old} ELSE {new} END", new=new, stays=text("~"), old=old) if is_new else old
        return sql("CASE WHEN left({said}, 1) = {value} THEN substr({said}, 2) END::{kind}", said=said, value=text("="), kind=self.kind(source, place))

    def kind(self, source: Source, place: int) -> Sql:
        """The type of a column's value, one of the server's own."""
        told = source.own[place].told
        return word("text") if told.type == "enum" else name(told.type)

    def values(self, source: Source, is_new: bool) -> Sql:
        """The values of all columns."""
        return joined([sql("{value} AS {column}", value=self.value(source, place, is_new), column=name(column.name)) for place, column in enumerate(source.own)])

    def shown(self, source: Source) -> list[Sql]:
        """The columns of a row r as they are turned; a value of an enumeration is told as its text."""
        return [self.as_text(column.told) if column.told.type == "enum" else column.said for column in source.columns]

    def as_text(self, told: Told) -> Sql:
        """A column as it is turned that is told as a text."""
        found = how_of_postgresql(told._replace(type="text", is_folded=False))
        if isinstance(found, Unturned):
            raise Unfit(found.why)
        return found.said

    # ---- rows that are told whole

    def whole(self, v: int, source: Source) -> list[Sql]:
        """Each row leaves and comes as it is told."""
        insert = sql("INSERT INTO {changes} ({columns})", changes=self.script.tables.table(v, "~changes"), columns=joined([*self.script.tables.users(v), COUNT]))
        sides = [sql("SELECT {sign} AS {of}, {values} FROM {read} AS r WHERE r.act <> {other}", sign=number(sign), of=SIGN, values=self.values(source, sign > 0),
                     read=self.working(v, "read"), other=text(other)) for sign, other in ((1, "DELETE"), (-1, "INSERT"))]
        return [sql("{insert} SELECT {shown}, r.{sign} FROM ({both}) AS r", insert=insert, shown=joined(self.shown(source)), sign=SIGN, both=joined(sides, "UNION ALL"))]

    # ---- rows that are told by their keys

    def keyed(self, v: int, source: Source) -> list[Sql]:
        """What each key's row was, and what it became."""
        events, before = self.working(v, "events"), self.working(v, "before")
        cells, key = self.script.tables.cells(v, "d"), self.key_cells(v, source, "d")
        last = sql("SELECT DISTINCT ON ({key}) d.* FROM {events} AS d ORDER BY {key}, d.place DESC", key=joined(key), events=events)
        come = sql("INSERT INTO {changes} ({columns}) SELECT {cells}, 1 FROM ({last}) AS d WHERE d.comes", changes=self.script.tables.table(v, "~changes"),
                   columns=joined([*self.script.tables.users(v), COUNT]), cells=joined(cells), last=last)
        return [
            self.made_as(v, "events", self.events(v, source)),
            sql("ANALYZE {events}", events=events),
            self.made_as(v, "before", self.standing(v, self.of_keys(v, source))),
            *self.unbroken(v, source),
            *self.completed(v, source),
            self.leave(v, sql("SELECT * FROM {before}", before=before)),
            come,
            sql("DROP TABLE {events}, {before}", events=events, before=before),
        ]

    def key_cells(self, v: int, source: Source, of: str | None = None) -> list[Sql]:
        """The columns of the key in a working table."""
        cells = self.script.tables.cells(v, of)
        return [cells[place] for place in self.key(source)]

    def has_moved(self, source: Source) -> Sql:
        """Whether a change gives a row another key."""
        pairs = [(self.value(source, place, False), self.value(source, place, True)) for place in self.key(source)]
        other = joined([sql("{old} <> {new}", old=old, new=new) for old, new in pairs], "OR")
        return sql("(r.act = {update} AND {had} AND ({other}))", update=text("UPDATE"), had=self.had_before(source), other=other)

    def events(self, v: int, source: Source) -> Sql:
        """Each key that a row leaves, and each row that comes to a key: anew, or in the place of the one that stood there."""
        read, moved, delete = self.working(v, "read"), self.has_moved(source), text("DELETE")
        long = [place for place, column in enumerate(source.columns) if column.told.type in LONG and place not in self.key(source)]
        stays = joined([sql("{told} = {stays}", told=self.told(source, place, True), stays=text("~")) for place in long], "OR") or sql("FALSE")
        come = sql(
            "SELECT r.place AS {place}, TRUE AS {comes}, r.act = {insert} OR {moved} AS {fresh}, CASE WHEN {stays} THEN r.cells END AS {cells}, {values}"
            " FROM {read} AS r WHERE r.act <> {delete}", place=PLACE, comes=COMES, insert=text("INSERT"), moved=moved, fresh=FRESH, stays=stays, cells=CELLS,
            values=self.values(source, True), read=read, delete=delete,
        )
        gone = sql("SELECT r.place, FALSE, FALSE, NULL::text[], {values} FROM {read} AS r WHERE r.act = {delete} OR {moved}", values=self.values(source, False),
                   read=read, delete=delete, moved=moved)
        shown = joined([sql("{said} AS {cell}", said=said, cell=cell) for said, cell in zip(self.shown(source), self.script.tables.cells(v))])
        return sql("SELECT r.{place} AS place, r.{comes} AS comes, r.{fresh} AS fresh, r.{told} AS told, {shown} FROM ({both}) AS r", place=PLACE, comes=COMES,
                   fresh=FRESH, told=CELLS, shown=shown, both=joined([come, gone], "UNION ALL"))

    def same_key(self, v: int, source: Source, left: Sequence[Sql], right: Sequence[Sql]) -> Sql:
        """Whether two rows have the same key, by their cells: as the indexes of the mirror want it, where one is a row of it."""
        by_digest = set(self.script.access.unique_places(v, source.key))
        pairs = [(place, left[place], right[place]) for place in self.key(source)]
        return joined([same_texts(a, b) if place in by_digest and self.script.tables.is_text(v, place) else sql("{a} = {b}", a=a, b=b) for place, a, b in pairs], "AND")

    def of_keys(self, v: int, source: Source) -> Sql:
        """A join of rows with the keys of which the log tells."""
        keys = sql("(SELECT DISTINCT {key} FROM {events} AS e)", key=joined(self.key_cells(v, source, "e")), events=self.working(v, "events"))
        return sql("JOIN {keys} AS k ON {same}", keys=keys, same=self.same_key(v, source, self.script.tables.read(v), self.script.tables.cells(v, "k")))

    def unbroken(self, v: int, source: Source) -> list[Sql]:
        """A refusal of changes that do not follow from one another and from what stood before: a row comes where there is none, and changes or leaves where
        there is one."""
        stood = sql("SELECT {key}, -1, TRUE, FALSE FROM {before} AS b WHERE b.n > 0", key=joined(self.key_cells(v, source, "b")), before=self.working(v, "before"))
        all_of_it = sql("SELECT {key}, e.place, e.comes, e.fresh FROM {events} AS e UNION ALL {stood}", key=joined(self.key_cells(v, source, "e")),
                        events=self.working(v, "events"), stood=stood)
        ordered = sql("SELECT u.place, u.fresh, lag(u.comes, 1, FALSE) OVER (PARTITION BY {key} ORDER BY u.place) AS came FROM ({all_of_it}) AS u",
                      key=joined(self.key_cells(v, source, "u")), all_of_it=all_of_it)
        return [self.refused(v, "missed", sql("SELECT 1 FROM ({ordered}) AS o WHERE o.place >= 0 AND o.came = o.fresh", ordered=ordered))]

    def completed(self, v: int, source: Source) -> list[Sql]:
        """Long values that a change left as they were stand in the row before it, by the key that it had then; those of the changes before come first."""
        long = [place for place, column in enumerate(source.columns) if column.told.type in LONG and place not in self.key(source)]
        if not long:
            return []
        events, cells = self.working(v, "events"), self.script.tables.cells(v)
        sets = joined([sql("{cell} = CASE WHEN e.told[{at}] = {stays} THEN b.{cell} ELSE e.{cell} END", cell=cells[place],
                           at=number(place + 1 + len(source.columns)), stays=text("~")) for place in long])
        update = sql("UPDATE {events} AS e SET {sets} FROM ({rows}) AS b WHERE e.place = late.place AND e.comes", events=events, sets=sets,
                     rows=self.row_before(v, source, long))
        by_key = joined([sql("({said})", said=in_index(cells[place]) if self.script.tables.is_text(v, place) else cells[place]) for place in self.key(source)])
        indexed = [sql("CREATE INDEX ON {table} ({by_key}, {last})", table=self.working(v, kind), by_key=by_key, last=word(last))
                   for kind, last in (("events", "place"), ("before", "n"))]
        each = sql(
            "FOR late IN SELECT e.place FROM {events} AS e WHERE e.told IS NOT NULL ORDER BY e.place LOOP {update}{end} GET DIAGNOSTICS touched = ROW_COUNT{end}"
            " {none}{end} END LOOP", events=events, update=update, none=self.dialect.where(sql("touched = 0"), self.raised(v, "missed")), end=END_OF_STATEMENT,
        )
        return self.dialect.only_where(sql("EXISTS (SELECT 1 FROM {events} AS e WHERE e.told IS NOT NULL)", events=events), [*indexed, each])

    def row_before(self, v: int, source: Source, long: Sequence[int]) -> Sql:
        """The long values of the row that an event followed."""
        cells, events = self.script.tables.cells(v), self.working(v, "events")
        own, other = ([sql("{of}.{cell}", of=word(of), cell=cell) for cell in cells] for of in ("p", "w"))
        same = joined([same_texts(own[place], other[place]) if self.script.tables.is_text(v, place) else sql("{a} = {b}", a=own[place], b=other[place])
                       for place in self.key(source)], "AND")
        former = sql("SELECT g.* FROM {events} AS g WHERE g.place = late.place ORDER BY g.comes LIMIT 1", events=events)
        listed = joined([own[place] for place in long])
        last = sql("SELECT p.place, {listed} FROM {events} AS p WHERE p.comes AND p.place < late.place AND {same} ORDER BY p.place DESC LIMIT 1", listed=listed,
                   events=events, same=same)
        stood = sql("SELECT -1, {listed} FROM {before} AS p WHERE p.n > 0 AND {same}", listed=listed, before=self.working(v, "before"), same=same)
        return sql("SELECT u.* FROM ({former}) AS w CROSS JOIN LATERAL (({last}) UNION ALL ({stood}) ORDER BY 1 DESC LIMIT 1) AS u", former=former, last=last, stood=stood)
