"""A view's SELECT as a catalogue has it, over tables and views that are taken already; or why it is not taken."""

from __future__ import annotations

from collections.abc import Mapping, Sequence
from typing import TYPE_CHECKING, NamedTuple

from ...catalogue.nulls import NULL_NUMBER, NULL_TEXT
from ..dialect import LEAST, MOST
from . import selected
from .bounded import ANY, TURNED_ROUND, Bounds, Ends, Written, without_fraction
from .parsed import NotTaken
from .reasons import FILL, of_cast
from .selected import Select
from .turned import literal_apart
from .values import CASTS, DAY, MOMENTS, NAME, OF_LITERALS, TEXT, WHOLE, Column, Value, is_moment, is_wide, literal, scaled, shown

if TYPE_CHECKING:
    from .live import LiveDialect

MOST_CHILDREN = 6
OPPOSITE = {"=": "<>", "<>": "=", "<": ">=", ">=": "<", ">": "<=", "<=": ">"}


class Taken(NamedTuple):
    """A view that is taken: as the catalogue has it, its columns, and what is otherwise than in the database."""

    table: dict[str, Written]
    columns: list[Column]
    notes: list[str]


class Summed(NamedTuple):
    """A sum: its name, if it has one, what is summed and, of an average, what is said of it."""

    said: str | None
    value: Value
    note: str | None


class Aggregates(NamedTuple):
    """The names of the counts, each if it has one, and the sums."""

    counts: list[str | None]
    sums: list[Summed]


class Reader:
    """Reads one view's SELECT over views that are taken already. `without` has columns of them that cannot be had, each with the reason."""

    def __init__(self, select: Select, known: Mapping[str, Sequence[Column]], dialect: LiveDialect, schema: str | None = None,
                 without: Mapping[tuple[str, str], str] | None = None) -> None:
        self.select, self.known, self.dialect, self.without = select, known, dialect, without or {}
        self.children: dict[str, str] = {}
        for other, name, alias in select.tables:
            if other not in (None, schema):
                raise NotTaken(f"it is over {other}.{name}, which stands in another schema than {schema}")
            if name not in known:
                raise NotTaken(f"it is over {name}, which is not taken")
            if name in self.children.values():
                raise NotTaken(f"it is over {name} twice: make a view of one of them")
            self.children[alias] = name
        if len(self.children) > MOST_CHILDREN:
            raise NotTaken(f"it is over more than {MOST_CHILDREN} tables: make a view of some of them")
        self.join, self.tests = list[Written](), list[Written]()
        self.filled, self.bounds = set[str](), Bounds(self.bounds_of)

    # ---- expressions

    def column(self, alias: str | None, said: str) -> Value:
        """The value of a column, which stands in one child."""
        if alias is not None and alias not in self.children:
            raise NotTaken(f"there is no {alias} in its FROM")
        among = [alias] if alias is not None else list(self.children)
        found = [(each, column) for each in among for column in self.known[self.children[each]] if column.name == said]
        if not found:
            raise NotTaken(self.not_had(said, among))
        if len(found) > 1 and (said not in self.merged() or alias is not None):
            raise NotTaken(f"the column {said} is in several of its tables: say which")
        alias, column = found[0]
        reference = f"{self.children[alias]}.{column.name}"
        nulls = frozenset([reference]) if column.may_be_null else frozenset()
        return Value(reference, column.holds, column.places, nulls, True, column.is_exact)

    def not_had(self, said: str, among: Sequence[str]) -> str:
        """Why there is no column of this name in these children."""
        reasons = [self.without[self.children[each], said] for each in among if (self.children[each], said) in self.without]
        return reasons[0] if reasons else f"its column {said} cannot be had: it is not there, or was left out of the views that this one is over"

    def bounds_of(self, reference: str) -> Ends:
        """The least and the largest number of a column."""
        child, _, said = reference.partition(".")
        return next(column.bounds for column in self.known[child] if column.name == said)

    def bounds_of_value(self, value: Value) -> Ends:
        """Those of an expression that is kept: where it leaves 64 bits, the night is refused."""
        if value.holds != WHOLE:
            return ANY
        least, most = self.bounds.interval(value.formula)
        return max(least, LEAST), min(most, MOST)

    def merged(self) -> set[str]:
        """The columns that USING made one of."""
        return {each.said for each in self.select.equal if isinstance(each, selected.Using)}

    def value(self, given: selected.Expression) -> Value:
        """An expression as a catalogue has it."""
        match given:
            case selected.Column(alias, said):
                return self.column(alias, said)
            case selected.Number(number, places):
                return Value(number, WHOLE, places)
            case selected.Text(said):
                return Value({"text": literal_apart(said)}, TEXT)
            case selected.Cast(to, inner):
                return self.cast(to, inner)
            case selected.Computed(sign, left, right):
                return self.computed(sign, self.value(left), self.value(right))
            case selected.Aggregate():
                raise NotTaken("it has a count or a sum within an expression")

    def cast(self, to: str, inner: selected.Expression) -> Value:
        """An expression that is cast to what it is, or a text that is written as that."""
        if isinstance(inner, selected.Aggregate):
            raise NotTaken(of_cast(to, f"{inner.kind.lower()}({'..' if inner.of else '*'})"))
        value, wanted = self.value(inner), CASTS.get(to)
        if value.text is not None and wanted is not None and wanted in (DAY, *MOMENTS, WHOLE):
            return literal(value.text, wanted)
        if value.text is not None and to == "bpchar":
            return Value({"text": value.text.rstrip(" ")}, TEXT)
        is_cut = to not in ("numeric", "decimal") and value.holds == WHOLE and value.places
        if wanted is None or wanted != value.holds or is_cut or (to in OF_LITERALS and value.text is None):
            raise NotTaken(of_cast(to))
        return value

    def computed(self, sign: str, left: Value, right: Value) -> Value:
        """A sum, a difference or a product of numbers."""
        if (left.holds, right.holds) != (WHOLE, WHOLE):
            raise NotTaken(f"it computes with a {left.holds if left.holds != WHOLE else right.holds}: {FILL}")
        nulls, is_exact = left.nulls | right.nulls, self.dialect.is_exact or not (left.places or right.places)
        if sign == "*":
            return Value(["*", left.formula, right.formula], WHOLE, left.places + right.places, nulls, False, is_exact)
        if sign == "-" and left.formula == 0 and isinstance(right.formula, int):
            return Value(-right.formula, WHOLE, right.places)
        places = max(left.places, right.places)
        return Value([sign, scaled(left, places), scaled(right, places)], WHOLE, places, nulls, False, is_exact)

    # ---- conditions, each said so that it holds where SQL's is true, and not where it is unknown

    def null(self, reference: str) -> Written:
        """What stands for NULL in a column."""
        child, _, said = reference.partition(".")
        kind = next(column.kind for column in self.known[child] if column.name == said)
        return {"text": NULL_TEXT} if kind == "text" else NULL_NUMBER

    def guarded(self, test: Written, nulls: frozenset[str]) -> Written:
        """A test that holds where none of these columns is NULL, too."""
        guards: list[Written] = [["<>", reference, self.null(reference)] for reference in sorted(nulls)]
        return ["all", test, *guards] if guards else test

    def holds(self, given: selected.Condition, wanted: bool = True) -> Written:
        """A formula that holds where a condition is true, or is false."""
        match given:
            case selected.Every(members) | selected.Some(members):
                return ["all" if isinstance(given, selected.Every) == wanted else "any", *(self.holds(member, wanted) for member in members)]
            case selected.Not(member):
                return self.holds(member, not wanted)
            case selected.IsNull(inner):
                return self.is_null(self.value(inner), wanted)
            case selected.Compared(sign, left, right):
                return self.compared(sign if wanted else OPPOSITE[sign], *self.sides(left, right))
            case selected.Distinct(left, right):
                return self.distinct("<>" if wanted else "=", *self.sides(left, right))

    def is_null(self, value: Value, wanted: bool) -> Written:
        """That a column is NULL, or is not."""
        if not value.is_reference:
            raise NotTaken("it asks whether an expression is NULL: ask its columns")
        if not value.nulls:
            return ["any"] if wanted else ["all"]
        return ["=" if wanted else "<>", value.formula, self.null(value.reference)]

    def distinct(self, sign: str, left: Value, right: Value) -> Written:
        """A comparison in which NULL is a value: what stands for it equals itself alone."""
        is_alike = left.places == right.places or isinstance(left.formula, int) or isinstance(right.formula, int)
        if left.nulls | right.nulls and not (is_alike and all(value.is_reference or not value.nulls for value in (left, right))):
            raise NotTaken("it asks IS DISTINCT FROM of what may be NULL and is no column of as many places: write the comparison, and IS NULL beside it")
        return self.compared(sign, left._replace(nulls=frozenset()), right._replace(nulls=frozenset()))

    def sides(self, one: selected.Expression, other: selected.Expression) -> tuple[Value, Value]:
        """Both sides of a comparison, of which a text is what the other one is."""
        left, right = self.value(one), self.value(other)
        if right.text is not None and left.holds != TEXT:
            right = literal(right.text, left.holds)
        if left.text is not None and right.holds != TEXT:
            left = literal(left.text, right.holds)
        if left.holds != right.holds:
            raise NotTaken(f"it compares a {left.holds} with a {right.holds}")
        return left, right

    def compared(self, sign: str, left: Value, right: Value) -> Written:
        """A comparison of two that hold the same."""
        if left.holds == TEXT and sign not in ("=", "<>"):
            raise NotTaken(f"it compares texts by {sign}")
        if is_moment(left.holds):
            first = isinstance(left.formula, int)
            if left.is_reference == right.is_reference or (TURNED_ROUND[sign] if first else sign) not in (">=", "<"):
                raise NotTaken("it compares moments otherwise than by >= and < with a whole second, and whole seconds are kept")
        for value in (left, right):
            self.judge_exact(value, "compares")
        return self.guarded(self.scaled_alike(sign, left, right), left.nulls | right.nulls)

    def judge_exact(self, value: Value, does: str) -> None:
        """Refuses what SQLite has to some fifteen digits: it may be a little more or less there than what is compared with it."""
        if not value.is_exact:
            raise NotTaken(f"it {does} {shown(value.formula)}, which SQLite computes in floating point: have whole units in the table, such as cents,"
                           " or a column with it")
        digits = len(str(abs(value.formula))) if isinstance(value.formula, int) and value.places else 0
        if not self.dialect.is_exact and digits > self.dialect.most_digits:
            raise NotTaken(f"it {does} a number of {digits} digits, of which SQLite keeps {self.dialect.most_digits}")

    def scaled_alike(self, sign: str, left: Value, right: Value) -> Written:
        """A comparison of numbers that may have other places; a number that is written is brought to the places of what it is compared with."""
        if left.holds != WHOLE:
            return [sign, left.formula, right.formula]
        if isinstance(left.formula, int) and not isinstance(right.formula, int):
            return self.scaled_alike(TURNED_ROUND[sign], right, left)
        places = max(left.places, right.places)
        one: Written
        other: Written
        if isinstance(right.formula, int) and right.places > left.places:
            whole = without_fraction(sign, right.formula, 10 ** (places - left.places))
            if isinstance(whole, list):
                return whole
            sign, one, other = whole[0], left.formula, whole[1]
        else:
            one, other = scaled(left, places), scaled(right, places)
        if is_wide(one) or is_wide(other):
            raise NotTaken(f"it compares {shown(left.formula)} by a number that leaves 64 bits, in units of 10^-{places}: declare columns of fewer digits")
        found = self.bounds.compared(sign, one, other)
        if found is None:
            kept = left if isinstance(left.formula, list) else right
            raise NotTaken(f"it compares {shown(left.formula)} with {shown(right.formula)} where 64 bits may not hold what is compared:"
                           f" make a view that keeps {shown(kept.formula)}, and compare that")
        return found

    # ---- joins

    def conjuncts(self) -> list[selected.Condition]:
        """All that has to hold: what the joins say, and the condition."""
        said = [each if not isinstance(each, selected.Using) else self.used(each) for each in self.select.equal]
        waiting = [*said, *([self.select.where] if self.select.where else [])]
        found: list[selected.Condition] = []
        while waiting:
            each = waiting.pop(0)
            if isinstance(each, selected.Every):
                waiting = [*each.members, *waiting]
            else:
                found.append(each)
        return found

    def used(self, using: selected.Using) -> selected.Compared:
        """The equality that USING says."""
        said = using.said
        names = [[alias for alias in side if said in {column.name for column in self.known[self.children[alias]]}] for side in (using.left, using.right)]
        if not all(names):
            raise NotTaken(self.not_had(said, list(self.children)))
        return selected.Compared("=", selected.Column(names[0][0], said), selected.Column(names[1][0], said))

    def read_conditions(self) -> None:
        """Goes through what has to hold: equalities that join, and all others."""
        for each in self.conjuncts():
            match each:
                case selected.Compared(_, one, other):
                    if self.joins(each):
                        continue
                    left, right = self.sides(one, other)
                    self.filled |= left.nulls | right.nulls
                case selected.Not(selected.IsNull(inner)):
                    self.filled |= self.value(inner).nulls
            self.tests.append(self.holds(each))

    def joins(self, given: selected.Compared) -> bool:
        """Whether this is an equality that joins, which is noted then."""
        if given.sign != "=" or not isinstance(given.left, selected.Column) or not isinstance(given.right, selected.Column):
            return False
        left, right = self.value(given.left), self.value(given.right)
        pair = [left.reference, right.reference]
        if len({reference.partition(".")[0] for reference in pair}) < 2 or (left.holds, left.places) != (right.holds, right.places) or is_moment(left.holds):
            return False
        for value in (left, right):
            self.judge_exact(value, "joins by")
        self.join.append([*pair])
        nulls = left.nulls | right.nulls
        self.filled |= nulls
        self.tests += [["<>", reference, self.null(reference)] for reference in sorted(nulls)[:1]]
        return True

    def filled_in(self, value: Value, what: str) -> Value:
        """A value in which no NULL is left."""
        if left := value.nulls - self.filled:
            raise NotTaken(f"{what} {sorted(left)[0]}, which may be NULL: let WHERE leave that out")
        return value

    # ---- what comes of it

    def table(self, name: str) -> Taken:
        """What comes of the view."""
        self.read_conditions()
        found: dict[str, Written] = {"name": name, "over": [*self.children.values()]}
        if self.join:
            found["join"] = self.join
        if self.tests:
            found["where"] = self.tests[0] if len(self.tests) == 1 else ["all", *self.tests]
        is_summary = self.select.groups is not None or any(isinstance(each.value, selected.Aggregate) for each in self.select.shown)
        more, columns, notes = self.summary() if is_summary else self.kept()
        units = [f"{column.name} is in units of 10^-{column.places}" for column in columns if column.places]
        return Taken({**found, **more}, columns, notes + units)

    def named(self, columns: Sequence[Column], said: str | None) -> str:
        """The name of a column, which has to have one of its own."""
        if said is None or not NAME.fullmatch(said) or said in {column.name for column in columns}:
            raise NotTaken(f"its column {said or 'without a name'} has no name of letters and digits of its own: name it by AS")
        return said

    def kept(self) -> Taken:
        """What a joined view keeps."""
        kept, columns = list[Written](), list[Column]()
        for given, said in self.select.shown:
            value = self.value(given)
            if not value.is_reference:
                self.filled_in(value, "it computes with")
            name = self.named(columns, said)
            kept.append([name, value.formula])
            columns.append(Column(name, value.holds, value.places, bool(value.nulls - self.filled), self.bounds_of_value(value), value.is_exact))
        return Taken({"keep": kept}, columns, [])

    def summary(self) -> Taken:
        """By what a summary groups, and what it counts and sums."""
        groups, columns, notes = list[Written](), list[Column](), list[str]()
        asked = [self.grouped(each) for each in self.select.groups or []]
        listed = [(self.value(each), said) for each, said in self.select.shown if not isinstance(each, selected.Aggregate)]
        for value in asked:
            said = next((said for each, said in listed if each.formula == value.formula), value.reference.partition(".")[2])
            name = self.named(columns, said)
            groups.append([name, value.formula])
            columns.append(Column(name, value.holds, value.places, bool(value.nulls - self.filled), self.bounds_of_value(value)))
        self.judge_shown(columns, asked, listed)
        if not asked:
            notes.append("where it is over no rows it has none, and not one with 0")
        counts, sums = self.aggregates()
        count = next((said for said in counts if said), None) or self.free(columns, sums)
        if not counts:
            notes.append(f"{count} counts the rows of a group, which has to be known")
        columns.append(Column(self.named(columns, count), WHOLE, bounds=(0, MOST)))
        summed = list[Written]()
        for said, value, note in sums:
            name = self.named(columns, said)
            columns.append(Column(name, WHOLE, value.places, is_exact=self.dialect.is_exact or not value.places))
            summed.append([name, value.formula])
            notes += [note] if note else []
        found: dict[str, Written] = {"group": groups, "count": count}
        return Taken({**found, "sum": summed} if summed else found, columns, notes)

    def judge_shown(self, columns: Sequence[Column], asked: Sequence[Value], listed: Sequence[tuple[Value, str | None]]) -> None:
        """Refuses a column that is neither a group nor a count or a sum, or is a group once more."""
        if extra := [said for value, said in listed if value.formula not in [each.formula for each in asked]]:
            raise NotTaken(f"its column {extra[0]} is neither a group nor a count or a sum")
        if twice := [said for _, said in listed if said not in {column.name for column in columns}]:
            raise NotTaken(f"its column {twice[0]} is a group that it has already: leave one out")

    def free(self, columns: Sequence[Column], sums: Sequence[Summed]) -> str:
        """A name for the count that nothing has."""
        taken = {column.name for column in columns} | {each.said for each in sums}
        return next(said for said in ("rows", "counted", "row_count") if said not in taken)

    def grouped(self, given: selected.Expression) -> Value:
        """A column that is grouped by."""
        value = self.value(given)
        if not value.is_reference:
            raise NotTaken("it groups by an expression: make a view that keeps it, and group that")
        if is_moment(value.holds):
            raise NotTaken(f"it groups by the moment {value.formula}, of which whole seconds are kept")
        self.judge_exact(value, "groups by")
        return value

    def aggregates(self) -> Aggregates:
        """What is counted and summed."""
        counts, sums = list[str | None](), list[Summed]()
        for given, said in self.select.shown:
            if not isinstance(given, selected.Aggregate):
                continue
            value = None if given.of is None else self.filled_in(self.value(given.of), f"its {given.kind.lower()} is over")
            if given.kind == "COUNT" or value is None:
                counts.append(said)
            elif value.holds != WHOLE:
                raise NotTaken(f"it sums a {value.holds}")
            else:
                note = f"{said} is an average: divide {said}_sum by the count" if given.kind == "AVG" else None
                sums.append(Summed(f"{said}_sum" if note else said, value, note))
        if len(counts) > 1:
            raise NotTaken("it counts twice the same: leave one out")
        return Aggregates(counts, sums)
