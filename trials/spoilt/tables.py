"""Scripts that go against one rule each: the cases have to notice all of them."""

import re
from typing import NamedTuple

from trials.tables.cases import Tried


class Spoilt(NamedTuple):
    """What a script leaves out: a pattern in its text, what stands there instead, and the case that has to go wrong then."""

    name: str
    engine: str
    pattern: str
    instead: str
    case: str


SPOILT = [
    Spoilt("what was installed is not looked at", "postgresql", r"RAISE EXCEPTION USING MESSAGE = ('refused torn [^']*'|finding)", "NULL", "a trigger keeps a row out"),
    Spoilt("what was installed is not looked at", "sqlite", r"RAISE\(ROLLBACK, 'refused torn [^']*'\)", "NULL", "a trigger keeps a row out"),
    Spoilt("rows are told by their places alone", "postgresql", r"t\.tableoid = [dg]\.part AND ", "", "tea leaves a table in parts by list, and jam stays"),
    Spoilt("a row that changes leaves and comes", "postgresql", r"IF key_columns\[\d+\] IS NULL", "IF TRUE", "a price changes beside a description"),
    Spoilt("a row that changes leaves and comes", "sqlite", r"SET pair = g\.new", "SET pair = NULL", "a price changes beside a description"),
    Spoilt("cascades are not looked at", "sqlite", r"RAISE\(ROLLBACK, 'refused cascade [^']*'\)", "NULL", "a product goes under ON DELETE CASCADE"),
    Spoilt("columns of others are not looked at", "sqlite", r"RAISE\(ROLLBACK, '[^']* has no default'\)", "NULL", "a product comes without its description"),
    Spoilt("the encoding is the client's", "postgresql", r"(?m)^SET client_encoding .*;$", "", "trees in UTF8, asked in LATIN1"),
    Spoilt("changes are not used up", "postgresql", r"DELETE FROM \"public\"\.\"\w+~changes\"", "PERFORM 1", "columns are varchar and int4"),
]


class TriedSpoilt(Tried):
    """A case whose script is spoilt."""

    spoilt = None

    def written(self, text):
        return re.sub(self.spoilt.pattern, self.spoilt.instead, text)


def unnoticed(cases, databases):
    """The spoilt scripts that their case does not show."""
    by_name = {(case.engine, case.name): case for case in cases}
    left = []
    for spoilt in SPOILT:
        if (spoilt.engine, "") in databases:
            case = by_name[spoilt.engine, spoilt.case]
            tried = TriedSpoilt(case, databases[case.engine, case.database])
            tried.spoilt = spoilt
            left += [] if tried.mistakes() and tried.is_changed else [spoilt]
    return left
