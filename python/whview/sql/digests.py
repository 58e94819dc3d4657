"""Texts of any length in the indexes of PostgreSQL, whose rows have some 2,700 bytes: a long text stands there by its digest.

A text of fewer bytes than a digest has stands as it is, so that no text is taken for another one's digest. Rows are found by what stands in the
index, and long ones are compared text by text: equal digests alone are not taken for equal texts."""

from .tokens import Sql, number, sql, text

# As many bytes as a digest has in hexadecimal digits.
LONG = 64


def in_index(said: Sql) -> Sql:
    """What stands in an index for a text."""
    return sql(
        "CASE WHEN octet_length({said}) < {long} THEN {said} ELSE encode(sha256(replace({said}, {one}, {two})::bytea), {hex}) END", said=said,
        long=number(LONG), one=text("\\"), two=text("\\\\"), hex=text("hex"),
    )


def same_texts(one: Sql, other: Sql) -> Sql:
    """Whether two texts are the same, found by an index over one of them."""
    return sql("{one_indexed} = {other_indexed} AND (octet_length({one}) < {long} OR {one} = {other})", one_indexed=in_index(one),
               other_indexed=in_index(other), one=one, other=other, long=number(LONG))
