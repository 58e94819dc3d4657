"""What becomes of a row of a change, in nights over tables of one's own in PostgreSQL."""

from .tokens import Sql, number, sql

# Nothing by itself, as where it is the old half of a pair or absent; it leaves, its count changes, it comes, or it changes from the row that
# it is paired with.
NOTHING, LEAVES, RECOUNTED, COMES, CHANGED = range(5)


def becomes(act: int) -> Sql:
    return sql("d.act = {act}", act=number(act))
