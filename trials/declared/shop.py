"""A shop of CSV with values at the edges of their kinds, and what its days change: rows as a person has them in files."""

from datetime import datetime, timedelta

NULL = "NA"
KINDS = {
    "customers": {"id": "integer", "name": "text", "city": "text", "born": "date", "score": "numeric", "vip": "boolean", "boss": "integer"},
    "orders": {"id": "bigint", "customer": "integer", "state": "varchar", "created": "timestamp", "total": "numeric"},
    "lines": {"order_id": "bigint", "product": "text", "qty": "integer", "price": "numeric", "note": "text"},
    "visits": {"at": "timestamp", "customer": "integer", "page": "text", "seconds": "integer"},
}


def moment(hours, begin="2026-01-01 00:00:00"):
    """A moment so many hours later."""
    return str(datetime.fromisoformat(begin) + timedelta(hours=hours))


def cents(number):
    """A number of cents, as it is written."""
    return f"{number / 100:.2f}"


def first():
    """The tables of the first night."""
    customers = [
        [str(i), f"Name {i}" if i != 6 else "", NULL if i % 3 == 0 else "" if i == 4 else f"City {i % 4}", NULL if i == 8 else f"19{80 + i}-02-{10 + i}",
         NULL if i % 5 == 0 else cents(i * 125), NULL if i % 4 == 3 else str(i % 2 == 0).lower(), NULL if (i * 7) % 12 == 0 else str((i * 7) % 12)]
        for i in range(1, 13)
    ]
    orders = [
        [str(i), NULL if i % 7 == 0 else str(1 + i % 10), ["open", "paid", NULL, "Shut"][i % 4], moment(i // 2 * 7) + (".500000" if i % 5 == 0 else ""),
         NULL if i % 6 == 0 else cents(i % 9 * 317)]
        for i in range(1, 49)
    ]
    lines = [
        [str(1 + i % 40), f"p{i % 6}", NULL if i % 9 == 0 else str(i % 5), NULL if i % 8 == 0 else cents(i % 13 * 111), ["\\N", NULL, "N", "\\\\N", ""][i % 5]]
        for i in range(1, 141)
    ]
    visits = [[moment(i, "2026-01-02 20:00:00"), NULL if i % 5 == 0 else str(i % 5), f"/{i % 4}", str(i % 60)] for i in range(1, 61)]
    return {"customers": customers, "orders": orders, "lines": lines, "visits": visits}


def come_and_go(tables):
    """Rows come, leave and change."""
    tables["orders"] = [row for row in tables["orders"] if int(row[0]) % 11 != 3]
    tables["orders"] += [[str(i), str(1 + i % 11), ["open", "paid", NULL][i % 3], moment(i), cents(i * 150)] for i in range(101, 113)]
    for row in tables["orders"]:
        if int(row[0]) % 13 == 2:
            row[2], row[4] = "open", NULL
    tables["customers"][3][2], tables["customers"][4][2], tables["customers"][4][4] = NULL, "City 1", "-3.05"
    tables["lines"] = [row for row in tables["lines"] if row[2] != "3"] + [["2", "P1", "7", "2.50", "\\N"]] * 2 + [[NULL] * 5]


def groups_leave(tables):
    """Groups leave, and one value becomes the least."""
    tables["orders"] = [row for row in tables["orders"] if row[1] != "8" and row[2] != "paid"]
    tables["orders"][-1][3] = "2000-01-01 00:00:00"
    for row in tables["lines"]:
        if row[1] == "p2":
            row[3], row[4] = "0.01", NULL
        if row[1] == "p3":
            row[0] = NULL
    tables["customers"] += [["100", "lonely", NULL, NULL, NULL, NULL, NULL], ["101", "lonely", NULL, NULL, NULL, NULL, NULL]]


def all_leave(tables):
    """No row stays."""
    for rows in tables.values():
        rows.clear()


def some_come(tables):
    """Some come again."""
    tables["customers"] += [["1", "again", "City 1", "2000-02-29", "1.00", "true", NULL], ["2", "again", NULL, NULL, NULL, NULL, "1"]]
    tables["orders"] += [["1", "1", "open", "2026-02-01 00:00:00", "5"], ["2", NULL, NULL, "2026-02-01 00:00:00", NULL], ["3", "2", "paid", "2026-02-02 00:00:00", "0"]]
    tables["lines"] += [["1", "p1", "2", "1.50", "x"]] * 2 + [["3", "", "0", "0", ""]]


DAYS = (come_and_go, groups_leave, all_leave, some_come)
