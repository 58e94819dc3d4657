"""The part of sizes, with the column of weights and without: headers, each fault of a record by itself, and of each two in one record
which is told. The order of faults is written here as docs/FORMATS.md has it."""

from itertools import combinations

from trials.program.case_groups import Case

VIEWS = "".join(f'[[view]]\nname = "{name}"\n' for name in "AB")
LIST = "inst A\ninst B\n"
COLUMNS = ("view", "pre", "post", "change")
MOST = 2**40
# Each fault of B's record, which is record 3: what it is, the cells that have it, and what is printed. A record's faults are told in
# this order.
NAMES = [("no view's name", {"view": "C"}, "sizes C"), ("a name twice", {"view": "A"}, "sizes A")]
FORMS = [(f"{column} of another form", {column: cell}, "number 3") for column in COLUMNS[1:] for cell in ("x", "", " 1", "1.0", str(2**63))]
RANGES = [(f"{column} out of its range", {column: str(cell)}, "sizes B") for column in COLUMNS[1:] for cell in (-1, MOST + 1)]
APART = [("rows too far apart", {"pre": "100", "post": "70", "change": "29"}, "sizes B")]
WEIGHT_FORMS = [("a weight of another form", {"weight": cell}, "number 3") for cell in ("x", "", " 1", "1.0", "-", str(2**63))]
WEIGHTS = [("a weight out of its range", {"weight": str(cell)}, "sizes B") for cell in (0, -1, 1001, 2**63 - 1)]
FAULTS = [*NAMES, *FORMS, *WEIGHT_FORMS, *RANGES, *APART, *WEIGHTS]
RIGHT = {"view": "B", "pre": "100", "post": "70", "change": "30", "weight": "7"}
HEADERS = {
    "the weights after nothing": "view,pre,post,change,", "weights in capitals": "view,pre,post,change,Weight",
    "a blank before weight": "view,pre,post,change, weight", "weights before changes": "view,pre,post,weight,change",
    "weights first": "weight,view,pre,post,change", "weights twice": "view,pre,post,change,weight,weight",
    "weights for changes": "view,pre,post,weight", "a sixth column": "view,pre,post,change,weight,cost",
    "another fifth column": "view,pre,post,change,weights",
}


def checked(header, *records):
    """A check of two base views with these records of sizes."""
    return f"@catalogue\n{VIEWS}@strategy\n{LIST}@sizes\n{header}\n" + "".join(f"{','.join(record)}\n" for record in records)


def record_of(cells, has_weights=True):
    return [(RIGHT | cells)[column] for column in (*COLUMNS, "weight")[: 5 if has_weights else 4]]


def texts():
    """Each case: what it shows, the bundle, and what is printed, with the status."""
    weighted, rows = ",".join((*COLUMNS, "weight")), ",".join(COLUMNS)
    first, plain = ["A", "10", "12", "4", "1000"], ["A", "10", "12", "4"]
    yield "weights", checked(weighted, first, record_of({})), f"correct\nwork {4000 + 210}\n", 0
    yield "no weights", checked(rows, plain, record_of({}, False)), "correct\nwork 34\n", 0
    yield "weights with signs and zeros", checked(weighted, first, record_of({"weight": "+007"})), f"correct\nwork {4000 + 210}\n", 0
    yield "a header in quotes", checked('"view",pre,post,change,"weight"', first, record_of({})), f"correct\nwork {4000 + 210}\n", 0
    largest = ["A", str(MOST), "0", str(MOST), "1000"]
    yield "the largest", checked(weighted, largest, record_of({})), f"correct\nwork {1000 * MOST + 210}\n", 0
    for what, header in HEADERS.items():
        yield what, checked(header, first, record_of({})), "fault header\n", 3
    for what, cells, told in FAULTS:
        yield what, checked(weighted, first, record_of(cells)), f"fault {told}\n", 3
        if "weight" not in cells:
            yield f"{what}, without weights", checked(rows, plain, record_of(cells, False)), f"fault {told}\n", 3
        yield f"{what}, in a record too short", checked(weighted, first, record_of(cells)[:4]), "fault csv 3\n", 3
        yield f"{what}, in a record too long", checked(weighted, first, [*record_of(cells), "1"]), "fault csv 3\n", 3
        yield f"{what}, behind a weight of 0", checked(weighted, [*plain, "0"], record_of(cells)), "fault sizes A\n", 3
    for (what, cells, told), (other, more, _) in combinations(FAULTS, 2):
        if not cells.keys() & more.keys():
            yield f"{what} and {other}", checked(weighted, first, record_of(cells | more)), f"fault {told}\n", 3
    yield "no record of B", checked(weighted, first), "fault sizes B\n", 3
    yield "no record at all", checked(weighted), "fault sizes A\n", 3
    yield "a weight of 0 and no record of A", checked(weighted, record_of({"weight": "0"})), "fault sizes B\n", 3


def cases():
    for what, bundle, text, status in texts():
        yield Case(["check"], bundle.encode(), text, status, what)
