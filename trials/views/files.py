"""Views of files of SQLite: those of each construct, those that are refused, drawn ones, and what a file does beside nights."""

import random
import tempfile
from collections import Counter

from trials.declared.cases import REFUSED as DECLARED_REFUSED
from trials.declared.cases import TAKEN as DECLARED
from trials.views.file_cases import REFUSED, TAKEN
from trials.views.file_drawn import FileViews
from trials.views.file_shop import DAYS, TABLES
from trials.views.kept_file import Broken, KeptFile

# So many views at most are taken together: what they keep has to be one warehouse.
TOGETHER, DRAWN_TOGETHER, NIGHTS = 9, 8, 2
KINDS = FileViews.kinds
TYPES = {"integer": "INTEGER", "real": "REAL", "numeric": "NUMERIC(6,2)", "text": "TEXT", "date": "DATE", "timestamp": "DATETIME", "boolean": "BOOLEAN"}


def constructs():
    """The views of all constructs, by names."""
    found = {}
    for construct, queries in [*DECLARED.items(), *TAKEN.items()]:
        name = "".join(letter if letter.isalnum() else "_" for letter in construct.lower())[:30]
        found.update({f"{name}_{at}": query for at, query in enumerate(queries, 1)})
    return found


def batches(only):
    """The views that have this in their names, some at a time."""
    found = [(name, query) for name, query in constructs().items() if only in name]
    return [dict(found[at : at + TOGETHER]) for at in range(0, len(found), TOGETHER)]


def made(views):
    """The statements that make views."""
    return "".join(f"CREATE VIEW {name} AS {query};\n" for name, query in views.items())


def batch_mistakes(views):
    """What is wrong with views that are taken together, after opening and after each day's night."""
    with tempfile.TemporaryDirectory() as folder:
        kept = KeptFile(folder)
        kept.said(TABLES + made(views))
        wrong = []
        try:
            refused = kept.refused(views)
            wrong = [f"{name} is refused: {why}" for name, why in refused.items()]
            kept.take([*(name for name in views if name not in refused), "open_orders", "by_state"])
            wrong += [f"opened: {each}" for each in kept.differences(True)]
            for day, statements in DAYS.items():
                kept.said(statements)
                kept.night()
                wrong += [f"{day}: {each}" for each in kept.differences(True)]
            told, status = kept.check()
            return wrong + ([f"a check says {told}"] if status else [])
        except Broken as fault:
            return [*wrong, f"{list(views)}: {fault}"]


def case_mistakes(only):
    """What is wrong with the views of all constructs."""
    tried = batches(only)
    wrong = [each[:900] for views in tried for each in batch_mistakes(views)]
    return wrong, f"{sum(map(len, tried))} views of files, of {len(DECLARED) + len(TAKEN)} constructs, opened and over {len(DAYS)} nights"


def refused_mistakes(only):
    """What is taken that has to be refused, or refused for another reason or without its place."""
    wrong, tried = [], {name: case for name, case in {**REFUSED, **only_syntax()}.items() if only in name}
    with tempfile.TemporaryDirectory() as folder:
        kept = KeptFile(folder)
        kept.said(TABLES)
        for at, (name, (query, why)) in enumerate(tried.items()):
            kept.said(f"CREATE VIEW refused_{at} AS {query};")
            told = kept.refused([f"refused_{at}"]).get(f"refused_{at}", "it was taken")
            wrong += [] if why in told and f"refused_{at}, line " in told else [f"{name}: {told}"]
            kept.said(f"DROP VIEW refused_{at};")
    return wrong, f"{len(tried)} views of files refused with line and reason"


def only_syntax():
    """Of what folders refuse what a file may have as well."""
    return {f"{name} in a folder": DECLARED_REFUSED[name] for name in ("no name", "casts to a day") if name != "no name"}


# ---- drawn views


def literal(cell, kind):
    """A cell as SQL writes it."""
    if cell == "NA":
        return "NULL"
    if kind == "boolean":
        return str(int(cell == "true"))
    return cell if kind in ("integer", "numeric", "real") else "'" + cell.replace("'", "''") + "'"


def values(name, row):
    """A row as SQL writes it."""
    return ", ".join(literal(cell, kind) for cell, kind in zip(row, KINDS[name].values()))


def day(before, after, source):
    """The statements that lead from some rows to others: those that stay are updated, replaced, or written anew."""
    found = []
    for name, rows in after.items():
        if name == "c":
            found += ["DELETE FROM c;", *(f"INSERT INTO c VALUES ({values('c', row)});" for row in rows)]
            continue
        keys, columns = {row[0] for row in rows}, list(KINDS[name])
        found += [f"DELETE FROM {name} WHERE id = {row[0]};" for row in before[name] if row[0] not in keys]
        for row in rows:
            sets = ", ".join(f"{column} = {literal(cell, kind)}" for column, cell, kind in zip(columns, row, KINDS[name].values()))
            is_there = row[0] in {each[0] for each in before[name]}
            replaced = f"REPLACE INTO {name} VALUES ({values(name, row)});"
            found.append(f"UPDATE {name} SET {sets} WHERE id = {row[0]};" if is_there and source.random() < 0.7 else replaced)
    return "\n".join(found)


def drawn_tables():
    """The tables of drawn views."""
    listed = {name: ", ".join(f"{column} {TYPES[kind]}{' PRIMARY KEY' if column == 'id' else ''}" for column, kind in kinds.items()) for name, kinds in KINDS.items()}
    return "".join(f"CREATE TABLE {name} ({columns});\n" for name, columns in listed.items())


def drawn_batch(seed, counts, reasons):
    """What is wrong with drawn views that are taken together."""
    views, source = FileViews(seed), random.Random(seed)
    tables, queries = {name: views.rows(name, 12) for name in KINDS}, {f"v{at}": views.view() for at in range(1, DRAWN_TOGETHER + 1)}
    with tempfile.TemporaryDirectory() as folder:
        kept = KeptFile(folder, is_open=True)
        kept.said(drawn_tables() + day({name: [] for name in tables}, tables, source))
        there = {}
        for name, query in queries.items():
            try:
                kept.said(f"CREATE VIEW {name} AS {query}; SELECT count(*) FROM {name};")
                there[name] = query
            except Broken:
                kept.said(f"DROP VIEW IF EXISTS {name};")
                counts["no SQL"] += 1
        refused = kept.refused(there)
        counts["refused"] += len(refused)
        reasons.update(why.partition(" cannot be kept: ")[2].partition(";")[0] for why in refused.values())
        left = [name for name in there if name not in refused]
        return drawn_nights(kept, left, (views, tables, source), counts, there) if left else []


def drawn_nights(kept, names, drawn, counts, queries):
    """What is wrong with them after opening and after each night."""
    views, tables, source = drawn
    kept.take(names)
    wrong = [f"opened: {each}" for each in kept.differences(True)]
    for night in range(1, NIGHTS + 1):
        after = {name: views.changed(rows, name) for name, rows in tables.items()}
        kept.said(day(tables, after, source))
        kept.night()
        tables = after
        wrong += [f"night {night}: {each}" for each in kept.differences(True)]
    counts["equal"] += len(names) - len({each.split(": ")[1] for each in wrong})
    return [f"{each}\nof {queries[each.split(': ')[1]]}" for each in wrong]


def drawn_mistakes(many, seed):
    """What is wrong with so many drawn views, and why others were refused."""
    counts, reasons, wrong = Counter(), Counter(), []
    for at in range(-(-many // DRAWN_TOGETHER)):
        try:
            wrong += [f"seed {seed + at}: {each}"[:1200] for each in drawn_batch(seed + at, counts, reasons)]
        except Broken as fault:
            wrong.append(f"seed {seed + at}: {fault}"[:900])
    told = ", ".join(f"{count} {what}" for what, count in sorted(counts.items()))
    return wrong, f"{many} drawn views of files: {told}; reasons: {dict(reasons) or 'none'}"
