"""Drawn views, taken: each is equal after opening and after each night, or is refused with its reason."""

import tempfile
from collections import Counter

from hypothesis import HealthCheck, Phase, given, seed, settings
from hypothesis import strategies as st

from trials.servers.postgresql import Broken
from trials.views import drawn
from trials.views.kept import Kept

# So many views are taken together, over so many nights.
TOGETHER, NIGHTS = 6, 2


class Batch:
    """Views with the rows below them, and what days change."""

    def __init__(self, views, rows, days):
        self.views, self.rows, self.days = views, rows, days


def batches(many, began):
    """So many drawn views, in batches."""
    found, wanted = [], -(-many // TOGETHER)

    @seed(began)
    @settings(max_examples=wanted + 1, database=None, phases=[Phase.generate], suppress_health_check=list(HealthCheck), deadline=None)
    @given(drawn.views(TOGETHER), drawn.rows(), st.tuples(*(drawn.day(at) for at in range(1, NIGHTS + 1))))
    def draw(views, rows, days):
        found.append(Batch(views, rows, days))

    draw()
    # The first is the simplest that there is.
    return found[1 : wanted + 1]


def made(kept, batch):
    """Makes the views of a batch, and answers which the database takes, by their names."""
    kept.said(drawn.TABLES + "".join(batch.rows))
    names = {}
    for at, query in enumerate(batch.views, 1):
        try:
            kept.session.rows(f"CREATE VIEW v{at} AS {query}")
            names[f"v{at}"] = query
        except Broken:
            continue
    return names


def tried(kept, batch, counts, reasons):
    """What is wrong with the views of a batch."""
    names = made(kept, batch)
    counts["no SQL"] += len(batch.views) - len(names)
    refused = kept.refused(list(names))
    counts["refused"] += len(refused)
    reasons.update(why.partition(" cannot be kept: ")[2].partition(";")[0] for why in refused.values())
    wrong = [f"opened: {each}\nof {names[each.partition(':')[0]]}" for each in kept.differences()]
    for statements in batch.days if kept.taken else ():
        kept.said(statements)
        kept.night()
        wrong += [f"after {statements!r}: {each}\nof {names[each.partition(':')[0]]}" for each in kept.differences()]
    bad = {each.partition("\nof ")[2] for each in wrong}
    counts["wrong"] += len(bad)
    counts["equal"] += len(kept.taken) - len(bad)
    return wrong


def drawn_mistakes(server, many, began):
    """What is wrong with so many drawn views, how many of them were what, and why some were refused."""
    wrong, counts, reasons = [], Counter(), Counter()
    for at, batch in enumerate(batches(many, began)):
        with tempfile.TemporaryDirectory() as folder:
            kept = Kept(server, f"drawn_{at}", folder)
            try:
                wrong += tried(kept, batch, counts, reasons)
            except Broken as fault:
                counts["broken"] += 1
                wrong.append(f"{fault.told[:600]}\nof views {batch.views}\nover {batch.rows}, {batch.days}")
            finally:
                kept.close()
    return wrong, counts, reasons
