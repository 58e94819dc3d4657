"""A database whose letters are written in several bytes, and not as UTF-8: no writer meets a fault of a function that is asked for a letter's number."""

from trials.capture.application import Live
from trials.capture.places import LivePostgreSQL

WRITES = (
    "INSERT INTO orders (id, day, region) SELECT 900 + n, '2026-02-02', r FROM unnest(ARRAY['日本', '\\N', '本\\N', '\\日', NULL]) WITH ORDINALITY AS l (r, n);"
    " INSERT INTO lines VALUES (901, 'product 3', 3), (902, '日本', 4); UPDATE orders SET region = '日' WHERE id = 3; DELETE FROM orders WHERE region = '本\\N';"
)


def mistakes(live):
    database = LivePostgreSQL(live.database.server, "encoded", "EUC_JP")
    own = Live(database, live.path)
    wrong = own.fresh()
    own.asked(WRITES)
    wrong += own.right()
    database.session.close()
    live.asked("DROP DATABASE encoded;")
    return [f"letters of several bytes: {text}"[:900] for text in wrong]
