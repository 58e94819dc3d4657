"""Everything at once: pgbench, DDL, nights of which some are killed, and catalogues that change; each tenth night is checked, and so is the end."""

import random
import subprocess
from collections import Counter
from contextlib import suppress
from time import monotonic, sleep

from trials.capture.catalogues import ALL_OF_IT, CASES, Catalogue, Changed
from trials.servers.postgresql import Broken

ROUND, CLIENTS, WAIT = 4, 3, 120
# Transactions of an application that never wait for each other in a circle.
TRANSACTIONS = (
    r"""\set id random(1, 300)
BEGIN;
UPDATE orders SET region = 'region ' || (:id % 7), paid = NOT paid, note = 'note ' || (:id % 5) WHERE id = :id;
UPDATE lines SET pieces = (pieces + 1) % 9 WHERE id = :id;
INSERT INTO lines (id, product, pieces) SELECT o.id, 'product ' || (1 + o.id % 20), 1 FROM orders AS o WHERE o.id = :id FOR KEY SHARE;
COMMIT;
""",
    r"""\set id random(1, 300)
INSERT INTO orders (id, day, at, region) VALUES (:id, DATE '2026-02-01' + :id % 9, now(), 'new') ON CONFLICT DO NOTHING;
""",
    r"""\set id random(1, 300)
DELETE FROM orders WHERE id = :id;
""",
    r"""\set id random(1, 20)
UPDATE products SET price = CASE WHEN random() < 0.1 THEN NULL ELSE :id + 0.25 END WHERE product = 'product ' || :id;
""",
    r"""\set id random(1, 300)
BEGIN;
SAVEPOINT a;
DELETE FROM orders WHERE id = :id;
ROLLBACK TO a;
UPDATE orders SET at = NULL WHERE id = :id;
COMMIT;
""",
)
DDL = (
    "ALTER TABLE orders ADD COLUMN more int; ALTER TABLE orders DROP COLUMN more;",
    "CREATE INDEX IF NOT EXISTS soaked ON lines (product); DROP INDEX soaked;",
    "VACUUM FULL orders;",
    "VACUUM ANALYZE lines;",
    "TRUNCATE lines;",
    "ALTER TABLE lines ALTER pieces TYPE int; ALTER TABLE lines ALTER pieces TYPE smallint;",
    "ALTER TABLE products DISABLE TRIGGER ALL; UPDATE products SET price = 1 WHERE product = 'product 4'; ALTER TABLE products ENABLE TRIGGER ALL;",
)


class Soak:
    """A database under all of it."""

    def __init__(self, live, seed):
        self.live, self.database, self.source = live, live.database, random.Random(seed)
        self.catalogues = [Catalogue(live, Changed((), {}, ())), Catalogue(live, CASES["a column comes into a mirror"], "note")]
        self.at, self.nights, self.ends, self.wrong = 0, 0, Counter(), []
        self.scripts = []
        for number, said in enumerate(TRANSACTIONS):
            path = self.database.server.folder / f"transaction{number}.sql"
            path.write_text(said)
            self.scripts += ["-f", path]

    @property
    def catalogue(self):
        return self.catalogues[self.at]

    def pgbench(self):
        """An application that goes on for a round."""
        server = self.database.server
        words = server.client("pgbench", "-n", "-U", "postgres", "-c", CLIENTS, "-T", ROUND, *self.scripts, self.database.name)
        return subprocess.Popen(words, stdout=subprocess.DEVNULL, stderr=subprocess.PIPE, cwd=server.folder)

    def altered(self):
        """One statement or another that alters what is there; it waits its turn, and gives way where it would wait in a circle."""
        with self.database.another() as session, suppress(Broken):
            session.asked(f"SET lock_timeout = '2s'; {self.source.choice(DDL)}")

    def night(self):
        """A night, which may be killed; where it is refused, tables are captured once more, and then it goes."""
        self.nights += 1
        if self.source.random() < 0.2:
            return self.killed()
        told = self.catalogue.carried("--live")
        if told and "run whview sql capture" in told:
            self.ends["captured anew"] += 1
            told = self.catalogue.carried("--capture") or self.catalogue.carried("--live")
            # Meanwhile somebody may have altered a table again.
            told = None if told and ("run whview sql capture" in told or "all the time" in told) else told
        else:
            self.ends["refused" if told else "carried out"] += 1
        return [f"a night was told {told}"[:600]] if told else []

    def killed(self):
        night = self.database.begun(self.catalogue.words("--live"))
        sleep(self.source.random() * 0.1)
        night.kill()
        night.communicate(timeout=WAIT)
        self.ends["killed"] += 1
        return []

    def changed(self):
        """The other catalogue, in place."""
        other = self.catalogues[1 - self.at]
        told = other.carried(*ALL_OF_IT)
        if told and "run whview sql capture" in told:
            # Somebody altered another table, which is captured once more before views are filled.
            told = other.carried("--capture") or other.carried(*ALL_OF_IT)
        if told and "all the time" in told:
            self.ends["no moment without a writer"] += 1
        elif told:
            return [f"a changed catalogue was told {told}"[:600]]
        self.at = 1 - self.at
        self.ends["changed catalogues"] += 1
        return []

    def checked(self):
        """A check; where somebody altered a table just now, it says so, and nothing else."""
        found = self.catalogue.written("--check", self.catalogue.path)
        if found.status and "differs" not in found.text and "is not captured as it was" in found.told:
            return []
        self.ends["checks"] += 1
        return [f"after {self.nights} nights: {found.text}{found.told}"[:900]] if found.status else []

    def round(self, number):
        application = self.pgbench()
        while application.poll() is None:
            self.wrong += self.night()
            if self.nights % 10 == 0:
                self.wrong += self.checked()
            if self.source.random() < 0.3:
                self.altered()
        self.wrong += self.told(application)
        if number % 2:
            second = self.pgbench()
            self.wrong += self.changed()
            second.wait(WAIT)
            self.wrong += self.told(second)

    def told(self, application):
        """What an application was told that has to do with the night's tables."""
        lines = application.stderr.read().decode(errors="replace").splitlines()
        return [f"the application was told {line}" for line in lines if "ERROR" in line and ("~" in line or "wh." in line)]

    def ended(self):
        """Afterwards all is right without more ado than a capture and a night."""
        told = self.catalogue.carried("--capture") or self.catalogue.carried(*ALL_OF_IT) or self.catalogue.carried("--live")
        self.wrong += [f"at the end: {told}"] if told else self.catalogue.mistakes()
        self.wrong += self.checked()


def soak_mistakes(live, seconds, seed):
    """What is wrong after so many seconds, and what was done."""
    wrong, soak, began, number = live.fresh(), Soak(live, seed), monotonic(), 0
    while monotonic() - began < seconds and not soak.wrong:
        soak.round(number)
        number += 1
    soak.ended()
    done = ", ".join(f"{soak.ends[end]} {end}" for end in sorted(soak.ends))
    return [f"pgbench, DDL and nights at once: {text}" for text in wrong + soak.wrong], f"{soak.nights} nights beside pgbench ({done})"
