"""The walk of docs/SQL.md, from live tables to a line of cron, each of its commands run as it is written."""

from trials import pages

PAGE, WHERE = "SQL.md", "/srv/warehouse"


def run(commands, folder, server):
    """What commands print and say in a folder with the examples, by the program that is tried."""
    return pages.run(commands, folder, server, WHVIEW_PROGRAM=f"{folder}/program")


def blocks():
    """The commands of both walks with their lines of cron, and what is printed."""
    found = pages.blocks_of(PAGE, "A walk")
    first, planned, second = found["sh"]
    return list(zip(("postgresql", "sqlite"), (first, second), found["cron"], (planned, ""))), found[""][0]


def sections_mistakes(folder, server):
    """What the commands of the sections about partitions and large sums print otherwise than the page says."""
    wrong = []
    for heading in ("Partitions that come and leave", "A sum beyond 64 bits"):
        found = pages.blocks_of(PAGE, heading)
        ran = run(found["sh"][0], folder, server)
        wrong += [] if (ran.stdout, ran.returncode) == (found[""][0], 0) else [f"{heading}: {ran.stdout}{ran.stderr}"]
    return wrong


def end_mistakes(folder, server):
    """What the commands that end a capture leave of it, or take of the application's tables."""
    (ends,) = pages.blocks_of(PAGE, "To end it")["sh"]
    left = "SELECT to_regclass('wh.lines'), to_regclass('wh.daily'), (SELECT count(*) FROM pg_trigger WHERE tgrelid = 'lines'::regclass AND NOT tgisinternal), count(*) FROM lines"
    before = run("psql -qAt live -c 'SELECT count(*) FROM lines'", folder, server).stdout.strip()
    ran = run(f'{ends}psql -qAt live -c "{left}"', folder, server)
    return [] if (ran.stdout, ran.returncode) == (f"||0|{before}\n", 0) and before else [f"the end of a capture: {ran.stdout}{ran.stderr}"]


def later_mistakes(folder, planned, server):
    """What the commands after the walk do otherwise than the page says: one plan for all nights, a check with its line of cron, and a view more."""
    checks, changes = pages.blocks_of(PAGE, "Checks"), pages.blocks_of(PAGE, "A catalogue that changes")
    (check,), (printed,), (line,) = checks["sh"], checks[""], checks["cron"]
    ran = run(planned, folder, server)
    wrong = [] if not ran.returncode and not ran.stdout else [f"one plan: {ran.stdout}{ran.stderr}"]
    ran = run(check, folder, server)
    wrong += [] if (ran.stdout, ran.returncode) == (printed, 0) else [f"a check prints {ran.stdout}{ran.stderr}"]
    *_, line = line.strip().split(" ", 5)
    ran = run(line.replace(WHERE, str(folder)) + "; cat live/checks.log", folder, server)
    wrong += [] if not ran.returncode and "all 1 agree" in ran.stdout else [f"a check by cron: {ran.stdout}{ran.stderr}"]
    ran = run(changes["sh"][0] + "whview sql check --database live live by_product", folder, server)
    wrong += [] if not ran.returncode and ran.stdout.startswith("by_product agrees: 3 rows\n") else [f"a view more: {ran.stdout}{ran.stderr}"]
    ran = run(planned, folder, server)
    wrong += [] if not ran.returncode and not ran.stdout else [f"a night of a view more: {ran.stdout}{ran.stderr}"]
    wrong += end_mistakes(folder, server)
    ran = run("rm live/catalogue.toml; whview sql plan --database live live > live/night.sql || psql -q -f live/night.sql live", folder, server)
    return wrong + ([] if ran.returncode == 3 and "wrote no script" in ran.stderr else [f"a script that cannot be written: {ran.returncode} {ran.stderr}"])


def walk_mistakes(engine, commands, cron, planned, printed, started, server):
    """What a walk prints otherwise than the page says, and what the line of cron does otherwise than a night."""
    with pages.examples_in_folder() as folder:
        (folder / "program").symlink_to(started)
        ran = run(commands, folder, server)
        wrong = [] if (ran.stdout.replace("\r\n", "\n"), ran.returncode) == (printed, 0) else [f"it prints {ran.stdout}{ran.stderr}"]
        said = [line for line in ran.stderr.splitlines() if not line.startswith(("whview sql: sizes of ", "whview sql: certified ", "this is done by "))]
        wrong += [] if said == ["whview sql: dearest is not taken: it has MAX, which changes alone do not keep up to date"] else [f"it says {said}"]
        *_, line = cron.strip().split(" ", 5)
        line = line.replace(WHERE, str(folder))
        ran = run(line + "; cat live/nights.log", folder, server)
        wrong += [] if ran.returncode == 0 and "certified all work" in ran.stdout and "rror" not in ran.stdout else [f"cron: {ran.stdout}{ran.stderr}"]
        wrong += later_mistakes(folder, planned, server) + sections_mistakes(folder, server) if planned else []
    return [f"docs/SQL.md by {engine}: {text}"[:1500] for text in wrong]


def log_page_mistakes(started, server):
    """The same of the walk whose tables are captured from the log, and of what follows it."""
    (captures,), (walks, printed) = pages.blocks_of(PAGE, "From the server's log")["sh"], blocks()
    _, commands, cron, planned = walks[0]
    own = next(line for line in commands.splitlines() if "sql capture" in line)
    return walk_mistakes("postgresql from the log", commands.replace(own, captures.strip()), cron, planned, printed, started, server)


def page_mistakes(started, server):
    """What both walks do otherwise than the page says."""
    walks, printed = blocks()
    return [
        each for engine, commands, cron, planned in walks if server or engine == "sqlite"
        for each in walk_mistakes(engine, commands, cron, planned, printed, started, server if engine == "postgresql" else None)
    ]
