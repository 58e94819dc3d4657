"""The words of `whview cluster`, and which command they mean."""

from __future__ import annotations

import csv
import hashlib
import json
import os
import re
import shutil
import signal
import stat
import sys
import time
from argparse import SUPPRESS, ArgumentParser, Namespace
from collections import Counter
from collections.abc import Callable, Collection
from io import TextIOWrapper
from pathlib import Path
from tempfile import TemporaryFile
from typing import TYPE_CHECKING, Any, NamedTuple, NoReturn

from ..catalogue.from_toml import CatalogueView
from ..catalogue.parts import line
from ..finding import Failure, Finding, Place, nearest, of_system, warn
from ..folder.inputs import CHANGES, FORMS, TABLE, by_view, entries, stranger
from ..folder.records import Changes, Records
from ..sql.tokens import Unfit
from ..status import SIGNALLED
from . import backup, checking, keeping, making, many, moving, nights, reading, recasting, repairing, since, status_of, status_page
from .servers import PATIENCE, Key, Lost, Server, Told, context
from .status import BAD_INPUT, BAD_WORDS, DONE, FAILED, REFUSED
from .streaming import Plain, plain
from .warehouse import Warehouse, catalogue_of

if TYPE_CHECKING:
    from ..catalogue.views import Bag, Row, View
    from .versions import Version

ABOUT = """\
A warehouse on ClickHouse servers: the same plan past one machine, over HTTP.

    whview cluster COMMAND FOLDER --server HOST:PORT [--server HOST:PORT ..] [OPTIONS]

{commands}

The catalogue and the strategy are FOLDER's. The first server has the versions. Servers know each other by the name of `--cluster`
(remote_servers), which is that of the database without it; the database is `--database`, or whview. What to share out, what readers do and
what to do when something breaks is in docs/CLUSTER.md.

Statuses: 0 done, 1 refused, 2 a fault of these words, 3 a fault of a file, 4 a server failed or another client was first.
This part is tested against `whview night`, and not proved.
"""
COMMANDS = {
    "create": "makes the tables; what is shared out, and by which servers, stays as it is",
    "load": "puts the base tables in, FOLDER/data/NAME.csv",
    "open": "computes the views from scratch",
    "night": "carries FOLDER/changes/NAME.csv into all views, and makes the next version",
    "give-up": "lets the next night begin where one came to no end",
    "versions": "lists the versions that are kept",
    "read": "prints a view of a version as CSV",
    "fold": "puts the newest version's slots together, so that nights stay short",
    "sweep": "removes versions that were followed longer ago than a time",
    "status": "prints how the warehouse stands, server by server, and what is behind",
    "check": "looks whether each server has all rows of a version",
    "repair": "gives a server that lost rows those that others have, or that can be computed",
    "recast": "makes a version by the catalogue as it is now, with views that come, go or are defined anew",
    "backup": "copies a version into a folder",
    "restore": "puts a backup into a warehouse that was created, on as many servers or on others",
    "changes": "writes what base tables changed since a version, as a night's changes",
    "unpin": "lets sweeps take versions away that a backup came to no end with",
    "readdress": "has the servers keep the addresses that are said, where they have others now",
    "config": "prints what each server's configuration has to say of the others",
}
# What is said to all commands, and what to one alone.
OPTIONS: dict[str, dict[str, Any]] = {
    "--server": {"action": "append", "metavar": "HOST:PORT", "required": True, "help": "a server's port of HTTP; it may stand several times"},
    "--database": {"default": "whview", "metavar": "NAME", "help": "the database on the servers (%(default)s)"},
    "--cluster": {"metavar": "NAME", "help": "by which name servers know each other; without it the database's"},
    "--shard": {"action": "append", "default": [], "metavar": "TABLE:COLUMN", "help": "what is shared out, as `create` was told; it may stand several times"},
    "--user": {"default": "default", "metavar": "NAME", "help": "who asks the servers (%(default)s)"},
    "--password-file": {"type": Path, "metavar": "FILE", "help": "the password, in a file that nobody else may read"},
    "--replicas": {"type": int, "metavar": "N", "help": "how many servers each shard has, which stand one after the other (1)"},
    "--https": {"action": "store_true", "help": "asks by HTTPS"},
    "--ca": {"type": Path, "metavar": "FILE", "help": "with --https: whom to trust"},
    "--seconds": {"type": int, "default": PATIENCE, "metavar": "N", "help": "how long an answer may take (%(default)s)"},
    "--version": {"type": int, "metavar": "N", "help": "this version; without it, which `changes` wants, the newest"},
    "--keep": {"metavar": "TIME", "help": "how long versions stay: 90s, 10m, 8h, 2d"},
    "--native": {"type": int, "metavar": "PORT", "help": "by which port servers speak with each other; without it 9000, or 9440 with --https"},
    "--to": {"type": Path, "metavar": "PATH", "help": "the folder that is written, which is not there yet, or is empty"},
    "--from": {"type": Path, "dest": "source", "metavar": "PATH", "help": "the folder of the backup"},
    "--format": {"metavar": "KIND", "help": "text, for people, or json, for machines; without it text"},
    "--again": {"action": "store_true", "help": "also where the changes are in the newest version already"},
}
OF = {
    "--version": ("read", "check", "backup", "changes"), "--keep": ("sweep",), "--again": ("night",), "--native": ("config",),
    "--to": ("backup", "changes"), "--from": ("restore",), "--replicas": ("create", "config"), "--format": ("status",),
}  # fmt: skip
# What the first server alone is asked for; of a read that holds where the view is not shared out.
OF_FIRST = ("versions", "give-up", "read", "status", "unpin")
# How `status` is written.
STATUS_FORMATS = ("text", "json")
ADDRESS = re.compile(r"(?:[A-Za-z0-9_.-]+|\[[0-9A-Fa-f:.]+\]):([0-9]{1,5})")
TIME = re.compile(r"([0-9]+)(s|m|h|d)?")
LONGEST = 10**7
SECONDS = {None: 1, "s": 1, "m": 60, "h": 3600, "d": 86400}


class FolderRows(NamedTuple):
    """The netted rows of a folder's files by the numbers of their views, and a digest of the bytes that they were read from."""

    rows: dict[int, Counter[Row]]
    digest: str


class Words(ArgumentParser):
    """The words of a command, whose faults are told in one line."""

    def error(self, message: str) -> NoReturn:
        refused_words(f"{message}; `{self.prog} --help` has its words")


def options() -> dict[str, list[str]]:
    """The options of each command."""
    return {name: [each for each in (*OPTIONS, "--help") if name in OF.get(each, (name,))] for name in COMMANDS}


def parser_of(command: str) -> Words:
    """What takes the words behind a command. What belongs to another one is taken to be told so."""
    words = Words(f"whview cluster {command}", description=COMMANDS[command], allow_abbrev=False)
    words.add_argument("folder", type=Path, metavar="FOLDER", help="the catalogue, the strategy, data/ and changes/")
    if command == "repair":
        words.add_argument("repaired", nargs="+", metavar="SERVER", help="a server that lost rows, as --server says it")
        words.set_defaults(view=None)
    else:
        words.add_argument("view", nargs="?", metavar="VIEW", help="the view" if command == "read" else SUPPRESS)
    for option, read_as in OPTIONS.items():
        hidden = {} if command in OF.get(option, (command,)) else {"help": SUPPRESS}
        words.add_argument(option, **{**read_as, **hidden})
    return words


def asked(given: list[str]) -> Namespace:
    """The words of the command line."""
    if given[0] not in COMMANDS:
        refused_words(f"there is no command {given[0]!r}; there are {', '.join(COMMANDS)}{nearest(given[0], COMMANDS)}")
    words = parser_of(given[0]).parse_intermixed_args(given[1:])
    words.command = given[0]
    return judged(words)


def refused_words(told: str) -> NoReturn:
    raise Failure(BAD_WORDS, f"whview cluster: {told}")


def judged(words: Namespace) -> Namespace:
    """Refuses words that do not go together."""
    judge_servers(words.server)
    judge_options(words)
    judge_names(words)
    if words.ca and not words.https:
        refused_words("--ca goes with --https")
    if not words.folder.is_dir():
        refused_words(f"{words.folder} is no folder")
    return words


def judge_servers(servers: list[str]) -> None:
    """Refuses addresses that are none."""
    for server in servers:
        port = ADDRESS.fullmatch(server)
        if not port or not 0 < int(port[1]) < 65536:
            refused_words(f"--server is HOST:PORT, the port of HTTP, and not {server!r}")
        if servers.count(server) > 1:
            refused_words(f"--server {server} stands twice")


def judge_options(words: Namespace) -> None:
    """Refuses options of another command, and times that are none."""
    if (words.view is None) == (words.command == "read"):
        refused_words("read takes a view" if words.command == "read" else f"{words.command} takes no {words.view!r}")
    given = {
        "--version": words.version, "--keep": words.keep, "--again": words.again or None, "--native": words.native, "--to": words.to,
        "--from": words.source, "--replicas": words.replicas, "--format": words.format,
    }  # fmt: skip
    for option, value in given.items():
        if value is not None and words.command not in OF[option]:
            refused_words(f"{option} goes with {' and '.join(OF[option])}")
        if value is None and words.command in OF[option] and option in ("--to", "--from"):
            refused_words(f"{words.command} wants {option} PATH")
    if words.command == "changes" and words.version is None:
        refused_words("changes wants --version N, since which they are")
    if words.command == "sweep" and not (words.keep and TIME.fullmatch(words.keep)):
        refused_words(f"sweep wants --keep TIME, such as 90s, 10m, 8h or 2d{', and not ' + repr(words.keep) if words.keep else ''}")
    if words.format is not None and words.format not in STATUS_FORMATS:
        refused_words(f"--format is {' or '.join(STATUS_FORMATS)}, and not {words.format[:40]!r}")
    if words.native is not None and not 0 < words.native < 65536:
        refused_words(f"--native is a port, and not {words.native}")
    if not 0 < words.seconds <= LONGEST:
        refused_words(f"--seconds is how long an answer may take, 1 to {LONGEST}, and not {words.seconds}")


def judge_names(words: Namespace) -> None:
    """Refuses names that are none."""
    for option, said in (("--user", words.user), ("--database", words.database), ("--cluster", words.cluster or words.database)):
        if not (said.isprintable() and 0 < len(said.encode()) <= 80):
            refused_words(f"{option} is a name of letters that are printed, and not {said!r}")
    if "." in words.database:
        refused_words(f"--database is a name without a full stop, and not {words.database!r}")


def password(file: Path | None) -> str:
    """The password in a file that nobody else may read."""
    if file is None:
        return ""
    with file.open(encoding="utf-8") as opened:
        mode = os.fstat(opened.fileno()).st_mode
        if stat.S_IMODE(mode) & 0o077:
            raise Failure(BAD_INPUT, f"{file}: others may read this password; `chmod 600 {file}`")
        try:
            lines = opened.read().splitlines()
        except UnicodeDecodeError as error:
            raise Failure(BAD_INPUT, f"{file}:1: this is not UTF-8") from error
    if len(lines) != 1 or not lines[0].isprintable():
        raise Failure(BAD_INPUT, f"{file}:1: a password is one line of letters that are printed; there are {len(lines)} lines")
    return lines[0]


def warehouse_of(words: Namespace) -> Warehouse:
    """The warehouse that is meant, by the words of the command alone."""
    catalogue = catalogue_of(words.folder)
    tls = context(words.ca and str(words.ca)) if words.https else None
    key = Key(words.user, password(words.password_file))
    servers = [Server(address, key, tls, words.seconds) for address in words.server]
    try:
        return Warehouse(catalogue, servers, words.database, words.shard, words.cluster)
    except Unfit as told:
        raise Failure(BAD_INPUT, f"{words.folder}: {told}") from told


def carried_out(words: Namespace) -> int:
    """The status of a command, carried out on the servers that it wants."""
    found, do = warehouse_of(words), CARRIED[words.command]
    if words.command == "config":
        return do(words, found)
    replicas = many.replicas_of(found, words.replicas if words.command == "create" else None)
    if replicas is None:
        return do(words, asked_of(words, found))
    if words.command == "check":
        return checked(*many.checked(replicas, words.version))
    if words.command == "repair":
        return told(many.repair(replicas, words.repaired))
    if words.command == "readdress":
        return readdressed(words, moving.readdress_replicas(replicas))
    return many.carried_out(replicas, words.command, lambda warehouse: do(words, warehouse), words.version)


def asked_of(words: Namespace, found: Warehouse) -> Warehouse:
    """The warehouse as the servers say it that the command wants; others may be down."""
    if words.command in ("create", "readdress", "config"):
        return found
    if words.command == "repair":
        return repairing.with_tables(found, repairing.server_named(found, words.repaired))
    if words.command == "recast":
        return found
    if words.command not in OF_FIRST:
        return found.judged(seq=words.version)
    of_first = found.judged(first_alone=True, seq=words.version)
    v = found.catalogue.names.get(words.view) if words.view else None
    return of_first if v is None or not of_first.plain.is_shared(v) else found.judged(seq=words.version)


# ---- files


def files_of(warehouse: Warehouse, folder: Path, form: re.Pattern[str], are_changes: bool, but: Collection[int] = ()) -> FolderRows:
    """The rows of a folder's files, where none has a fault; but for those of some views, which are known."""
    kind, names = "changes" if are_changes else "data", warehouse.catalogue.names
    bases = {view.name: v for v, view in enumerate(warehouse.catalogue.views) if not view.over}
    found, findings, told = dict[int, "Counter[Row]"](), unread(folder / kind, kind, form), hashlib.sha256()
    for name, sources in sorted(by_view(folder / kind, kind, form).items()):
        if name not in bases:
            findings.append(Finding(Place(sources[0].told), stranger(name, list(bases), names)))
            continue
        if bases[name] in but:
            continue
        view = in_a_folder(warehouse.catalogue.views[bases[name]])
        records: Changes | Records = Changes(sources, view) if are_changes else Records(sources[0], view, False)
        findings += records.findings
        found[bases[name]] = Counter({row: count for row, count in records.rows.items() if count})
        for each in records.files if isinstance(records, Changes) else [records]:
            told.update(f"{each.file}\0".encode() + hashlib.sha256(each.content).digest())
    if findings:
        raise Failure(BAD_INPUT, *map(str, findings))
    return FolderRows(found, told.hexdigest())


def in_a_folder(view: View) -> CatalogueView:
    """A base view as those know it who read a folder's files."""
    found = CatalogueView({"name": view.name}, (1, 1), {})
    found.columns = view.columns
    return found


def unread(folder: Path, kind: str, form: re.Pattern[str]) -> list[Finding]:
    """What is in a folder and would not be read."""
    told = f"this is not read: {kind}/ has files {FORMS[kind]} alone; move it away"
    return [Finding(Place(f"{kind}/{path.name}"), told) for path in entries(folder) if not (form.fullmatch(path.name) and path.is_file())]


def plain_of(warehouse: Warehouse, folder: Path) -> dict[int, Plain]:
    """The base tables whose files are plain, which need not be read into memory."""
    names, views = warehouse.catalogue.names, warehouse.catalogue.views
    files = {names[name]: sources[0].path for name, sources in by_view(folder / "data", "data", TABLE).items() if name in names}
    found = {v: plain(path, views[v]) for v, path in files.items() if not views[v].over}
    return {v: file for v, file in found.items() if file}


def tables_of(warehouse: Warehouse, folder: Path) -> dict[int, Bag | Plain]:
    """The base tables; one without a file is told."""
    found: dict[int, Bag | Plain] = {**plain_of(warehouse, folder)}
    found.update(files_of(warehouse, folder, TABLE, False, but=found.keys()).rows)
    for v in warehouse.steps.base():
        if v not in found:
            view = warehouse.catalogue.views[v]
            header = ",".join(name for name, _ in view.columns)
            raise Failure(BAD_INPUT, f"data/{view.name}.csv:1:1: there is no such file; an empty table is a file with its header: {header}")
    return found


def changes_of(warehouse: Warehouse, folder: Path) -> FolderRows:
    """The changes of all base views, of which some may have no file."""
    found, digest = files_of(warehouse, folder, CHANGES, True)
    return FolderRows({v: found.get(v, Counter()) for v in warehouse.steps.base()}, digest)


# ---- commands


def told(version: Version, refusal: str | None = None) -> int:
    """A line about what was made; a refusal comes first, as whview says it."""
    if refusal:
        print(refusal)
    print(f"version {version.seq}")
    return REFUSED if refusal else DONE


def create(words: Namespace, warehouse: Warehouse) -> int:
    making.create(warehouse)
    print("version 0")
    return DONE


def load(words: Namespace, warehouse: Warehouse) -> int:
    making.loadable(warehouse)
    return told(making.load(warehouse, tables_of(warehouse, words.folder)))


def open_views(words: Namespace, warehouse: Warehouse) -> int:
    return told(*making.open_views(warehouse))


def night(words: Namespace, warehouse: Warehouse) -> int:
    try:
        strategy = warehouse.catalogue.correct()
    except Unfit as wrong:
        raise Failure(BAD_INPUT, f"{words.folder}: {wrong}") from wrong
    changes = changes_of(warehouse, words.folder)
    return told(*nights.night(warehouse, changes.rows, strategy, changes.digest, words.again))


def give_up(words: Namespace, warehouse: Warehouse) -> int:
    return told(nights.give_up(warehouse))


def fold(words: Namespace, warehouse: Warehouse) -> int:
    return told(keeping.fold(warehouse))


def seconds_of(said: str) -> int:
    """How long a time is."""
    found = TIME.fullmatch(said)
    if found is None:
        refused_words(f"{said!r} is no time such as 90s, 10m, 8h or 2d")
    return int(found[1]) * SECONDS[found[2]]


def sweep(words: Namespace, warehouse: Warehouse) -> int:
    sweeping = keeping.Sweep(warehouse, seconds_of(words.keep))
    gone, slots = sweeping.run()
    print(f"versions {gone} slots {len(slots)}")
    if strangers := sweeping.strangers():
        warn([f"whview cluster: warning: rows in slots {strangers}, which nobody had, were put there by hand; nothing reads them"])
    return DONE


def status(words: Namespace, warehouse: Warehouse) -> int:
    """How the warehouse stands; 1 where something is behind."""
    found = status_of.of(warehouse)
    sys.stdout.writelines([json.dumps(found.told(), indent=2), "\n"] if words.format == "json" else status_page.page(found))
    return REFUSED if found.behind else DONE


def check(words: Namespace, warehouse: Warehouse) -> int:
    session = reading.Session(warehouse, words.version)
    return checked(checking.faults(session), session.version.seq, len(warehouse.servers) > 1)


def checked(wrong: list[str], seq: int, are_several: bool = True) -> int:
    """What was found of a version."""
    if wrong:
        raise Failure(REFUSED, *(f"whview cluster: {each}" for each in wrong))
    print(f"version {seq} is whole on {'all servers' if are_several else 'its server'}")
    return DONE


def repair(words: Namespace, warehouse: Warehouse) -> int:
    return told(repairing.Repair(warehouse, words.repaired).run())


def recast(words: Namespace, warehouse: Warehouse) -> int:
    return told(recasting.recast(warehouse))


def keep(words: Namespace, warehouse: Warehouse) -> int:
    print(f"version {backup.backup(warehouse, words.to, words.version).version} in {words.to}")
    return DONE


def restore(words: Namespace, warehouse: Warehouse) -> int:
    return told(backup.restore(warehouse, words.source))


def changes(words: Namespace, warehouse: Warehouse) -> int:
    print(f"changes from version {words.version} to {since.changes(warehouse, words.to, words.version).seq} in {words.to}")
    return DONE


def unpin(words: Namespace, warehouse: Warehouse) -> int:
    pins = warehouse.versions.pins()
    for each in pins:
        warehouse.versions.dropped("p", each)
    print(f"pins {len(pins)}")
    return DONE


def readdress(words: Namespace, warehouse: Warehouse) -> int:
    moving.readdress(warehouse)
    return readdressed(words)


def readdressed(words: Namespace, down: Collection[Server] = ()) -> int:
    """Which addresses the servers keep by now; those that do not answer have to be told later."""
    if down:
        told = f"{' '.join(map(str, down))} did not answer, and keeps the addresses of before; all others have these: say it again when that is back"
        raise Failure(FAILED, f"whview cluster: {told}")
    print(f"servers {' '.join(words.server)}")
    return DONE


def config(words: Namespace, warehouse: Warehouse) -> int:
    print(moving.config(words.server, warehouse.cluster, words.native, words.https, words.user, words.replicas or 1), end="")
    return DONE


def versions(words: Namespace, warehouse: Warehouse) -> int:
    writer = csv.writer(sys.stdout, lineterminator="\n")
    writer.writerow(["version", "made", "by", "slots", "rows"])
    for row in warehouse.versions.all():
        made = time.strftime("%Y-%m-%d %H:%M:%S", time.gmtime(row.at))
        writer.writerow([row.seq, made, row.how, len(row.slots) - 1, sum(row.totals)])
    return DONE


def read(words: Namespace, warehouse: Warehouse) -> int:
    """A view as CSV, which is printed only when all of it is known to be of one version; until then it waits on a disk."""
    v = warehouse.catalogue.names.get(words.view)
    if v is None:
        refused_words(f"there is no view {words.view!r}{nearest(words.view, warehouse.catalogue.names)}")
    with TemporaryFile("w+", encoding="utf-8", newline="") as kept:
        kept.write(line(["#", *(name for name, _ in warehouse.catalogue.views[v].columns)]))
        kept.writelines(reading.Session(warehouse, words.version).streamed(v))
        kept.seek(0)
        shutil.copyfileobj(kept, sys.stdout)
    return DONE


CARRIED: dict[str, Callable[[Namespace, Warehouse], int]] = {
    "create": create, "load": load, "open": open_views, "night": night, "give-up": give_up, "versions": versions, "read": read,
    "fold": fold, "sweep": sweep, "status": status, "check": check, "repair": repair, "recast": recast, "backup": keep,
    "restore": restore, "changes": changes, "unpin": unpin, "readdress": readdress, "config": config,
}  # fmt: skip


def main(given: list[str]) -> int:
    """Carries a command out, and answers its status."""
    if isinstance(sys.stdout, TextIOWrapper):
        sys.stdout.reconfigure(encoding="utf-8", newline="")
    if not given or given[0] in ("-h", "--help", "help"):
        print(ABOUT.format(commands="\n".join(f"    {name:9}  {about}" for name, about in COMMANDS.items())), end="")
        return DONE
    try:
        words = asked(given)
        status = carried_out(words)
        sys.stdout.flush()
        return status
    except Failure as failure:
        warn(failure.lines)
        return failure.status
    except (Told, Lost) as error:
        warn([f"whview cluster: {error}"])
        return FAILED
    except OSError as error:
        warn([f"whview cluster: {of_system(error)}"])
        return BAD_INPUT
    except KeyboardInterrupt:
        warn(["whview cluster: stopped: `versions` tells whether a night was made, and `give-up` lets the next one begin"])
        return SIGNALLED + signal.SIGINT
