"""What `whview folder --help` prints, and `whview folder COMMAND --help`: what the command does, and its options."""

from __future__ import annotations

from importlib import import_module

ABOUT = """\
A folder is a warehouse: its next night, and what is wrong with it.

    whview folder night FOLDER [--commit [--keep VERSIONS] [--always] [--drop NAME]] [--quarantine] [--accept FILE] [--adopt]
                          [--workers N] [--readers N] [--page-keys N]
    whview folder lint FOLDER [--lenient]
    whview folder check | plan | certify | sizes | explain | graph FOLDER [--weights cells | --weights bytes]
    whview folder report FOLDER [VERSION | new]
    whview folder read FOLDER VIEW [--version N] [--where COLUMN=VALUE] [--order COLUMN] [--columns A,B] [--limit N] [--format KIND]
    whview folder sql FOLDER [QUERY] [--version N] [--format KIND]
    whview folder serve FOLDER [--port PORT] [--address ADDRESS] [--promise SECONDS] [--versions N | --from-files]
    whview folder log FOLDER [--format text | --format json]
    whview folder verify FOLDER [VERSION]
    whview folder rollback FOLDER VERSION [--adopt]
    whview folder init FOLDER FILES.. [--sql]
    whview folder put FOLDER FILES.. [--batch ID] [--as NAME]
    whview folder backup FOLDER TO [--version N | --all]
    whview folder restore BACKUP FOLDER
    whview folder pack FOLDER
    whview folder diff OLD NEW
    whview folder unpack FOLDER < answer.txt

A night that plans takes `--weights` too. The program is the one that `whview use` chose, and the proved one is not built unasked; `--unproved`
takes the one that is built without its proof, within minutes, and `--program FILE` names another. `whview folder COMMAND --help` has a
command's options. What each command does is in docs/WAREHOUSE.md.
Statuses: 0 done, 1 a negative verdict or a refused night, 2 a fault of these words, or what they name is not there (a folder, file,
version, view or column), 3 a fault of what the folder holds, 4 want of memory or a spent budget, 5 a file that could not be read or
written, 6 somebody else is at work in the folder, 70 the program gave no answer of its own.
"""
WORDS = {"diff": "OLD NEW", "unpack": "FOLDER < ANSWER", "init": "FOLDER FILES..", "read": "FOLDER VIEW", "report": "FOLDER [VERSION | new]"}
WORDS |= {"verify": "FOLDER [VERSION]", "rollback": "FOLDER VERSION", "sql": "FOLDER [QUERY]"}
WORDS |= {"put": "FOLDER FILES..", "backup": "FOLDER TO", "restore": "BACKUP FOLDER"}
WITHOUT_PROGRAM: tuple[str, ...] = ("lint", "pack", "unpack", "diff", "init", "read", "sql", "verify", "rollback", "log")
WITHOUT_PROGRAM += ("put", "backup", "restore")
OPTIONS = [
    ("--commit", ("night",), "keeps the night: takes the changes and makes a version"),
    ("--keep K", ("night",), "with --commit: the newest K versions stay, 1 or more; without it all do"),
    ("--always", ("night",), "with --commit: makes a version also where nothing changed"),
    ("--drop NAME", ("night",), "with --commit: the table of this view, which is no base view any more, goes; it may stand several times"),
    ("--accept FILE", ("night",), "takes this file of the current version, such as data/orders.csv, as it is; it may stand several times"),
    ("--adopt", ("night", "rollback"), "in a copy of a folder: what a stopped night of the original had taken is this folder's own"),
    ("--quarantine", ("night",), "puts records of changes aside that are wrong, and goes on without them; with --commit they lie in quarantine/"),
    ("--lenient", ("lint",), "has keys that the program does not look at as warnings"),
    ("--sql", ("init",), "proposes catalogue.sql: tables with kinds, an empty cell as NULL, and places for views as people write them"),
    ("--workers N", ("night",), "how many workers compute at once, 1 to 16; without it 1"),
    ("--readers N", ("night",), "how many readers go through the tables of before meanwhile, 0 to 16: a trial of the promise, and no service"),
    ("--page-keys N", ("night",), "how many rows are put at a time, 1 to 256; without it 256"),
    ("--weights KIND", ("night", "check", "plan", "certify", "sizes", "explain", "graph"), "proposes weights, by cells or by bytes"),
    ("--comp-cost N", ("check", "plan", "certify"), "what a row that a Comp reads costs, 1 to 1,000,000; without it 1"),
    ("--inst-cost N", ("check", "plan", "certify"), "the same of a row that an Inst puts"),
    ("--budget N", ("plan",), "how many nodes a search opens at most, 1 to 9,223,372,036,854,775,807; without it 1,000,000"),
    ("--version N", ("read", "sql", "backup"), "takes this version; without it the current one"),
    ("--where COLUMN=VALUE", ("read",), "only rows with this value, or with !=, <, <=, >, >=; it may stand several times"),
    ("--order COLUMN", ("read",), "by this column, or by -COLUMN with the largest first; with --limit in the memory of so many rows"),
    ("--columns A,B", ("read",), "only these columns, in this order"),
    ("--limit N", ("read",), "so many rows at most"),
    ("--format KIND", ("read", "sql"), "csv, json, jsonl (an object in each line) or table (for eyes), and of read parquet; without it csv"),
    ("--format KIND", ("log",), "text or json; without it text"),
    ("--output FILE", ("read",), "into this file, which must not be there"),
    ("--port PORT", ("serve",), "the port, 0 for a free one; without it 8000"),
    ("--address ADDRESS", ("serve",), "the address; without it 127.0.0.1, which this machine alone reaches"),
    ("--promise SECONDS", ("serve",), "how long a session pins its version, 1 to 86,400; without it 900"),
    ("--versions N", ("serve",), "how many of the newest versions stay in memory, 2 to 4; without it 2"),
    ("--from-files", ("serve",), "reads pages from files alone, and has no program stay"),
    ("--batch ID", ("put",), "a name of these changes, which are taken once: put again they change nothing"),
    ("--as NAME", ("put",), "the view of the one file, or of standard input"),
    ("--all", ("backup",), "copies all versions"),
]
PROGRAM = [
    ("--unproved", "by the program that is built without its proof, within minutes, whatever `whview use` chose"),
    ("--program FILE", "by this program"),
]
STATUSES = (
    "Status 2: what these words name is not there or not taken, as an option, folder, file, version, view or column; 3: what the folder holds\n"
    "is wrong. All statuses are in docs/OPERATING.md, recipes in docs/WAREHOUSE.md."
)
WITHOUT = [("--unproved, --program FILE", "are taken as everywhere, and change nothing: this command asks no program")]


def told_options(command: str) -> list[tuple[str, str]]:
    """The options of a command as they are told, each with what it is for."""
    options = [(option, text) for option, commands, text in OPTIONS if command in commands]
    return options + (WITHOUT if command in WITHOUT_PROGRAM else PROGRAM)


def options_of(command: str) -> list[str]:
    """The options of a command."""
    return [word.rstrip(",") for option, _ in told_options(command) for word in option.split() if word.startswith("--")]


def help_of(command: str) -> str:
    """What a command does, and its options."""
    options = told_options(command)
    lines = [f"whview folder {command} {WORDS.get(command, 'FOLDER')} [OPTIONS]", ""]
    lines += [(import_module(f"whview.folder.{command}").__doc__ or "").strip()]
    lines += ["", *(f"    {option:20} {text}" for option, text in options)]
    return "\n".join([*lines, "", STATUSES])
