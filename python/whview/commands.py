"""The commands of `whview`: what they are for, and which module each leads to."""

HELP = """\
Keeps the views of a warehouse up to date: strategies that are judged, planned and carried out by a proved program.

    whview check | plan | certify | night | replay | live [OPTIONS]    the proved program, on a bundle
    whview folder COMMAND FOLDER ..                                    the views of a folder of CSV files, version by version
    whview sql COMMAND WAREHOUSE ..                                    nights as SQL that PostgreSQL or SQLite carries out, also over live tables
    whview cluster COMMAND FOLDER --server HOST:PORT ..                a warehouse on ClickHouse servers

    whview use [proved | unproved]        which program is taken from now on; it is built where it is missing
    whview install [--prefix DIR]         puts the command, the program that is built and what they need below DIR, ~/.local without it
    whview uninstall [--prefix DIR]       takes that away again
    whview completion bash | zsh          prints what completes these words in a shell
    whview --version                      tells the version, and which program is taken

`whview COMMAND --help` has a command's options, `whview folder --help`, `whview sql --help` and `whview cluster --help` their commands.
WHVIEW_PROGRAM=unproved, or =FILE, takes another program for once, and `--unproved` does the first of these.
The program is proved. What is round it is tested.
"""
# What the program does, as it is told where no program is there to tell it, and its options.
OF_PROGRAM = {
    "check": ("Judges a strategy and gives its work.", ("--comp-cost", "--inst-cost", "--input")),
    "plan": ("Plans a strategy of least work and says why none costs less.", ("--comp-cost", "--inst-cost", "--budget", "--input")),
    "certify": ("Judges a plan by its certificate.", ("--comp-cost", "--inst-cost", "--input")),
    "night": ("Carries a strategy out and shows the new tables.", ("--workers", "--readers", "--page-keys", "--print", "--input", "--most")),
    "replay": ("Goes through a schedule of events and prints the reply to each.", ("--input", "--most")),
    "live": ("Keeps a warehouse and answers commands, line by line.", ("--workers", "--desks", "--versions", "--page-keys", "--input", "--most")),
}
ROOMS = ("folder", "sql", "cluster")
# The commands that are no room: each has a module with `run`.
OWN = {"use": "using", "install": "installing", "uninstall": "installing", "completion": "completion"}
COMMANDS = (*OF_PROGRAM, *ROOMS, *OWN)
