"""Every kind of words: commands, options and their ranges, words in the first line of the input, helps and mistakes with their texts;
and input that comes a byte at a time, fails or never ends, and output that fails."""

from itertools import product
from typing import NamedTuple

from trials.program.case_groups import AByteAtATime, BesideAFile, BetweenSignals, Case, Endless, FromAFolder, OnAShortQuota, TakenByNobody, Unheard
from trials.program.case_groups import WithoutInput, WithoutOutput

# A Comp reads 30 + 10 and 4 + 70 rows and the Insts write 30 + 4 + 6: 114 and 40.
BUNDLE = """@catalogue
[[view]]
name = "A"
[[view]]
name = "B"
[[view]]
name = "V"
over = ["A", "B"]
@sizes
view,pre,post,change
A,10,12,4
B,100,70,30
V,50,44,6
"""
LIST = "comp V from B\ninst B\ncomp V from A\ninst A\ninst V\n"
CHECKED = f"{BUNDLE}@strategy\n{LIST}"
COMP_ROWS, INST_ROWS = 114, 40

# V1 shrinks more than B, and B more than C: V1's Inst is to come before V2's Comp from B, that before B's Inst, that before
# V1's Comp from C, and that before V1's Inst.
CYCLIC = """@catalogue
[[view]]
name = "B"
[[view]]
name = "C"
[[view]]
name = "V1"
over = ["B", "C"]
[[view]]
name = "V2"
over = ["B", "V1"]
@sizes
view,pre,post,change
B,100,90,20
C,50,55,5
V1,80,60,40
V2,200,190,30
"""

REPLAYED = """@catalogue
[[view]]
name = "a"
columns = ["x"]
@strategy
inst a
@schedule
desks 1
workers 1
keys 1
open 0
read 0 a 1
begin
commit
"""
REPLIES = "session 0\npage end\nbegun\nversion 1\n"

PROGRAM_HELP = """Judges, plans and carries out strategies that update the views of a warehouse.

Usage: whview <COMMAND>

Commands:
  check    Judges a strategy and gives its work. Reads the catalogue, the strategy and the sizes.
  plan     Plans a strategy of least work and says why none costs less. Reads the catalogue and the sizes.
  certify  Judges a plan by its certificate. Reads the catalogue, the sizes and the plan.
  night    Carries a strategy out and shows the new tables. Reads the catalogue, the data, the changes and the strategy.
  replay   Goes through a schedule of events and prints the reply to each. Reads the catalogue, the data, the changes and the strategy of each night, and the schedule.
  live     Keeps a warehouse and answers commands, a line each, for as long as they come. Opens it from a file with the catalogue and the data, and the strategy of nights that write none.
  help     Print this message or the help of the given subcommand(s)

Options:
  -h, --help  Print help

Each command reads a bundle: one text of several parts, each of which begins with a line like
@catalogue. 'whview COMMAND --help' has the command's options and statuses. The command live
reads its bundle from a file, and answers commands from standard input.

Where no words are given, the first line of standard input has them, without --input. The
command live cannot stand there.

Example:
  whview night --input examples/night_shop.bundle
"""

COSTS = [
    ("--comp-cost <N>", "The cost of a row that a Comp reads, 1 to 1,000,000 [default: 1]"),
    ("--inst-cost <N>", "The cost of a row that an Inst writes, 1 to 1,000,000 [default: 1]"),
]
FILE = [("--input <FILE>", "The file to read [default: standard input]")]
LENGTH = [("--most <BYTES>", "The most bytes that the input may have, 1 to 1,099,511,627,776 [default: 67,108,864]")]
RUN = [
    ("--workers <N>", "How many workers compute at once, 1 to 16 [default: 1]"),
    ("--readers <N>", "How many readers go through the old tables meanwhile, 0 to 16 [default: 0]"),
    ("--page-keys <N>", "How many rows are written at a time, 1 to 256 [default: 256]"),
    ("--print <WHAT>", "What is printed of the derived views: tables or changes [default: tables]"),
]
MACHINE = [
    ("--workers <N>", "How many workers the warehouse has, and threads that open it, 1 to 16 [default: 1]"),
    ("--desks <N>", "How many desks the warehouse has, 1 to 16 [default: 16]"),
    ("--versions <N>", "How many versions are kept, 2 to 4 [default: 2]"),
    ("--page-keys <N>", "How many rows are written at a time, 1 to 256 [default: 256]"),
]
OPENING = [("--input <FILE>", "The file of the opening, which has to be named")]
BUDGET = [("--budget <N>", "How many nodes a search may open, 1 to 9,223,372,036,854,775,807 [default: 1,000,000]")]
COMMON_ENDS = {2: "these words are not taken", 3: "the input has a fault", 4: "memory was refused", 5: "the output failed"}


class Command(NamedTuple):
    """A command: what it is about, its options, how it ends besides the common ways, and the example of its help."""

    name: str
    about: str
    options: list
    ends: dict
    example: str
    notes: str = ""

    def help(self):
        width = max(len(option) for option, _ in self.options)
        options = "".join(f"      {option:{width}}  {text}\n" for option, text in self.options)
        ends = "".join(f"  {status}  {text}\n" for status, text in sorted((COMMON_ENDS | self.ends).items()))
        options += f"{'  -h, --help':{width + 6}}  Print help\n"
        return f"{self.about}\n\nUsage: whview {self.name} [OPTIONS]\n\nOptions:\n{options}\n{self.notes}Ends with:\n{ends}\nExample:\n  whview {self.example}\n"


COMMANDS = [
    Command("check", "Judges a strategy and gives its work. Reads the catalogue, the strategy and the sizes.", COSTS + FILE,
            {0: "the strategy is correct", 1: "it breaks a rule"}, "check --comp-cost 2 --input examples/one_way_check.bundle"),
    Command("plan", "Plans a strategy of least work and says why none costs less. Reads the catalogue and the sizes.", COSTS + FILE + BUDGET,
            {0: "there is a plan", 4: "the budget is spent, or memory was refused"}, "plan --budget 5000 --input examples/plan_all.bundle"),
    Command("certify", "Judges a plan by its certificate. Reads the catalogue, the sizes and the plan.", COSTS + FILE,
            {0: "the plan is certified", 1: "it is rejected, or its strategy breaks a rule"}, "certify --input examples/certify_pairs.bundle"),
    Command("night", "Carries a strategy out and shows the new tables. Reads the catalogue, the data, the changes and the strategy.", RUN + FILE + LENGTH,
            {0: "the night is carried out", 1: "it is refused, or the strategy breaks a rule"}, "night --workers 4 --readers 2 --input examples/night_shop.bundle"),
    Command("replay", "Goes through a schedule of events and prints the reply to each. Reads the catalogue, the data, the changes and the strategy "
            "of each night, and the schedule.", FILE + LENGTH,
            {0: "each event has its reply, also where events are refused", 1: "a strategy breaks a rule, or the opening contents are refused"},
            "replay --input examples/replay_two_nights.bundle"),
    Command("live", "Keeps a warehouse and answers commands, a line each, for as long as they come. Opens it from a file with the catalogue and the "
            "data, and the strategy of nights that write none.", MACHINE + OPENING + LENGTH,
            {0: "the commands are at their end, also where some are refused", 1: "the opening contents are refused",
             2: "these words are not taken, or no file is named", 3: "the file has a fault, or a read of the commands failed"},
            "live --input examples/live_shop.opening",
            "Reads commands from standard input: 'night' and the night's parts up to '@end', 'commit', 'giveup',\n"
            "'open D', 'read D VIEW LIMIT', 'page D VIEW LIMIT', which may go on by 'after CELLS', 'close D', 'tables',\n"
            "'changes' and 'quit'.\n\n"),
]

MORE = "\nFor more information, try '--help'.\n"
NO_COMMAND = f"""error: 'whview' requires a subcommand but one was not provided
  [subcommands: check, plan, certify, night, replay, live, help]

Usage: whview <COMMAND>
{MORE}"""


def correct(comp=1, inst=1):
    return f"correct\nwork {comp * COMP_ROWS + inst * INST_ROWS}\n"


# The costs of words, and what is none.
COST_WORDS = {
    "check": (1, 1), "check --comp-cost 2": (2, 1), "check --inst-cost 3": (1, 3), "check --inst-cost=3 --comp-cost=2": (2, 3),
    "check --comp-cost 1 --inst-cost 1000000": (1, 10**6), "check --comp-cost 1000000": (10**6, 1), "check --comp-cost +2 --inst-cost 002": (2, 2),
    "check --comp-cost 7 --": (7, 1),
}
NO_COSTS = ("0", "1000001", "-1", "+", "1.0", "1e3", "0x1", "1_000", "one", "9" * 20, "")


def costs():
    """Costs in each place that they may stand in, and what is no cost."""
    for words, (comp, inst) in COST_WORDS.items():
        work = comp * COMP_ROWS + inst * INST_ROWS
        plan = f"scope all\nwork {work}\n{LIST}pair V B A 80\n"
        yield Case(words.split(), CHECKED.encode(), correct(comp, inst), 0)
        yield Case(words.replace("check", "plan").split(), BUNDLE.encode(), plan, 0)
        yield Case(words.replace("check", "certify").split(), f"{BUNDLE}@plan\n{plan}".encode(), f"certified all work {work}\n", 0)
    for cost, command, option in product(NO_COSTS, ("check", "plan", "certify"), ("--comp-cost", "--inst-cost")):
        yield Case([command, f"{option}={cost}"], CHECKED.encode(), None, 2)
        yield Case([command, option, cost], CHECKED.encode(), None, 2)


# The budgets of words, and what is none.
BUDGET_WORDS = {
    "": 10**6, "--comp-cost 1": 10**6, "--budget 1": 1, "--budget=+2 --comp-cost=1": 2, "--inst-cost 1 --budget 004": 4, "--budget 5": 5,
    "--budget 9223372036854775807": 2**63 - 1,
}
NO_BUDGETS = ("0", "9223372036854775808", "18446744073709551615", "9" * 20, "-1", "+", "1.0", "1_000", "all", "")


def budgets():
    """Budgets in each place and what is no budget. The tree of this search has five nodes; its first strategy is the best."""
    for words, nodes in BUDGET_WORDS.items():
        answer = (f"budget opened {nodes} best 490\n", 4) if nodes < 5 else (ONE_WAY, 0)
        yield Case(["plan", *words.split()], CYCLIC.encode(), *answer)
    for budget in NO_BUDGETS:
        yield Case(["plan", f"--budget={budget}"], CYCLIC.encode(), None, 2)
        yield Case(["plan", "--budget", budget], CYCLIC.encode(), None, 2)


ONE_WAY = """scope one-way
work 490
comp V1 from B
comp V2 from B
inst B
comp V1 from C
comp V2 from V1
inst C
inst V1
inst V2
branch B V1
bound
branch B C
cycle inst V1; comp V2 from B; inst B; comp V1 from C
bound
"""


# Words that no command takes.
REFUSED = (
    "plans", "certif", "chec", "Check", "check\t", "\ufeffcheck", "check check", "check x", "check -- x", "--input f check", "check --input",
    "check --input f --input f", "check --input f --input=g", "check --comp-cost", "check --comp-cost 2 --comp-cost 2", "check --comp 2", "check --budget 2",
    "certify --budget 2", "plan --budget", "plan --budget 2 --budget 2", "night --comp-cost 2", "night --inst-cost 2", "night --budget 2", "night x", "nights",
    "night --workers", "night --readers 2 --readers 2", "night --workers 0", "night --readers 17", "night --page-keys 0", "check --readers 2", "night --print",
    "night --print table", "night --print ", "night --print tables --print tables", "check --print tables", "replay --comp-cost 2", "replay --inst-cost 2",
    "replay --budget 2", "replay --workers 2", "night --most", "night --most 0", "night --most 9 --most 9", "replay --most -1", "replay --most=",
    "live --readers 2", "live --desks 0", "live --desks 17", "live --versions 1", "live --versions 5", "live --print changes", "live x", "lives",
    "check --most 9", "plan --most 9", "certify --most 9", "replay x", "replays", "check -c", "-V", "--version", "check -V", "check --version", "help plans",
)


def refused():
    """Words that no command takes, each by either way."""
    for words in REFUSED:
        yield Case(words.split(" "), CHECKED.encode(), None, 2)
        yield Case([], f"{words}\n{CHECKED}".encode(), None, 2)
    yield Case(["check", ""], CHECKED.encode(), None, 2)
    yield Case(["", "check"], CHECKED.encode(), None, 2)


def helps():
    """Each help, by each way to ask for it, also in the first line of the input."""
    asked = [(words, PROGRAM_HELP) for words in ("-h", "--help", "help")]
    asked += [(words.format(command.name), command.help()) for command in COMMANDS for words in ("help {}", "{} -h", "{} --help")]
    for words, text in asked:
        yield Case(words.split(), b"", text, 0)
        yield Case([], f"{words}\n".encode(), text, 0)
    yield Case(["help", "help"], b"", None, 0)


def mistakes():
    yield Case([], b"", NO_COMMAND, 2)
    yield Case([], b"\n", NO_COMMAND, 2)
    cost = f"error: invalid value '0' for '--comp-cost <N>': 0 is not in 1..=1000000\n{MORE}"
    yield Case(["check", "--comp-cost", "0"], b"", cost, 2)
    budget = f"error: invalid value '0' for '--budget <N>': 0 is not in 1..9223372036854775807\n{MORE}"
    yield Case(["plan", "--budget", "0"], b"", budget, 2)
    for option, least, most in (("workers", 1, 16), ("readers", 0, 16), ("page-keys", 1, 256)):
        bound = f"error: invalid value '{most + 1}' for '--{option} <N>': {most + 1} is not in {least}..={most}\n{MORE}"
        yield Case(["night", f"--{option}", str(most + 1)], b"", bound, 2)
    for command, size in product(("night", "replay"), (0, 2**40 + 1)):
        bound = f"error: invalid value '{size}' for '--most <BYTES>': {size} is not in 1..={2**40}\n{MORE}"
        yield Case([command, "--most", str(size)], b"", bound, 2)
    for word in ("table", "Changes", "changes "):
        known = f"error: invalid value '{word}' for '--print <WHAT>'\n  [possible values: tables, changes]\n{MORE}"
        yield Case(["night", "--print", word], b"", known, 2)
    for command in ("night", "replay"):
        other = f"error: unexpected argument '--comp-cost' found\n\nUsage: whview {command} [OPTIONS]\n{MORE}"
        yield Case([command, "--comp-cost", "2"], b"", other, 2)


# How a first line is refused that has a word for the command line alone.
ELSEWHERE = "cannot stand in the words of an input\n"
# First lines, with what stands below them, and what is printed, with the status.
FIRST_LINES = (
    *((f"{line}\n{CHECKED}", correct(), 0) for line in ("check", "  check   --comp-cost=1 ", "check --", "check\r")),
    (f"check --inst-cost 2 --comp-cost 3\n{CHECKED}", correct(3, 2), 0), (f"plan\n{CYCLIC}", ONE_WAY, 0), (f"replay\n{REPLAYED}", REPLIES, 0),
    (f" replay --\r\n{REPLAYED}", REPLIES, 0), ("replay", "fault part catalogue\n", 3), ("check", "fault part catalogue\n", 3),
    (f"   \n{CHECKED}", NO_COMMAND, 2), (f"\r\n{CHECKED}", NO_COMMAND, 2),
    *((f"{line}\n{CHECKED}", None, 2) for line in ("check\r\r", "check\t--comp-cost 2", "check\t", "\ufeffcheck\u00a0")),
    *((f"{line}\n{CHECKED}", f"error: `--input` {ELSEWHERE}", 2) for line in ("check --input f", "--input=f check", "check -- --input=")),
    *((f"{line}\n{REPLAYED}", f"error: `--most` {ELSEWHERE}", 2) for line in ("replay --most 9", "--most=9 replay", "night -- --most=")),
    (f"replay --most 9 --input f\n{REPLAYED}", f"error: `--input` {ELSEWHERE}", 2), (f"replay --mostly\n{REPLAYED}", None, 2), ("check\r", None, 2),
)


def first_lines():
    """Words in the first line of the input: they stand between spaces; one CR before the LF that ends the line is no part of it."""
    for given, answer, status in FIRST_LINES:
        yield Case([], given.encode(), answer, status)
    yield Case([], b"check \xff\n" + CHECKED.encode(), None, 2)


class BesideANight(BesideAFile):
    """A case beside a file that has a bundle to be checked."""

    file = CHECKED.encode()


def files():
    """A file that is named is read in place of standard input, by either spelling; one that is not there is a fault."""
    path = "{room}/night.txt"
    for words in (["--input", path], [f"--input={path}"], [f"--input={path}", "--comp-cost", "1"]):
        yield BesideANight(["check", *words], b"", correct(), 0)
        yield BesideANight(["check", *words], BUNDLE.encode(), correct(), 0)
    yield BesideANight(["check", "--input", "{room}/none"], CHECKED.encode(), "fault read\n", 3)
    yield BesideANight(["check", "--input", "{room}"], CHECKED.encode(), "fault read\n", 3)


def streams():
    """Input that cannot be read, comes a byte at a time or never ends, and output that takes nothing."""
    yield FromAFolder(["check"], b"", "fault read\n", 3, "standard input that is a folder")
    for words, head in ((["check"], b""), ([], b"check\n")):
        yield AByteAtATime(words, head + CHECKED.encode(), correct(), 0, "a byte at a time")
        yield BetweenSignals(words, head + CHECKED.encode(), correct(), 0, "a byte at a time, and signals")
    yield Endless(["check"], b"", "fault toolong\n", 3, "input that never ends")
    for words in (["check"], []):
        yield WithoutInput(words, b"", "fault read\n", 3, "input that is closed")
    for words in (["check"], ["plan"], ["replay"], ["--help"], ["check", "x"]):
        for kind, what in {TakenByNobody: "takes nothing", WithoutOutput: "is closed", Unheard: "nobody reads"}.items():
            yield kind(words, CHECKED.encode(), None, 5, f"output that {what}")
    yield OnAShortQuota(["check"], CHECKED.encode(), correct(), 5, "a short quota")
    yield OnAShortQuota(["replay"], REPLAYED.encode(), REPLIES, 5, "a short quota")


def cases():
    for group in (costs, budgets, refused, helps, mistakes, first_lines, files, streams):
        yield from group()
