"""Runs the program on each beginning of some inputs, cut at every byte, and compares the answer with the one that the formats give.

The inputs are of all commands: the stored input and some bundles, some of whose parts stand in another order. Of those that end in rows
also the last part stands in a file of its own, which is cut at every byte. What a beginning has to be answered is worked out from its text
alone, by trials/oracle/cut_inputs.py; the verdict on a plan is that of a judge of trees, a night's tables
are an evaluator's, and the replies of a schedule a machine's.
"""

import subprocess
from concurrent.futures import ThreadPoolExecutor
from pathlib import Path
from tempfile import TemporaryDirectory

from trials.bundles import examples
from trials.ended import ended, told
from trials.oracle.cut_inputs import Carried, CarriedBesideReaders, Certified, Checked, Planned, Replayed
from trials.program.case_groups.filed import escaped
from upkeep.words import ROOT, program, words_with_program
from whview.bundle import pieces

COMMANDS = ("check", "plan", "certify", "night", "replay")
# What of inputs is said whose last part has rows.
ENDING = ("with its data last", "with its changes last")
EXAMPLES = {example.name: example for example in examples()}


def text_of(name):
    return EXAMPLES[name].bundle.decode()


def reordered(name, *places):
    """The parts of an example in the order of these places."""
    parts = pieces(EXAMPLES[name].bundle)
    return b"".join(parts[place] for place in places).decode()


def planned(name, names):
    answer = EXAMPLES[name].answer.decode()
    return Planned(f"the plan of {name}", text_of(name), names.split(), answer[: answer.rindex("status ")])


def inputs():
    """The inputs, each with what its beginnings are judged by."""
    stored = (ROOT / "crates/whview_main/stdin").read_text().removeprefix("check\n")
    yield Checked("the stored input", stored, ["A", "B", "V"], "correct\nwork 154\n")
    yield planned("plan_all", "A B V")
    yield planned("plan_one_way", "B C V1 V2")
    yield planned("plan_cyclic_by_a_tie", "B C V1 V2")
    yield planned("plan_bases_alone", "A B")
    yield planned("plan_weights_change_the_order", "A B V")
    yield Checked("sizes with weights", text_of("weighted_work"), ["A", "B", "V"], "correct\nwork 316\n")
    sizes = [(10, 12, 4), (100, 70, 30), (50, 44, 6)]
    yield Certified("a plan of pairs", text_of("certify_pairs"), ["A", "B", "V"], [[], [], [0, 1]], sizes, [(2, 1, 0, 80)])
    weighted = [(10, 8, 2, 2), (100, 97, 3, 1), (50, 50, 0, 1)]
    text = text_of("certify_with_weights")
    yield Certified("a plan of pairs with weights", text, ["A", "B", "V"], [[], [], [0, 1]], weighted, [(2, 0, 1, 116)])
    sizes = [(100, 90, 20), (50, 55, 5), (80, 60, 40), (200, 190, 30)]
    yield Certified("a plan with a tree", text_of("certify_tree"), ["B", "C", "V1", "V2"], [[], [], [0, 1], [0, 2]], sizes, [])
    for kind, what, name in (
        (Carried, "a night", "night_two_tables"),
        (CarriedBesideReaders, "a night with workers and readers", "night_with_workers_and_readers"),
    ):
        yield kind(f"{what} with its strategy last", text_of(name))
        yield kind(f"{what} with its changes last", reordered(name, 0, 5, 1, 2, 3, 4))
    yield Replayed("a replay with its schedule last", text_of("replay_two_nights"), ["a", "v"])
    yield Replayed("a replay that keeps three versions", text_of("replay_three_versions"), ["a"])
    yield Replayed("a replay with its data last", reordered("replay_two_nights", 0, 6, 2, 3, 4, 5, 1), ["a", "v"])
    yield Replayed("a replay with its changes last", reordered("replay_give_up", 0, 7, 1, 3, 2, 4, 6, 5), ["a"])


def answer(started, cut):
    """What the program prints, and its status; of a status 2 no text, which is the command line parser's."""
    ran = subprocess.run([started], input=cut.encode(), capture_output=True, timeout=60)
    if ran.returncode == 2 and ran.stdout:
        return "", 2
    return ran.stdout.decode(errors="replace"), ran.returncode


def mistakes(started, given):
    """For each beginning of an input what it is answered in another way, or None."""
    cuts = [given.given[:length] for length in range(len(given.given) + 1)]
    with ThreadPoolExecutor(max_workers=2) as runners:
        answers = list(runners.map(lambda cut: answer(started, cut), cuts))
    wanted = [given.expected(cut) for cut in cuts]
    return [
        None if got == right else f"the first {len(cut)} bytes of {given.what} answered {got} where the formats say {right}"
        for cut, got, right in zip(cuts, answers, wanted)
    ]


def mistakes_in_files(started, given):
    """For each beginning of the last part's lines, which stand in a file, what is answered otherwise than in the bundle, or None."""
    above, sign, last = given.given.rpartition("\n@")
    heading, _, lines = last.partition("\n")
    words, _, above = f"{above}{sign}{heading}".partition("\n")
    cuts = [lines[:length] for length in range(len(lines) + 1)]
    wanted = [given.expected(f"{words}\n{above}\n{escaped(cut.encode()).decode()}") for cut in cuts]
    with TemporaryDirectory() as room, ThreadPoolExecutor(max_workers=2) as runners:
        answers = list(runners.map(lambda cut: filed_answer(started, words, Path(room, str(len(cut))), f"{above} < rows\n", cut), cuts))
    return [
        None if got == right else f"a file with the first {len(cut)} bytes of {given.what} answered {got} where the formats say {right}"
        for cut, got, right in zip(cuts, answers, wanted)
    ]


def filed_answer(started, words, room, bundle, rows):
    """What the program prints of a bundle that names a file with these rows, and its status."""
    room.mkdir()
    (room / "rows").write_text(rows, newline="")
    (room / "bundle").write_text(bundle, newline="")
    ran = subprocess.run([started, *words.split(), "--input", room / "bundle"], capture_output=True, timeout=60)
    return ran.stdout.decode(errors="replace"), ran.returncode


def main():
    given = words_with_program(__doc__)
    given.add_argument("--only", choices=COMMANDS, action="append", help="the inputs of this command, and of others named so")
    asked = given.parse_args()
    started, status = program(asked.program), 0
    for command in asked.only or COMMANDS:
        asked_so = [each for each in inputs() if each.command == command]
        found = [wrong for each in asked_so for wrong in mistakes(started, each)]
        found += [wrong for each in asked_so if each.what.endswith(ENDING) for wrong in mistakes_in_files(started, each)]
        wrongs = [wrong for wrong in found if wrong]
        told(wrongs)
        status |= ended(f"cuts of {command}", len(found), len(wrongs))
    return status
