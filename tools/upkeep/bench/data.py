"""Bags against plain Rust, and a stored closure against the same closure called directly. The medians of each step, and their ratios."""

from tempfile import TemporaryDirectory

from upkeep.bench import Steps, peer, proved

ROUNDS = 5
STEPS = "map map_rising map_merge map_merge_many array array_rising array_merge array_merge_many".split()
STEPS += "add from_records rising merge merge_many stored direct".split()
RATIOS = [("add", "map"), ("from_records", "map"), ("from_records", "array"), ("rising", "map_rising"), ("rising", "array_rising")]
RATIOS += [("merge", "map_merge"), ("merge", "array_merge"), ("merge_many", "map_merge_many"), ("merge_many", "array_merge_many")]
RATIOS += [("stored", "direct")]


def measure(asked):
    with TemporaryDirectory() as room:
        bags, closures = proved(f"{room}/1", "bags", "wh_row"), proved(f"{room}/2", "closures", "wh_formula")
        steps = Steps([peer(room, "bags/peer.rs"), bags, closures], asked.rounds)
    for name in STEPS:
        print(f"{name:18} {steps.median(name):10.0f} us")
    for one, other in RATIOS:
        print(f"{one + ' / ' + other:28} {steps.ratio(one, other):5.2f}")
