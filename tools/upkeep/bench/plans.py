"""MinWork and certificates over two shapes of 64 views against plain Rust, which neither checks its list nor proves anything. The medians
of each step for one call of a thousand, and of the ratios of two runs that followed one another."""

from tempfile import TemporaryDirectory

from upkeep.bench import Steps, peer, proved

ROUNDS, CALLS = 12, 1000
STEPS = ("tree_min_work", "uniform_min_work", "tree_certify", "uniform_certify")


def measure(asked):
    with TemporaryDirectory() as room:
        built = proved(room, "plans", "wh_dag", "wh_strategy", "wh_cert", "wh_minwork")
        steps = Steps([peer(room, "plans/peer.rs"), built], asked.rounds)
    for name in STEPS:
        ours, plain = steps.median(name) / CALLS, steps.median(f"plain_{name}") / CALLS
        print(f"{name:18} {ours:8.1f} us, plain {plain:8.1f} us, ratio {steps.ratio_of_rounds(name, f'plain_{name}'):5.2f}")
