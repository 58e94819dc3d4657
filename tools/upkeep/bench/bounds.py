"""Bounds under many decisions, over 64 views of which 48 are over six: a tree that `certify` judges, the decided bound alone, the pair
bound, and a search that spends its budget. The least time of each, for one bound or one node."""

from tempfile import TemporaryDirectory

from upkeep.bench import Steps, proved

ROUNDS = 12


def measure(asked):
    with TemporaryDirectory() as room:
        steps = Steps([proved(room, "bounds", "wh_dag", "wh_strategy", "wh_cert", "wh_minwork", "wh_prune")], asked.rounds)
    for name in sorted(steps.found):
        print(f"{name:8} {steps.least(name):8.2f} us")
