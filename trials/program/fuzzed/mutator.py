"""How AFL++ changes bundles besides its own ways: by numbers, words, lines and parts. It calls these functions by their names."""

import random

from trials.drawn.mutations import changed

SOURCE = random.Random()


def init(seed):
    SOURCE.seed(seed)


def fuzz(given, _, most):
    # AFL++ ends where nothing is left of a bundle.
    return bytearray(changed(SOURCE, bytes(given))[:most] or b"\n")


def deinit():
    pass
