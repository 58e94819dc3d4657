"""Runs the command of each bundle of examples/ and tests/bundles/, and compares what it prints, with its status, with the answer there.

The name of a bundle begins with its command, or else it is for `check`. Where options stand beside the command, NAME.words has both.
"""


from trials.bundles import examples, mistake
from trials.ended import ended, told
from upkeep.words import program, words_with_program


def main():
    started = program(words_with_program(__doc__).parse_args().program)
    found = [mistake(started, example) for example in examples()]
    told([wrong for wrong in found if wrong])
    return ended("examples", len(found), sum(wrong is not None for wrong in found))
