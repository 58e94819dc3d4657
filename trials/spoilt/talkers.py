"""Programs that answer a stream of commands rightly, but at the wrong time, and one that does all of it right. They run by themselves: the
words are which of them it is, and a file that has the commands with their answers."""

import os
import pickle
import sys
from pathlib import Path

BLOCK = 1 << 16


def say(text):
    os.write(1, text)


def pieces():
    """What single reads give."""
    while piece := os.read(0, BLOCK):
        yield piece


def answers_to(couples):
    """The answers to the commands that are whole, as soon as they are, and behind these what each read ends with: nothing."""
    begun = b""
    for piece in pieces():
        begun += piece
        while couples and begun.startswith(couples[0][0]):
            command, answer = couples.pop(0)
            begun = begun[len(command) :]
            yield answer
        yield b""


def right(couples):
    for answer in answers_to(couples):
        say(answer)


def a_command_late(couples):
    """Each answer comes with the next one."""
    kept = b""
    for answer in filter(None, answers_to(couples)):
        say(kept)
        kept = answer
    say(kept)


def at_the_end(couples):
    """All answers come at the end."""
    say(b"".join(answers_to(couples)))


def a_read_for_a_command(couples):
    """Whatever one read gives is taken for whole commands."""
    for piece in pieces():
        while couples and piece.startswith(couples[0][0]):
            command, answer = couples.pop(0)
            piece = piece[len(command) :]
            say(answer)
        say(b"unknown\n" if piece else b"")


def before_its_end(couples):
    """A command is answered before its line has ended."""
    begun = b""
    for piece in pieces():
        begun = (begun + piece).lstrip(b"\n")
        while couples and begun.startswith(couples[0][0].strip(b"\n")):
            command, answer = couples.pop(0)
            begun = begun[len(command.strip(b"\n")) :].lstrip(b"\n")
            say(answer)


UNTIMELY = [a_command_late, at_the_end, a_read_for_a_command, before_its_end]


def words_for(does, path):
    """The words that run one of them."""
    return [sys.executable, "-B", __file__, does.__name__, str(path)]


if __name__ == "__main__":
    globals()[sys.argv[1]](pickle.loads(Path(sys.argv[2]).read_bytes()))
