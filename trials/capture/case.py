"""What a case of an application's is made of, and how lists of cases are gone through."""

from typing import NamedTuple


class Case(NamedTuple):
    """What is made beside the tables before they are captured; what the application says; what of it fails, by a word; how a night is
    refused until the tables are captured anew, by a word."""

    said: str
    made: str = ""
    fails: str = ""
    refused: str = ""


def each_case(live, cases, mistakes, only="", what=""):
    """What is wrong with those cases that have this in their names, and how many they are."""
    tried = {name: case for name, case in cases.items() if only in name}
    return [f"{live.engine}: {what}{name}: {text}"[:900] for name, case in tried.items() for text in mistakes(live, case)], len(tried)


def each_of(live, tried):
    """What is wrong with each of several things, by their names."""
    return [f"{live.engine}: {name}: {text}"[:900] for name, mistakes in tried.items() for text in mistakes(live)]
