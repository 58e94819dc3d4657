"""What somebody has to say aloud before a night goes on: that a table is dropped, and that a file is taken as it is."""

from __future__ import annotations

from collections.abc import Sequence
from typing import TYPE_CHECKING

from ..finding import Failure
from ..status import BAD_INPUT, BAD_WORDS

if TYPE_CHECKING:
    from .inputs import Inputs


def judge_dropped(inputs: Inputs, bases: Sequence[str], dropped: Sequence[str]) -> None:
    """Ends a night that would leave a table of the version behind which nobody named, and one that is to drop what is not left behind."""
    left = [name for name in inputs.carried if name not in bases] if inputs.state.number is not None else []
    unknown = [name for name in dropped if name not in left]
    if unknown:
        there = f"there are {', '.join(left)}" if left else "there are none"
        raise Failure(BAD_WORDS, f"--drop {unknown[0]}: {inputs.state.told} has no table of that name that is of no base view any more; {there}")
    kept = [name for name in left if name not in dropped]
    if kept:
        raise Failure(BAD_INPUT, *(f"{inputs.carried[name].told}:1:1: {refusal(name)}" for name in kept))


def refusal(name: str) -> str:
    """Why a night is not kept, and what to do."""
    told = f"{name} is no base view any more, and its table would be in no later version"
    return f"{told}: put its view back into catalogue.toml, or let the table go by `--drop {name}` behind `night .. --commit`"


def judge_accepted(inputs: Inputs, accepted: Sequence[str]) -> None:
    """Ends a night that is to accept a file of the version that is as it was made."""
    known = [each.file for each in inputs.vouched.differences] + ["manifest.txt"] * bool(inputs.vouched.fault)
    unknown = [name for name in accepted if name not in known]
    if unknown:
        raise Failure(BAD_WORDS, f"--accept {unknown[0]}: that is no file of the current version which is not as it was made")
