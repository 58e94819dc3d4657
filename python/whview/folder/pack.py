"""`pack`: the bundle of a folder, on standard output; files that are no part of it are named on standard error."""

from __future__ import annotations

import sys
from typing import TYPE_CHECKING

from ..catalogue.from_toml import Catalogue
from ..finding import Failure, warn
from ..limits import judge, over_the_limit
from ..status import BAD_INPUT, DONE, Status
from .inputs import Inputs
from .packing import left_out, pack

if TYPE_CHECKING:
    from .command import Words


def run(words: Words) -> Status:
    catalogue, inputs = Catalogue(words.folder), Inputs(words.folder)
    found = catalogue.findings + inputs.findings(catalogue) + over_the_limit(inputs.sizes(), said=catalogue.max_bytes)
    faults = [finding for finding in found if not finding.warns]
    if faults:
        raise Failure(BAD_INPUT, *faults)
    warn(f"whview folder: {path} is no part of a bundle" for path in left_out(words.folder))
    try:
        bundle = pack(words.folder)
    except ValueError as error:
        told = f"several files of changes of one view cannot be added up: {error}; `whview folder lint {words.folder}` tells where"
        raise Failure(BAD_INPUT, told) from error
    judge([bundle], catalogue.max_bytes)
    sys.stdout.buffer.write(bundle)
    return DONE
