"""`lint`: all that is wrong in a folder, a line each, warnings too; of what kind its shape is; and last, where nothing is wrong, that."""

from __future__ import annotations

from typing import TYPE_CHECKING

from ..catalogue.nulls import null_findings
from ..finding import Finding, warn
from ..limits import after, sizes_after
from ..status import BAD_INPUT, DONE, Status
from ..strategy.kinds import shape_of, told, why
from .folder import Folder
from .given_sizes import GivenSizes
from .strategy import FILE, Strategy
from .versions import strays

if TYPE_CHECKING:
    from .command import Words


def strategy_findings(folder: Folder) -> list[Finding]:
    """What is wrong with strategy.txt, where there is one and the catalogue has no fault."""
    file = folder.path / FILE
    if not file.is_file() or any(not finding.warns for finding in folder.catalogue.findings):
        return []
    strategy = Strategy(file.read_bytes().decode(errors="replace"), folder.views)
    return strategy.findings or list(filter(None, [strategy.broken()]))


def all_is_well(folder: Folder, warnings: int) -> str:
    """That nothing is wrong, and what was looked at."""
    but, changes = f" but for {warnings} warning{'s' * (warnings > 1)} above" * bool(warnings), folder.changes.values()
    rows = sum(abs(count) for records in changes for count in records.rows.values())
    tables = f"{len(folder.bases)} of them tables of {sum(records.total for records in folder.data.values())} rows in all"
    return f"nothing is wrong{but}: {len(folder.views)} views, {tables}; {rows} rows change in the next night"


def run(words: Words) -> Status:
    folder = Folder(words.folder, lenient=words.lenient)
    if not any(not finding.warns for finding in folder.catalogue.findings):
        folder.findings += null_findings(folder.catalogue)
    findings = folder.findings + strategy_findings(folder) + GivenSizes(folder.path, folder.views).findings
    findings += after(sizes_after(folder), folder.catalogue.max_bytes) + strays(words.folder)
    if folder.catalogue.tests and not folder.faults:
        # What only some catalogues have is imported where it is needed.
        from .tested import of_folder

        findings += of_folder(folder)
    warn(sorted(findings))
    if not any(not finding.warns for finding in folder.catalogue.findings):
        shape = shape_of(folder.views)
        print("\n    ".join([told(shape), *why(shape, [view.name for view in folder.views])]))
    if not all(finding.warns for finding in findings):
        return BAD_INPUT
    print(all_is_well(folder, len(findings)))
    return DONE
