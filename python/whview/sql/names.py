"""Names that an engine keeps apart: cut to its length, and told apart where it would take two for one."""

from __future__ import annotations

from collections.abc import Iterable
from typing import Protocol


class Naming(Protocol):
    """How an engine keeps names: how many letters of one at most, and whether small and large ones are the same."""

    limit: int | None
    folds: bool


class Names:
    """Names of one kind, tables or the columns of a table, each the same whenever it is asked for."""

    def __init__(self, dialect: Naming, wanted: Iterable[str], taken: Iterable[str] = ()) -> None:
        self.limit, self.folds, self.taken = dialect.limit, dialect.folds, set(taken)
        self.found: dict[tuple[str, str], str] = {}
        for name in sorted(wanted, key=lambda name: self.limit is not None and len(name) > self.limit):
            self.of(name)

    def of(self, name: str, suffix: str = "") -> str:
        """The name with a suffix that no view has."""
        if (name, suffix) not in self.found:
            self.found[name, suffix] = self.free(name, suffix)
        return self.found[name, suffix]

    def free(self, name: str, suffix: str) -> str:
        """The first of NAME, NAME~2, NAME~3 .. that nothing has."""
        number, mark = 1, ""
        while True:
            end = mark + suffix
            found = (name if self.limit is None else name[: self.limit - len(end)]) + end
            key = found.lower() if self.folds else found
            if key not in self.taken:
                self.taken.add(key)
                return found
            number += 1
            mark = f"~{number}"
