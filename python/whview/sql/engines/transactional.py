"""Engines that carry a night out in one transaction, over tables of one's own."""

from __future__ import annotations

from abc import abstractmethod
from argparse import Namespace
from typing import Any, ClassVar

from ..catalogue import Catalogue
from ..engine import Engine
from ..night import Night, Parts, Script
from ..tokens import Unfit
from .entry import EngineEntry


class Transactional(EngineEntry):
    """Such an engine, of a dialect."""

    dialect: ClassVar[type[Engine]]

    @abstractmethod
    def parts(self) -> Parts[Any]: ...

    def script(self, catalogue: Catalogue, words: Namespace) -> Script:
        if words.shard or words.cluster:
            raise Unfit("--shard and --cluster go with --engine clickhouse")
        night = Night(catalogue, frozenset(plain_views(catalogue, words)), keyed_views(catalogue, words.keyed))
        return self.parts().script(night, self.dialect(words.schema))

    def failing(self, told: str) -> list[str]:
        dialect = self.dialect()
        return dialect.head + dialect.written(dialect.failing(told))


def base_views(catalogue: Catalogue, listed: str) -> list[int]:
    """The numbers of the base views in a list of names, of which `*` stands for all."""
    base = {view.name: v for v, view in enumerate(catalogue.views) if not view.over}
    names = list(base) if listed == "*" else [name for name in listed.split(",") if name]
    for name in names:
        if name not in base:
            raise Unfit(f"{name} is no base view")
    return [base[name] for name in names]


def keyed_views(catalogue: Catalogue, listed: str) -> dict[int, list[int]]:
    """The places of the keys that are said, of each base view its columns: products=product,lines=id+product."""
    found: dict[int, list[int]] = {}
    for each in filter(None, listed.split(",")):
        said, _, key = each.partition("=")
        (v,) = base_views(catalogue, said)
        names = [column for column, _ in catalogue.views[v].columns]
        if unknown := [column for column in key.split("+") if column not in names]:
            raise Unfit(f"--keyed: {said} has no column {unknown[0] or '(none is named)'}; it has {', '.join(names)}")
        found[v] = [names.index(column) for column in dict.fromkeys(key.split("+"))]
    return found


def plain_views(catalogue: Catalogue, words: Namespace) -> list[int]:
    """The numbers of the base views that have no column of counts."""
    counted = base_views(catalogue, words.counted)
    return [v for v in base_views(catalogue, words.plain) if v not in counted]
