"""ClickHouse: nights are statements over slots, which `whview cluster` carries out."""

from __future__ import annotations

from argparse import Namespace

from ..catalogue import Catalogue
from ..clickhouse import ClickHouse
from ..slots import Slots, split_of
from ..tokens import Unfit
from .entry import EngineEntry


class ClickHouseEntry(EngineEntry):
    """ClickHouse, as the commands have it."""

    name, said = ClickHouse.engine, "ClickHouse"

    def script(self, catalogue: Catalogue, words: Namespace) -> Slots:
        if words.plain or words.counted or words.keyed:
            raise Unfit("with --engine clickhouse each row has its count: there is no --plain, --counted and --keyed")
        split = split_of(catalogue, words.shard)
        return Slots(catalogue, ClickHouse(words.schema, words.cluster or words.schema or ClickHouse.own_schema), split, servers=2 if split else 1)

    def failing(self, told: str) -> list[str]:
        """Nothing: `whview cluster` goes by the status."""
        return []
