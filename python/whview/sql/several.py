"""Several warehouses in a folder, over the same tables: each is a catalogue that the program takes, and scripts go by all of them as by one."""

from __future__ import annotations

import json
import tomllib
from collections.abc import Iterable, Mapping
from pathlib import Path
from typing import Any

from .tokens import Unfit

# Each of them has a folder of this name and a number, from 1.
WAREHOUSE, CATALOGUE = "warehouse_", "catalogue.toml"


def folders(place: Path) -> list[Path]:
    """The folders of several warehouses in their order, or none where a folder is one by itself."""
    if not place.is_dir() or (place / CATALOGUE).exists():
        return []
    found = [each for each in place.glob(f"{WAREHOUSE}*") if each.name.removeprefix(WAREHOUSE).isdecimal() and (each / CATALOGUE).is_file()]
    return sorted(found, key=lambda each: int(each.name.removeprefix(WAREHOUSE)))


def toml(value: object) -> str:
    """A value as TOML writes it."""
    if isinstance(value, dict):
        return "{ " + ", ".join(f"{key} = {toml(each)}" for key, each in value.items()) + " }"
    if isinstance(value, list):
        return "[" + ", ".join(map(toml, value)) + "]"
    if isinstance(value, bool):
        return str(value).lower()
    return json.dumps(value, ensure_ascii=False) if isinstance(value, str) else str(value)


def together(one: Mapping[str, Any], other: Mapping[str, Any]) -> dict[str, Any]:
    """A view that two warehouses have: a base view has the columns of both, and a derived one is the same in both. One that has no columns beside its key does
    not say which these are."""
    if "over" not in one and "over" not in other:
        return {**other, **one, "columns": list(dict.fromkeys([*one["columns"], *other["columns"]]))}
    if one != other:
        raise Unfit(f"two warehouses of the folder have other views of the name {one['name']}")
    return dict(one)


def merged(contents: Iterable[str]) -> str:
    """The catalogue of all of them: base views, and then derived ones, each once."""
    views: dict[str, dict[str, Any]] = {}
    for content in contents:
        for view in tomllib.loads(content)["view"]:
            views[view["name"]] = together(views[view["name"]], view) if view["name"] in views else view
    ordered = [*(each for each in views.values() if "over" not in each), *(each for each in views.values() if "over" in each)]
    return "\n".join(line for view in ordered for line in ("[[view]]", *(f"{key} = {toml(value)}" for key, value in view.items()), ""))


def judge_one(place: str | Path, what: str) -> None:
    """Refuses what goes with one warehouse alone."""
    if many := len(folders(Path(place))):
        raise Unfit(f"{what} is of one warehouse, and {place} has {many}: their nights go view by view, by `whview sql night`")
