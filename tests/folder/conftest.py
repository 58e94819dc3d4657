"""What tests of several files are given: shops, each a copy of the test's own."""

from collections.abc import Callable, Iterator
from pathlib import Path

import pytest

from whview.folder import blocks, reading
from whview.folder.reading import Table

from .serving import Served
from .shop import Shop


@pytest.fixture
def shop(tmp_path: Path) -> Shop:
    return Shop(tmp_path)


@pytest.fixture
def kept(shop: Shop) -> Shop:
    """A shop with a night that was kept."""
    shop.night()
    return shop


@pytest.fixture
def served(tmp_path: Path) -> Iterator[Served]:
    """A shop of two nights that is served."""
    with Served(tmp_path) as served:
        yield served


@pytest.fixture
def table_of(tmp_path: Path, monkeypatch: pytest.MonkeyPatch) -> Callable:
    """A table that has this text, in blocks so small that there are many."""
    for module in (blocks, reading):
        monkeypatch.setattr(module, "BLOCK", 512)

    def table(text: str | bytes) -> Table:
        file = tmp_path / "table.csv"
        file.write_bytes(text if isinstance(text, bytes) else text.encode())
        return Table("table", file, {"number": "int"})

    return table
