"""What tests of several files are given."""

import tempfile
from collections.abc import Callable, Iterator
from pathlib import Path

import pytest


@pytest.fixture
def script(tmp_path: Path) -> Callable[..., Path]:
    """Writes a shell script that stands in a program's place."""

    def written(text: str, file: Path | None = None) -> Path:
        file = file or tmp_path / "program"
        file.write_text(f"#!/bin/sh\n{text}\n")
        file.chmod(0o755)
        return file

    return written


@pytest.fixture
def tmp_path() -> Iterator[Path]:
    """A folder of the test's own, which is gone after it, and which other users may be let into."""
    with tempfile.TemporaryDirectory() as room:
        yield Path(room)
