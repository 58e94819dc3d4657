"""The commands of a page, run as they are written in a folder with the examples, and what the page says that they print."""

import os
import re
import subprocess
import tempfile
from contextlib import contextmanager
from pathlib import Path

from upkeep.words import ROOT

BLOCK = re.compile(r"```(\w*)\n(.*?)```", re.DOTALL)


def blocks_of(page, heading=None):
    """The blocks of a page, or of the section below a heading, by their kinds."""
    text, found = (ROOT / "docs" / page).read_text(), {"sh": [], "cron": [], "text": [], "": []}
    if heading:
        text = text.partition(f"### {heading}")[2].partition("\n### ")[0].partition("\n## ")[0]
    for kind, block in BLOCK.findall(text):
        found.setdefault(kind, []).append(block)
    return found


@contextmanager
def examples_in_folder():
    with tempfile.TemporaryDirectory() as folder:
        (Path(folder) / "examples").symlink_to(ROOT / "examples")
        yield Path(folder)


def run(commands, folder, server=None, **surroundings):
    """What commands print and say, with a PostgreSQL server at hand, or without."""
    path = f"{ROOT}:{server.programs if server else ROOT}:{os.environ['PATH']}"
    more = {"PGHOST": str(server.folder), "PGUSER": "postgres"} if server else {}
    words = ["bash", "-e", "-o", "pipefail", "-c", commands]
    return subprocess.run(words, cwd=folder, capture_output=True, text=True, env={**os.environ, "PATH": path, **more, **surroundings}, check=False)
