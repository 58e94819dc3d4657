"""What a trial knows of an application of the distribution."""

from dataclasses import dataclass


@dataclass(frozen=True)
class Application:
    """An application of the distribution: its package and where its schema is in it, the views that its operators write, its first rows, and what each day changes."""

    package: str
    file: str
    views: dict
    first: str
    days: dict
