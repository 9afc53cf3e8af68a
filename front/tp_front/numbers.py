"""Numbers by their names that are kept in a file of the user's, the newest last."""

from __future__ import annotations

import json
import os
from dataclasses import dataclass

from tp_front.places import cache


@dataclass(frozen=True)
class Numbers:
    """A file in the user's cache, with so many numbers at most."""

    name: str
    most: int

    def all(self) -> dict[str, float]:
        """What is kept."""
        try:
            found = json.loads((cache() / self.name).read_text())
            return {str(name): float(number) for name, number in found.items()}
        except (OSError, ValueError, AttributeError, TypeError):
            return {}

    def keep(self, new: dict[str, float]) -> None:
        """Keeps these, and the newest of the others; where the file can't be written, none."""
        numbers = {name: number for name, number in self.all().items() if name not in new} | new
        file = cache() / self.name
        beside = file.with_suffix(f".{os.getpid()}")
        try:
            file.parent.mkdir(parents=True, exist_ok=True)
            beside.write_text(json.dumps(dict(list(numbers.items())[-self.most :]), indent=1) + "\n")
            beside.replace(file)
        except OSError:
            pass
