"""What the front wants of an image: names, harts, and how many cycles a run is."""

from __future__ import annotations

import os
import stat
import tomllib
from dataclasses import dataclass
from typing import Any

MOST_BYTES = 1_048_576
_STANDARD_INPUT = 0


@dataclass(frozen=True)
class Image:
    """An image as its text says it; which rules it breaks is the program's to say."""

    keys: dict[str, Any]

    @classmethod
    def read(cls, text: bytes) -> Image | None:
        """The image of a text, if it is TOML."""
        try:
            return cls(tomllib.loads(text.decode()))
        except (tomllib.TOMLDecodeError, UnicodeDecodeError):
            return None

    def names(self) -> list[str]:
        """The domains' names, in the order of their numbers."""
        return [str(domain.get("name")) for domain in self._tables("domain")]

    def harts(self) -> int:
        """How many harts its schedule names."""
        return 1 + max((_whole(entry.get("hart")) for entry in self._tables("schedule")), default=0)

    def cycles(self, slots: int) -> int:
        """The cycles of so many slots of each hart, with their pads, of all harts together."""
        total = 0
        for hart in range(self.harts()):
            own = [entry for entry in self._tables("schedule") if _whole(entry.get("hart")) == hart]
            spans = [_whole(entry.get("length")) + _whole(entry.get("pad")) for entry in own]
            if spans:
                rounds, rest = divmod(slots, len(spans))
                total += rounds * sum(spans) + sum(spans[:rest])
        return total

    def _tables(self, key: str) -> list[dict[str, Any]]:
        rows = self.keys.get(key, [])
        return [row for row in rows if isinstance(row, dict)] if isinstance(rows, list) else []


def _whole(value: object) -> int:
    return value if isinstance(value, int) and 0 <= value <= 1 << 32 else 0


def on_standard_input() -> bytes | None:
    """The text of the image, where standard input is a file, also one that was read already."""
    try:
        if not stat.S_ISREG(os.fstat(_STANDARD_INPUT).st_mode):
            return None
        return os.pread(_STANDARD_INPUT, MOST_BYTES + 1, 0)
    except OSError:
        return None


def read_all() -> bytes:
    """The text of the image on standard input, or one byte more than an image may have."""
    with open(_STANDARD_INPUT, "rb", closefd=False) as it:
        return it.read(MOST_BYTES + 1)
