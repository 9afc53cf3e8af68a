"""What the program is made of, and the sums of it."""

from __future__ import annotations

import hashlib
from dataclasses import dataclass
from pathlib import Path

from tp_front.places import TOP

PARTS = ("src", "specs", "proofs")
_HEAD = "crates.txt", "HANDLES"


@dataclass(frozen=True)
class Sources:
    """The crates that the program is made of, each with the sum of its files and of its line in crates.txt."""

    crates: dict[str, str]
    whole: str

    @classmethod
    def read(cls, top: Path = TOP) -> Sources | None:
        """The sources as they stand in a folder, where they are there."""
        if not all((top / name).is_file() for name in _HEAD):
            return None
        lines = _lines((top / "crates.txt").read_text())
        crates = {name: _sum_of(top, name, lines[name]) for name in _needed(lines)}
        whole = hashlib.sha256((top / "HANDLES").read_bytes())
        for name, one in crates.items():
            whole.update(f"{name} {one}\n".encode())
        return cls(crates, whole.hexdigest())


def sum_of_file(path: Path) -> str:
    """The sum of a file's bytes."""
    with path.open("rb") as it:
        return hashlib.file_digest(it, "sha256").hexdigest()


def _lines(text: str) -> dict[str, list[str]]:
    """What each crate stands on."""
    rows = [line.partition("#")[0].partition(":") for line in text.splitlines()]
    return {name.strip(): below.split() for name, colon, below in rows if colon}


def _needed(lines: dict[str, list[str]]) -> list[str]:
    """The program's crate and all of this repository below it, by name."""
    found: set[str] = set()
    left = ["tp"]
    while left:
        name = left.pop()
        if name not in found:
            found.add(name)
            left += [it for it in lines[name] if it in lines]
    return sorted(found)


def _sum_of(top: Path, name: str, below: list[str]) -> str:
    whole = hashlib.sha256(f"{name}: {' '.join(below)}\n".encode())
    folder = top / "crates" / name
    for part in PARTS:
        for path in sorted(it for it in (folder / part).rglob("*") if it.is_file()):
            text = path.read_bytes()
            whole.update(f"{path.relative_to(folder)} {len(text)}\n".encode() + text)
    return whole.hexdigest()
