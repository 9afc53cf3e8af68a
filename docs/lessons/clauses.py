"""Clauses of the contract and definitions, as the sources have them, with what docs/PROVED.md says of a clause."""

from __future__ import annotations

import re
from dataclasses import dataclass
from pathlib import Path

TOP = Path(__file__).resolve().parents[2]


@dataclass(frozen=True)
class Row:
    """A clause that a table of docs/PROVED.md names: the file that has it, below crates/, of which function or
    type it is, its name, and what is said of it."""

    path: str
    of: str
    name: str
    says: str

    @property
    def crate(self) -> str:
        return self.path.partition("/")[0]


def ledger() -> list[Row]:
    """The clauses that the tables of docs/PROVED.md name. The head of such a table begins with Clause or Law, and
    may name the file and the function of all its rows; else a row has its file."""
    found: list[Row] = []
    for table in re.findall(r"(?:^\|.*\n)+", (TOP / "docs" / "PROVED.md").read_text(), re.MULTILINE):
        head, _, *lines = (_cells(line) for line in table.splitlines())
        if re.match(r"(Clause|Law)\b", head[0]):
            for line in lines:
                found += _rows(head[0], line)
    return found


def _cells(line: str) -> list[str]:
    return [cell.strip() for cell in line.strip().strip("|").split(" | ")]


def _rows(head: str, cells: list[str]) -> list[Row]:
    """The clauses of a row, each with the function or type that is named before it, there or in the table's head."""
    paths = re.findall(r"`(\w+/src/[\w/]+\.rt)`", f"{cells[1]} {head}")
    of = ([""] + re.findall(r"`(\w+)`", head))[-1]
    rows = []
    for named in re.findall(r"`([\w:]+)`", cells[0]):
        *owners, name = named.split("::")
        of = owners[-1] if owners else of
        rows.append(Row(paths[0] if paths else "", of, name, cells[-1]))
    return rows


def clause(crate: str, call: str, name: str) -> str:
    """The clause of this name in a crate's function: the ledger's words, where it stands, and its text. Raises
    a `LookupError` where the ledger or the crate lacks it."""
    path, text = _found(
        crate, "src/**/*.rt", rf"\n( *)pub fn {call}\b[^{{}}]*?(?=\n\1?\{{|\n *(?:requires|ensures) )"
    )
    start = text.find(f"ensures {name} {{", text.index(f"pub fn {call}"))
    if start < 0:
        raise LookupError(f"{path}: {call} has no clause {name}")
    end = _closing(text, text.index("{", start))
    indent = len(text[:start].rpartition("\n")[2])
    lines = text[start:end].replace("\n" + " " * indent, "\n")
    return f"docs/PROVED.md: {_told(crate, call, name)}\n\n{path}, fn {call}:\n{lines}"


def definition(crate: str, name: str) -> str:
    """The definition of this name in a crate's specs/: where it stands, and its text with the comment before it.
    Raises a `LookupError` where there is none."""
    path, text = _found(crate, "specs/*.antt", rf"\n(?:\w+ )*pub (?:record )?{name}\b")
    match = re.search(rf"(?:\n--[^\n]*)*\n(?:\w+ )*pub (?:record )?{name}\b.*?(?=\n\n|\Z)", text, re.DOTALL)
    assert match is not None
    return f"{path}:\n{match[0].strip()}"


def _found(crate: str, files: str, pattern: str) -> tuple[Path, str]:
    """The first file of a crate that has a pattern, by its path from the top, and its text."""
    for file in sorted((TOP / "crates" / crate).glob(files)):
        text = file.read_text()
        if re.search(pattern, text):
            return file.relative_to(TOP), text
    raise LookupError(f"{crate} has no such function or definition: {pattern}")


def _closing(text: str, opening: int) -> int:
    """The place after the brace that closes one."""
    depth = 0
    for at in range(opening, len(text)):
        depth += (text[at] == "{") - (text[at] == "}")
        if depth == 0:
            return at + 1
    raise LookupError("a brace is not closed")


def _told(crate: str, call: str, name: str) -> str:
    """What the ledger says of a clause of a crate's function."""
    for row in ledger():
        if (row.crate, row.of, row.name) == (crate, call, name):
            return row.says
    raise LookupError(f"docs/PROVED.md, {crate}: nothing is said of {name} of {call}")
