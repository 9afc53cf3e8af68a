"""Addresses of a program as its symbols and its source's lines."""

from __future__ import annotations

import bisect
import io
from collections.abc import Iterator
from dataclasses import dataclass, field
from functools import cached_property
from pathlib import PurePosixPath
from typing import Any

_REACH = 0x10000  # how far a symbol without a size reaches
_SYMBOLS_LOOKED_AT = 8


@dataclass(frozen=True)
class Symbol:
    """A symbol; its section is a number, or a word for none."""

    name: str
    address: int
    size: int
    section: int | str


@dataclass(frozen=True)
class SectionPart:
    """A section that is loaded: its number, by which symbols name it, and its addresses."""

    number: int
    name: str
    start: int
    end: int


def is_of_mapping(name: str) -> bool:
    """`$x` and `$d` are no places of a program: they say where text and data begin."""
    return name.startswith("$")


@dataclass(frozen=True)
class Line:
    """A line of a source file."""

    file: str
    line: int

    def __str__(self) -> str:
        return f"{self.file}:{self.line}"


@dataclass(frozen=True)
class Place:
    """An address in words: `main+0x8 (mine.c:12)`. Where the line is of a function that was
    compiled into another, `calls` has the lines that lead to it, the innermost first."""

    address: int
    symbol: str | None = None
    offset: int = 0
    line: Line | None = None
    calls: tuple[Line, ...] = ()

    def __str__(self) -> str:
        name = f" {self.name}" if self.symbol is not None else ""
        calls = "".join(f", from {call}" for call in self.calls)
        line = f" ({self.line}{calls})" if self.line is not None else ""
        return f"{self.address:#x}{name}{line}"

    @property
    def name(self) -> str:
        """The symbol, and how far the address is past it."""
        return f"`{self.symbol}{f'+{self.offset:#x}' if self.offset else ''}`"


@dataclass
class Symbols:
    """The symbols of an ELF file, which has its bytes, and its sections; none where there are none."""

    elf: bytes = b""
    symbols: list[Symbol] = field(default_factory=list)
    sections: list[SectionPart] = field(default_factory=list)

    def __post_init__(self) -> None:
        self.by_name = {it.name: it for it in self.symbols if not is_of_mapping(it.name)}
        named = [it for it in self.by_name.values() if isinstance(it.section, int)]
        self._ascending = sorted(named, key=lambda it: it.address)
        self._addresses = [it.address for it in self._ascending]
        marks = [it for it in self.symbols if it.name.startswith(("$x", "$d"))]
        self._marks = sorted((it.address, it.name[1] == "x") for it in marks)

    def is_text(self, address: int) -> bool:
        """No mapping symbol says that data stands there."""
        at = bisect.bisect_right(self._marks, (address, True))
        return at == 0 or self._marks[at - 1][1]

    def place(self, address: int) -> Place:
        """An address as its symbol and its source's line."""
        symbol = self._at(address)
        line, calls = self._lines.at(address) if self._lines is not None else (None, ())
        if symbol is None:
            return Place(address, line=line, calls=calls)
        return Place(address, symbol.name, address - symbol.address, line, calls)

    def section(self, address: int) -> SectionPart | None:
        """The section in which an address lies."""
        return next((it for it in self.sections if it.start <= address < it.end), None)

    def _at(self, address: int) -> Symbol | None:
        """The last symbol that isn't past the address, and that reaches it: no text reaches data."""
        at = bisect.bisect_right(self._addresses, address)
        section = self.section(address)
        for symbol in reversed(self._ascending[max(0, at - _SYMBOLS_LOOKED_AT) : at]):
            is_there = section is None or symbol.section == section.number
            if is_there and address < symbol.address + (symbol.size or _REACH):
                return symbol
        return None

    @cached_property
    def _lines(self) -> _SourceLines | None:
        try:
            return _SourceLines(self.elf) if self.elf else None
        # (what is wrong in a file's notes for debuggers is no fault of the program)
        except Exception:
            return None


class _SourceLines:
    """What an ELF file's notes for debuggers (DWARF) say of addresses."""

    def __init__(self, elf: bytes) -> None:
        from elftools.elf.elffile import ELFFile

        file = ELFFile(io.BytesIO(elf))
        if not file.has_dwarf_info():
            raise ValueError("no notes for debuggers")
        self.dwarf = file.get_dwarf_info()
        self.rows: list[tuple[int, int, Line]] = []
        for unit in self.dwarf.iter_CUs():
            self.rows.extend(_rows(self.dwarf, unit))

    def at(self, address: int) -> tuple[Line | None, tuple[Line, ...]]:
        """The line of an address, and those of the calls that were compiled into its function."""
        line = next((line for start, end, line in self.rows if start <= address < end), None)
        return line, tuple(self._calls(address))

    def _calls(self, address: int) -> Iterator[Line]:
        calls = []
        for unit in self.dwarf.iter_CUs():
            for die in unit.iter_DIEs():
                if die.tag == "DW_TAG_inlined_subroutine" and self._covers(die, address):
                    call = _call(self.dwarf, unit, die)
                    if call is not None:
                        calls.append(call)
        # (an outer one comes before those in it)
        return reversed(calls)

    def _covers(self, die: Any, address: int) -> bool:
        attributes = die.attributes
        if "DW_AT_ranges" in attributes:
            return any(start <= address < end for start, end in self._ranges(die))
        if "DW_AT_low_pc" not in attributes or "DW_AT_high_pc" not in attributes:
            return False
        low, high = attributes["DW_AT_low_pc"].value, attributes["DW_AT_high_pc"]
        end = high.value if high.form == "DW_FORM_addr" else low + high.value
        return bool(low <= address < end)

    def _ranges(self, die: Any) -> Iterator[tuple[int, int]]:
        lists = self.dwarf.range_lists()
        base = die.cu.get_top_DIE().attributes.get("DW_AT_low_pc")
        base = base.value if base is not None else 0
        for entry in lists.get_range_list_at_offset(die.attributes["DW_AT_ranges"].value, die.cu):
            if hasattr(entry, "base_address"):
                base = entry.base_address
            elif getattr(entry, "is_absolute", False):
                yield entry.begin_offset, entry.end_offset
            else:
                yield base + entry.begin_offset, base + entry.end_offset


def _rows(dwarf: Any, unit: Any) -> Iterator[tuple[int, int, Line]]:
    """Parts of the text with their lines."""
    program = dwarf.line_program_for_CU(unit)
    if program is None:
        return
    last = None
    for entry in program.get_entries():
        state = entry.state
        if state is None:
            continue
        if last is not None and last.address < state.address and last.line:
            yield last.address, state.address, Line(_file(program, last.file), last.line)
        last = None if state.end_sequence else state


def _file(program: Any, number: int) -> str:
    """The name of a file: from the fifth version on they are numbered from 0."""
    first = 0 if program.header["version"] >= 5 else 1
    name: bytes = program["file_entry"][number - first].name
    return PurePosixPath(name.decode(errors="replace")).name


def _call(dwarf: Any, unit: Any, die: Any) -> Line | None:
    file, line = die.attributes.get("DW_AT_call_file"), die.attributes.get("DW_AT_call_line")
    program = dwarf.line_program_for_CU(unit)
    if file is None or line is None or program is None:
        return None
    return Line(_file(program, file.value), line.value)
