"""The parts of a program that its ELF file says to load."""

from __future__ import annotations

import io
from collections.abc import Iterator
from dataclasses import dataclass
from pathlib import Path
from typing import TYPE_CHECKING

from tp_sdk.faults import Fault, MissingLibrary, read_bytes
from tp_sdk.instructions import RV32I, advice, are_products, beyond, lacking
from tp_sdk.keys import KEY_ROWS, PAGE, RIGHTS, Within
from tp_sdk.spelling import did_you_mean
from tp_sdk.symbols import SectionPart, Symbol, Symbols

# (loaded as an ELF file is: an image has none)
if TYPE_CHECKING:
    from elftools.elf.elffile import ELFFile
    from elftools.elf.sections import Section
    from elftools.elf.segments import Segment as ElfSegment

_COMPRESSED, _FLOATS = 0x1, 0x6
_IS_LOADED, _IS_RUN = 0x2, 0x4
_RIGHTS_BITS = (("r", 4), ("w", 2), ("x", 1))
_ATTRIBUTES = ".riscv.attributes"


def _range_of(key: str) -> Within:
    kind = next(row.kind for row in KEY_ROWS if row.key == key)
    assert isinstance(kind, Within)
    return kind


PAGES = _range_of("pages")


@dataclass
class Segment:
    """Pages with their rights and first bytes; the rest of them is zero."""

    name: str
    page: int
    pages: int
    rights: str
    data: bytearray

    @property
    def start(self) -> int:
        """The address of its first byte."""
        return self.page * PAGE

    @property
    def end(self) -> int:
        """The address after its last byte."""
        return (self.page + self.pages) * PAGE

    def put(self, address: int, data: bytes) -> None:
        """Writes bytes that lie in it."""
        at = address - self.start
        if len(self.data) < at + len(data):
            self.data.extend(bytes(at + len(data) - len(self.data)))
        self.data[at : at + len(data)] = data


@dataclass
class Loaded:
    """A program: its segments, its entry, its symbols."""

    file: Path
    entry: int
    segments: list[Segment]
    symbols: Symbols

    def symbol(self, name: str) -> Symbol:
        """A symbol by its name."""
        found = self.symbols.by_name.get(name)
        if found is None:
            meant = did_you_mean(name, self.symbols.by_name)
            raise Fault(f"{self.file}: there is no symbol '{name}'{meant}")
        return found


def load_elf(file: Path, arch: str = RV32I) -> Loaded:
    """Reads an ELF file for a machine with these instructions, with fixed addresses."""
    data = read_bytes(file)
    try:
        from elftools.elf.elffile import ELFFile
    except ImportError:
        raise MissingLibrary("pyelftools", "elftools") from None
    try:
        elf = ELFFile(io.BytesIO(data))
        _refuse_others(elf, file, arch)
        symbols = Symbols(data, _symbols(elf), _sections(elf))
        _refuse_extensions(elf, file, symbols, arch)
        segments = [
            _segment(elf, number, header, file)
            for number, header in enumerate(elf.iter_segments())
            if header["p_type"] == "PT_LOAD" and header["p_memsz"] > 0
        ]
    except Fault:
        raise
    # (a broken file leads the library to other errors than its own, too)
    except Exception as error:
        raise Fault(f"{file}: no ELF file ({error})") from None
    if not segments:
        raise Fault(f"{file}: nothing to load: it has no program header PT_LOAD with bytes")
    return Loaded(file, elf["e_entry"], segments, symbols)


def _symbols(elf: ELFFile) -> list[Symbol]:
    from elftools.elf.sections import SymbolTableSection

    return [
        Symbol(symbol.name, symbol["st_value"], symbol["st_size"], symbol["st_shndx"])
        for table in elf.iter_sections()
        if isinstance(table, SymbolTableSection)
        for symbol in table.iter_symbols()
        if symbol.name
        and symbol["st_shndx"] != "SHN_UNDEF"
        and symbol["st_info"]["type"] not in ("STT_FILE", "STT_SECTION")
    ]


def _sections(elf: ELFFile) -> list[SectionPart]:
    return [
        SectionPart(number, it.name, it["sh_addr"], it["sh_addr"] + it["sh_size"])
        for number, it in enumerate(elf.iter_sections())
        if it["sh_flags"] & _IS_LOADED and it["sh_size"] > 0
    ]


def _refuse_others(elf: ELFFile, file: Path, arch: str) -> None:
    """Refuses what another machine runs."""
    machine, kind, flags = elf["e_machine"], elf["e_type"], elf["e_flags"]
    wrong = None
    if machine != "EM_RISCV":
        wrong = f"for another machine: e_machine is {machine}, not EM_RISCV"
    elif elf.elfclass != 32:
        wrong = f"for RV{elf.elfclass}: {advice(arch)}"
    elif not elf.little_endian:
        wrong = "big-endian, and the machine is little-endian"
    elif flags & _COMPRESSED:
        wrong = f"with compressed instructions: {advice(arch)}"
    elif flags & _FLOATS:
        wrong = f"for a machine with floating point: {advice(arch)}"
    elif kind != "ET_EXEC":
        wrong = f"of type {kind}, not ET_EXEC: link it, and to fixed addresses (-static, not -pie)"
    if wrong is not None:
        raise Fault(f"{file}: {wrong}")


def _refuse_extensions(elf: ELFFile, file: Path, symbols: Symbols, arch: str) -> None:
    """Refuses a program with instructions that the machine lacks, or that was compiled with leave
    to have some."""
    for start, data in _texts(elf):
        for at in range(0, len(data) - 3, 4):
            instruction = lacking(int.from_bytes(data[at : at + 4], "little"), arch)
            if instruction is not None and symbols.is_text(start + at):
                place = symbols.place(start + at)
                told = advice(arch, instruction.extension == "M")
                raise Fault(f"{file}: {place} is {instruction}: {told}")
    its_arch = _arch(elf)
    others = beyond(its_arch, arch)
    if others:
        named = ", ".join(name.upper() if len(name) == 1 else name.capitalize() for name in others)
        told = advice(arch, are_products(others))
        raise Fault(f"{file}: for {its_arch}, and the machine lacks {named}: {told}")


def _texts(elf: ELFFile) -> Iterator[tuple[int, bytes]]:
    """What may be run: sections, or program headers where the file has no sections."""
    sections = [it for it in elf.iter_sections() if it["sh_flags"] & _IS_LOADED]
    if sections:
        for section in sections:
            if section["sh_flags"] & _IS_RUN and section["sh_type"] != "SHT_NOBITS":
                yield section["sh_addr"], section.data()
    else:
        for header in elf.iter_segments():
            if header["p_type"] == "PT_LOAD" and header["p_flags"] & 1:
                yield header["p_vaddr"], header.data()


def _arch(elf: ELFFile) -> str:
    """The architecture that the file's attributes name, as 'rv32i2p1'; nothing where they name none."""
    section: Section | None = elf.get_section_by_name(_ATTRIBUTES)
    if section is None:
        return ""
    # (the one text in it that begins so; what else it has are small numbers and the vendor's name)
    for text in section.data().split(b"\0"):
        at = text.find(b"rv32")
        if at >= 0:
            return str(text[at:].decode("ascii", errors="replace"))
    return ""


def _segment(elf: ELFFile, number: int, header: ElfSegment, file: Path) -> Segment:
    start, size = header["p_vaddr"], header["p_memsz"]
    names = [
        section.name
        for section in elf.iter_sections()
        if section["sh_flags"] & _IS_LOADED and start <= section["sh_addr"] < start + size
    ]
    name = names[0].removeprefix(".") if names else f"load{number}"
    place = f"{', '.join(names) or 'no section'}, {start:#x} to {start + size:#x}"
    where = f"{file}: program header {number} ({place})"
    page = start // PAGE
    pages = -(-(start + size) // PAGE) - page
    if pages > PAGES.high:
        raise Fault(f"{where}: it takes {pages} pages, and a segment has {PAGES.high} at most")
    flags = header["p_flags"]
    rights = "".join(letter for letter, bit in _RIGHTS_BITS if flags & bit)
    if rights not in RIGHTS:
        raise Fault(f"{where}: its rights are '{rights}', and must be one of {', '.join(RIGHTS)}")
    data = header.data()
    if len(data) < header["p_filesz"]:
        raise Fault(f"{where}: the file ends before its {header['p_filesz']} bytes do")
    return Segment(name, page, pages, rights, bytearray(bytes(start % PAGE) + data))
