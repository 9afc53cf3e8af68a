"""ELF files made byte by byte, so that each fault of one can be tried without a compiler."""

from __future__ import annotations

import struct
from dataclasses import dataclass, field

HEADER, PROGRAM_HEADER = 52, 32
RISCV, EXEC, DYN = 243, 2, 3
LOAD = 1
R, W, X = 4, 2, 1


@dataclass
class Load:
    """A program header, with the bytes that it loads."""

    address: int
    flags: int
    data: bytes = b""
    zeros: int = 0
    kind: int = LOAD


@dataclass
class Elf:
    """An ELF file without sections."""

    loads: list[Load] = field(default_factory=list)
    entry: int = 0x10000
    machine: int = RISCV
    kind: int = EXEC
    flags: int = 0
    bits: int = 1
    order: int = 1

    def encode(self) -> bytes:
        start = HEADER + PROGRAM_HEADER * len(self.loads)
        headers = body = b""
        for load in self.loads:
            size = len(load.data)
            where = (load.kind, start + len(body), load.address, load.address, size, size + load.zeros)
            headers += struct.pack("<8I", *where, load.flags, 4096)
            body += load.data
        name = b"\x7fELF" + bytes([self.bits, self.order, 1]) + bytes(9)
        fields = (self.kind, self.machine, 1, self.entry, HEADER, 0, self.flags)
        counts = (HEADER, PROGRAM_HEADER, len(self.loads), 40, 0, 0)
        return name + struct.pack("<2H5I6H", *fields, *counts) + headers + body
