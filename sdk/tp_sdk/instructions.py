"""Which instructions a machine has, and of words that are none which extension of RISC-V has them."""

from __future__ import annotations

from collections.abc import Iterator
from dataclasses import dataclass
from typing import Any

# What a machine's instructions are, by the compiler's name: with the key `muldiv` those of M, too.
RV32I, RV32IM = "rv32i", "rv32im"

# The extensions whose instructions the machine has, by their names in an ELF file's attributes:
# of the counters' reads it has those of Zicsr that Zicntr needs.
_HAD = ("i", "zicsr", "zicntr", "zifencei")
_PRODUCTS = ("m", "zmmul")

_MULTIPLIES = ("mul", "mulh", "mulhsu", "mulhu", "div", "divu", "rem", "remu")
_ATOMICS = {
    0: "amoadd.w",
    1: "amoswap.w",
    2: "lr.w",
    3: "sc.w",
    4: "amoxor.w",
    8: "amoor.w",
    12: "amoand.w",
    16: "amomin.w",
    20: "amomax.w",
    24: "amominu.w",
    28: "amomaxu.w",
}
_OP, _AMO, _SYSTEM, _FENCES = 0x33, 0x2F, 0x73, 0x0F
_FLOATS = {
    0x07: "a floating-point load",
    0x27: "a floating-point store",
    0x43: "fmadd",
    0x47: "fmsub",
    0x4B: "fnmsub",
    0x4F: "fnmadd",
    0x53: "a floating-point operation",
}


@dataclass(frozen=True)
class Lacking:
    """An instruction that the machine lacks, and the extension that has it."""

    name: str
    extension: str

    def __str__(self) -> str:
        return f"{self.name}, of the extension {self.extension}, which the machine lacks"


def arch_of(machine: dict[str, Any]) -> str:
    """What the instructions are of a machine with these keys."""
    return RV32IM if "muldiv" in machine else RV32I


def advice(arch: str, is_product: bool = False) -> str:
    """What to do about a program for another machine; one with products has two ways."""
    other = ", or give the machine `muldiv`" if is_product else ""
    return f"compile it with -march={arch} -mabi=ilp32{other}"


def lacking(word: int, arch: str = RV32I) -> Lacking | None:
    """The instruction of an extension that a word is; none where it is another word, or the machine's."""
    opcode, step, high = word & 0x7F, word >> 12 & 7, word >> 25
    if opcode == _OP and high == 1 and arch != RV32IM:
        return Lacking(_MULTIPLIES[step], "M")
    if opcode == _AMO and step == 2 and high >> 2 in _ATOMICS:
        return Lacking(_ATOMICS[high >> 2], "A")
    if opcode in _FLOATS:
        return Lacking(_FLOATS[opcode], "F or D")
    return None


def about(word: int) -> str | None:
    """What a word is that stopped a domain as no instruction, where that can be told."""
    it = lacking(word)
    if it is not None:
        return f"{it}: {advice(RV32I, it.extension == 'M')}"
    if word == 0:
        return "zeros: nothing was loaded there, as past the end of the program's text"
    if word & 3 != 3:
        return f"its low bits are those of a compressed instruction: {advice(RV32I)}, or data was run"
    if word & 0x7F == _SYSTEM and word >> 12 & 3:
        return f"an access of the CSR {word >> 20:#05x}: counters alone are there, to be read and not written"
    if word & 0x7F == _FENCES and word >> 12 & 7 == 1:
        return "fence.i: program text is loaded once, and the machine has no such instruction"
    return None


def beyond(named: str, arch: str = RV32I) -> list[str]:
    """The extensions in an architecture's name, as `rv32i2p1_m2p0`, that the machine lacks."""
    had = (*_HAD, *_PRODUCTS) if arch == RV32IM else _HAD
    return [name for name in _extensions(named) if name not in had]


def are_products(extensions: list[str]) -> bool:
    """The key `muldiv` gives all of these extensions."""
    return all(name in _PRODUCTS for name in extensions)


def _extensions(arch: str) -> Iterator[str]:
    for part in arch.lower().removeprefix("rv32").removeprefix("rv64").split("_"):
        name = part
        version = part.rstrip("0123456789")
        if version != part and version.endswith("p"):
            name = version[:-1].rstrip("0123456789")
        if name.startswith(("z", "s", "x")):
            yield name
        else:
            yield from name
