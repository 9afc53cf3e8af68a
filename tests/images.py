"""Images for the tests of this folder: their text, words of programs, and running the program on them."""

import json
import subprocess
from pathlib import Path
from typing import Any

TOP = Path(__file__).resolve().parent.parent
PROGRAM = TOP / "crates/tp/out/tp"

GUARDS = ("flush", "prefetch", "pad", "colour", "clone", "irq")
# Where each domain's program and data begin, and the page tables' next region.
CODE = 0x10000
DATA = 0x20000
REGION = 0x400000

Image = dict[str, Any]


# ---- the text of an image


def text_of(value: Any) -> str:
    """A value of TOML, in a line."""
    if isinstance(value, bool):
        return "true" if value else "false"
    if isinstance(value, dict):
        return "{ " + ", ".join(f"{key} = {text_of(item)}" for key, item in value.items()) + " }"
    if isinstance(value, list):
        return "[" + ", ".join(map(text_of, value)) + "]"
    return json.dumps(value)


def image_text(image: Image) -> str:
    """The text of an image."""
    return "".join(f"{key} = {text_of(value)}\n" for key, value in image.items())


def cache(sets: int, ways: int, policy: str = "lru", **more: bool) -> dict[str, Any]:
    """A cache of the machine."""
    return {"sets": sets, "ways": ways, "policy": policy, **more}


def machine() -> Image:
    """A machine without optional keys, and no domains yet."""
    costs = dict(base=1, l1=1, l2=8, mem=40, wb=10, tlb=1, mispredict=3, trap=10, flush=20)
    caches = {"l1i": cache(16, 2), "l1d": cache(16, 2), "l2": cache(256, 4), "tlb": cache(4, 2)}
    return {"frames": 64, "shared": 512, "line": 64, **caches, "predictor": 16, "costs": costs}


def domain(name: str, colours: list[int], words: list[int]) -> dict[str, Any]:
    """A domain with a page of program and two of data."""
    program = {"page": CODE >> 12, "pages": 1, "rights": "rx", "hex": hex_of(words)}
    data = {"page": DATA >> 12, "pages": 2, "rights": "rw", "hex": ""}
    return {"name": name, "colours": colours, "entry": CODE, "segment": [program, data]}


def hex_of(words: list[int]) -> str:
    """Words of a program as a segment has them."""
    return b"".join((word & 0xFFFFFFFF).to_bytes(4, "little") for word in words).hex()


# ---- words of a program


def immediate(opcode: int, kind: int, rd: int, rs1: int, value: int) -> int:
    """An instruction with an immediate of 12 bits."""
    return (value & 0xFFF) << 20 | rs1 << 15 | kind << 12 | rd << 7 | opcode


def addi(rd: int, rs1: int, value: int) -> int:
    return immediate(0x13, 0, rd, rs1, value)


def register(group: int, kind: int, rd: int, rs1: int, rs2: int) -> int:
    """An instruction on registers: group 0 or 32, or 1 for products and divisions."""
    return group << 25 | rs2 << 20 | rs1 << 15 | kind << 12 | rd << 7 | 0x33


def load(kind: int, rd: int, rs1: int, offset: int) -> int:
    return immediate(0x03, kind, rd, rs1, offset)


def store(kind: int, rs1: int, rs2: int, offset: int) -> int:
    high, low = offset >> 5 & 0x7F, offset & 0x1F
    return high << 25 | rs2 << 20 | rs1 << 15 | kind << 12 | low << 7 | 0x23


def branch(kind: int, rs1: int, rs2: int, offset: int) -> int:
    high = (offset >> 12 & 1) << 6 | offset >> 5 & 0x3F
    low = (offset >> 1 & 0xF) << 1 | offset >> 11 & 1
    return high << 25 | rs2 << 20 | rs1 << 15 | kind << 12 | low << 7 | 0x63


def jal(rd: int, offset: int) -> int:
    bits = (
        (offset >> 20 & 1) << 19 | (offset >> 1 & 0x3FF) << 9 | (offset >> 11 & 1) << 8 | offset >> 12 & 0xFF
    )
    return bits << 12 | rd << 7 | 0x6F


def jalr(rd: int, rs1: int, offset: int) -> int:
    return immediate(0x67, 0, rd, rs1, offset)


def read_counter(rd: int, number: int = 0xC00) -> int:
    return immediate(0x73, 2, rd, 0, number)


def number(rd: int, value: int) -> list[int]:
    """The words that put a number into a register."""
    low = (value & 0xFFF ^ 0x800) - 0x800
    high = (value - low) >> 12 & 0xFFFFF
    if high == 0:
        return [addi(rd, 0, low)]
    return [high << 12 | rd << 7 | 0x37, addi(rd, rd, low)]


def call(which: int, *arguments: int) -> list[int]:
    """The words of a kernel call."""
    numbers = [number(17, which), *(number(10 + i, value) for i, value in enumerate(arguments))]
    return [word for words in numbers for word in words] + [0x73]


# ---- running the program


def ended(program: Path, words: str, given: str = "") -> tuple[int, str]:
    """The exit code and the text of a run."""
    run = subprocess.run([program, *words.split()], input=given, capture_output=True, text=True, check=False)
    return run.returncode, run.stdout


def answer(program: Path, words: str, given: str = "") -> str:
    """The text of a run, which must end well."""
    code, text = ended(program, words, given)
    return text if code == 0 else f"exit code {code}\n{text}"


def bounds(program: Path, image: Image) -> list[int]:
    """What the pad of each entry must be at least, as `bound` says."""
    text = answer(program, "bound", image_text(image))
    found = [int(line.split()[-1]) for line in text.splitlines() if "bound " in line]
    if not found:
        raise ValueError(f"bound says {text[:200]!r}")
    return found if image.get("version") == 2 else found * len(image["schedule"])


def sections(report: str) -> str:
    """The sections of a report, without its switch lines and its end."""
    return report.partition("switch 0 ")[0]


def sections_of(report: str) -> dict[int, str]:
    """The section of each domain."""
    texts = ("\n" + sections(report)).split("\ndomain ")[1:]
    return {number: f"domain {text.rstrip()}\n" for number, text in enumerate(texts)}


def within_pads(report: str) -> bool:
    """Whether each switch line says no more than its pad."""
    lines = [line.split() for line in report.splitlines() if line.startswith("switch ")]
    return bool(lines) and all(int(line[3]) <= int(line[5]) for line in lines)
