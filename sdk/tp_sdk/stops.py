"""What stopped a domain, in words: the exception, and where its value lies in the program."""

from __future__ import annotations

from dataclasses import dataclass

from tp_sdk.elf import Loaded, Segment
from tp_sdk.instructions import about
from tp_sdk.keys import PAGE
from tp_sdk.report import Stop, Thread

# The codes of the RISC-V privileged specification: their names, and the right that an access wants.
NAMES = {
    0: "a jump to a misaligned address",
    1: "an instruction access fault",
    2: "an illegal instruction",
    3: "an EBREAK",
    4: "a misaligned load",
    5: "a load access fault",
    6: "a misaligned store",
    7: "a store access fault",
    12: "an instruction page fault",
    13: "a load page fault",
    15: "a store page fault",
}
_WANTED = {1: ("x", "executed"), 12: ("x", "executed"), 5: ("r", "read"), 13: ("r", "read")} | {
    code: ("w", "written") for code in (7, 15)
}
_JUMP, _WORD, _EBREAK, _ODD = 0, 2, 3, (4, 6)
_LOADS_AND_STORES = (5, 7, 13, 15)
_STACK_POINTER = 2
_MOST_ADDRESS = 0xFFFF_FFFF
_FRAME_MOST = 0x10000  # how far from the stack pointer a function looks for its own


@dataclass(frozen=True)
class Overflow:
    """The stack that a thread has run out of."""

    stack: Segment
    stack_pointer: int

    def __str__(self) -> str:
        pages = self.stack.pages * 2
        below = self.stack.start - self.stack_pointer
        return (
            f"the stack has overflowed: x2 is {self.stack_pointer:#x}, {below:,} bytes below the stack's "
            f"{_pages(self.stack)}: a greater one is `stack = {pages}` in a description, "
            f"`--stack {pages}` of tp-run, STACK={pages * PAGE} of make"
        )


def overflow_of(stop: Stop, thread: Thread | None, segments: list[Segment]) -> Overflow | None:
    """The stack that has overflowed, where the exception is of that: the stack pointer is below a segment
    that may be written, in none, and the address beside it in none either."""
    if stop.code not in _LOADS_AND_STORES or thread is None:
        return None
    pointer = thread.registers.get(_STACK_POINTER, 0)
    above = min((it for it in segments if it.start > pointer), key=lambda it: it.start, default=None)
    if above is None or "w" not in above.rights or segment_at(pointer, segments) is not None:
        return None
    is_beside = abs(stop.value - pointer) < _FRAME_MOST and pointer > PAGE
    if not is_beside or stop.value >= above.start or segment_at(stop.value, segments) is not None:
        return None
    return Overflow(above, pointer)


def value_in_words(stop: Stop, thread: Thread | None, loaded: Loaded | None) -> str:
    """What an exception's value says."""
    if stop.code == _JUMP:
        return f"it jumps to {stop.value:#x}, which is no multiple of 4"
    if stop.code == _WORD:
        told = about(stop.value)
        return f"the word {stop.value:08x}" + (f" is {told}" if told else " is no instruction")
    if stop.code == _EBREAK:
        return "a breakpoint, which ends a domain"
    where = "" if loaded is None else f", {whereabouts(stop, thread, loaded)}"
    symbol = "" if loaded is None else _object(stop.value, loaded)
    odd = ", which is no multiple of the access's size" if stop.code in _ODD else ""
    return f"its address is {stop.value:#x}{symbol}{odd}{where}"


def whereabouts(stop: Stop, thread: Thread | None, loaded: Loaded) -> str:
    """Where the address of an access lies, and why it was let through by no page."""
    address, segments = stop.value, loaded.segments
    inside = segment_at(address, segments)
    if inside is not None:
        return f"in `{inside.name}`" + _right_in(inside, stop.code)
    if address < PAGE:
        return "in no segment: a null pointer?"
    pointer = None if thread is None else thread.registers.get(_STACK_POINTER, 0)
    if pointer == 0 and address > _MOST_ADDRESS - _FRAME_MOST:
        return "in no segment: x2 is 0, so the program has set up no stack"
    return _beside(address, segments)


def segment_at(address: int, segments: list[Segment]) -> Segment | None:
    """The segment in which an address lies."""
    return next((it for it in segments if it.start <= address < it.end), None)


def _right_in(segment: Segment, code: int) -> str:
    wanted = _WANTED.get(code)
    if wanted is None:
        return ""
    if wanted[0] in segment.rights:
        return ", but its page is not mapped any more, or with other rights"
    return f", whose rights are {segment.rights}: it can't be {wanted[1]}"


def _beside(address: int, segments: list[Segment]) -> str:
    """How far an address that lies in no segment is from the nearest one."""
    places = [(it.start - address, "below", it) for it in segments if it.start > address]
    places += [(address - it.end, "past", it) for it in segments if it.end <= address]
    distance, side, nearest = min(places, key=lambda it: it[0])
    count = "right" if distance == 0 else "1 byte" if distance == 1 else f"{distance:,} bytes"
    return f"{count} {side} the {_pages(nearest)} of `{nearest.name}`"


def _pages(segment: Segment) -> str:
    count = "page" if segment.pages == 1 else f"{segment.pages} pages"
    return f"{count} ({segment.start:#x} to {segment.end:#x})"


def _object(address: int, loaded: Loaded) -> str:
    """What stands at an address: its symbol and its section."""
    place, section = loaded.symbols.place(address), loaded.symbols.section(address)
    name = f" {place.name}" if place.symbol is not None else ""
    return name + (f" ({section.name})" if section is not None else "")
