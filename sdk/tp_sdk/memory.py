"""Whose each frame of memory and each set of the second-level cache is, and what stands there at
the boot, as an image tells it."""

from __future__ import annotations

from dataclasses import dataclass
from enum import Enum
from typing import Any

from tp_sdk.faults import Fault
from tp_sdk.keys import PAGE
from tp_sdk.refusals import Image

PAGES_OF_A_TABLE = 1024


class Use(Enum):
    """What a frame has at the boot, and how it is told of in a frame of a picture."""

    SHARED = "shared"
    TEXT = "text"
    STACK = "stack"
    DATA = "data"
    ROOT = "root"
    TABLE = "table"
    PAGE = "page"
    FREE = "free"
    NOBODYS = "nobody's"

    @property
    def is_of_clone(self) -> bool:
        """It is of a domain's clone of the kernel."""
        return self in _CLONE

    @property
    def is_of_tables(self) -> bool:
        """It is one of a domain's page tables."""
        return self in (Use.ROOT, Use.TABLE)


_CLONE = (Use.TEXT, Use.TEXT, Use.STACK, Use.DATA)


@dataclass(frozen=True)
class Frame:
    """A frame: whose it is, if a domain's, and what it has; `page` is a page's number."""

    number: int
    domain: int | None
    use: Use
    page: int | None = None


@dataclass(frozen=True)
class Memory:
    """The memory of an image and the sets of its second level."""

    colours: int
    frames: tuple[Frame, ...]
    owners: dict[int, int]  # of each colour that is a domain's
    sets_of_colour: int
    ways: int
    shared_lines: tuple[int, ...]  # by their sets, of those of colour 0: how many lines each keeps

    def colour(self, frame: Frame) -> int:
        """A frame's colour."""
        return frame.number % self.colours

    def ranges(self) -> list[range]:
        """The colours, ascending: one each, or those beside each other that are nobody's."""
        ranges: list[range] = []
        for colour in range(self.colours):
            is_nobodys = colour > 0 and colour not in self.owners
            if is_nobodys and ranges and ranges[-1].start > 0 and ranges[-1].start not in self.owners:
                ranges[-1] = range(ranges[-1].start, colour + 1)
            else:
                ranges.append(range(colour, colour + 1))
        return ranges


def memory_of(image: Image, file: str) -> Memory:
    """The memory of an image that `tp check` accepts."""
    try:
        return _memory(image)
    except (KeyError, TypeError, ValueError, IndexError, ZeroDivisionError):
        raise Fault(f"{file}: no memory can be made of it: does 'tp check' accept it?") from None


def _memory(image: Image) -> Memory:
    sets_of_colour = PAGE // image["line"]
    colours = image["l2"]["sets"] // sets_of_colour
    lines = [0] * sets_of_colour
    for number in range(image["shared"] // image["line"]):
        lines[number % sets_of_colour] += 1
    of_shared = range(0, -(-image["shared"] // PAGE) * colours, colours)
    frames = [
        Frame(number, None, Use.SHARED if number in of_shared else Use.NOBODYS)
        for number in range(image["frames"])
    ]
    owners: dict[int, int] = {}
    for number, domain in enumerate(image["domain"]):
        owners |= {colour: number for colour in domain["colours"]}
        pool = [frame.number for frame in frames if frame.number % colours in domain["colours"]]
        for place, (use, page) in enumerate(_uses(domain, len(pool))):
            frames[pool[place]] = Frame(pool[place], number, use, page)
    return Memory(colours, tuple(frames), owners, sets_of_colour, image["l2"]["ways"], tuple(lines))


def _uses(domain: dict[str, Any], frames: int) -> list[tuple[Use, int | None]]:
    """What a domain's frames have, ascending: its clone, its root, a table for each 4 MiB that has a
    page, its pages by their numbers; the others are free."""
    pages = sorted(page for it in domain["segment"] for page in range(it["page"], it["page"] + it["pages"]))
    tables = {page // PAGES_OF_A_TABLE for page in pages}
    used: list[tuple[Use, int | None]] = [
        *((use, None) for use in (*_CLONE, Use.ROOT)),
        *((Use.TABLE, None) for _ in tables),
        *((Use.PAGE, page) for page in pages),
    ]
    if len(used) > frames:
        raise ValueError("too few frames")
    return used + [(Use.FREE, None)] * (frames - len(used))
