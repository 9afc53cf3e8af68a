"""The bound on a switch, by its parts as docs/IMAGE.md has them, and what `tp bound` writes of it."""

from __future__ import annotations

import re
from dataclasses import dataclass
from typing import TYPE_CHECKING

from tp_sdk import keys
from tp_sdk.calls import CALLS, EVERY_CALL, calls_where
from tp_sdk.schedule import domain_names

if TYPE_CHECKING:
    from tp_sdk.refusals import Image

OPERATION = "operation"
PARTS = ("instruction", OPERATION, "leave", "prefetch", "flush", "enter")

_PART = re.compile(r"([a-z]+) (\d{1,20})")
_ENTRY = re.compile(r"entry (\d{1,9}) operation (\d{1,20}) bound (\d{1,20})")


def calls_of(image: Image, domain: int) -> frozenset[int]:
    """The calls that a domain may make: all that there are, where no list leaves some out."""
    listed = image["domain"][domain].get("calls") if keys.version_of(image) > keys.VERSION.low else None
    there = calls_where(bool(image.get("mail")))
    return there if listed is None else there.intersection(listed)


def lines_written(calls: frozenset[int], line: int) -> int:
    """The most lines, of so many bytes, that one of these calls writes."""
    return max((call.lines_written(line) for call in CALLS if call.number in calls), default=0)


def writes_back(image: Image) -> bool:
    """Whether dirty lines are written back into the second level, which may then write one back at a miss."""
    return "back" in image["l2"] and bool(image["l2"]["back"])


def parts_of(image: Image, calls: frozenset[int] = EVERY_CALL) -> dict[str, int]:
    """The parts of the bound on the switch out of a slot in which these calls may be made."""
    line = image["line"]
    base, l1, l2, mem, wb, tlb, mispredict, trap, flush = (image["costs"][cost] for cost in keys.COSTS)
    read = l2 + mem + (wb if writes_back(image) else 0)
    misses = l1 + read
    dirty = misses + wb
    look_up = tlb + 2 * read
    instruction = base + 2 * look_up + misses + dirty + mispredict + _most_added(image.get("muldiv"))
    return {
        "instruction": instruction,
        OPERATION: trap + 4 * misses + 5 * dirty + lines_written(calls, line) * dirty,
        "leave": trap + 4 * misses + 3 * dirty,
        "prefetch": image["shared"] // line * (l1 + l2 + mem + wb),
        "flush": flush + wb * image["l1d"]["sets"] * image["l1d"]["ways"],
        "enter": 4 * misses + 3 * dirty,
    }


def bound_on_a_switch(image: Image, calls: frozenset[int] = EVERY_CALL) -> int:
    """The least pad after a slot in which these calls may be made."""
    return sum(parts_of(image, calls).values()) - 1


def _most_added(muldiv: dict[str, int] | None) -> int:
    """What a product or a division adds at most; a cost out of its range counts as none."""
    if muldiv is None:
        return 0
    good = range(keys.COST.low, keys.COST.high + 1)
    mul, div = (muldiv[cost] if muldiv[cost] in good else 0 for cost in keys.PRODUCTS)
    return max(mul, keys.DIVISION_STEPS * div)


@dataclass(frozen=True)
class EntryBound:
    """The bound on the switch after an entry's slot, by the calls of its domain, and beside it the bound
    of one that may make every call; `left_out` has how many its list leaves out."""

    entry: int
    domain: str
    calls: list[str]
    left_out: int
    operation: int
    bound: int
    with_every_call: int
    pad: int

    @property
    def saved(self) -> int:
        """The cycles by which the calls that are left out make the bound smaller."""
        return self.with_every_call - self.bound


def bounds_of(image: Image) -> list[EntryBound]:
    """The bounds of an image, by its entries."""
    names, every = domain_names(image), bound_on_a_switch(image)
    there = calls_where(bool(image.get("mail")))
    bounds = []
    for number, entry in enumerate(image["schedule"]):
        calls = calls_of(image, entry["domain"])
        parts = parts_of(image, calls)
        told = [call.name for call in CALLS if call.number in calls]
        bound = sum(parts.values()) - 1
        name = names[entry["domain"]]
        lacks = len(there - calls)
        bounds.append(EntryBound(number, name, told, lacks, parts[OPERATION], bound, every, entry["pad"]))
    return bounds


# ---- the program's text


@dataclass(frozen=True)
class Bound:
    """What `tp bound` writes: the parts, without that of calls where it goes by the entry, and the operation
    and the bound of each entry; `total` where the bound is the same for all."""

    parts: dict[str, int]
    entries: tuple[tuple[int, int], ...]
    total: int | None

    def of_entry(self, entry: int) -> int | None:
        """The bound on the switch after an entry's slot, where the text tells it."""
        if self.total is not None:
            return self.total
        return self.entries[entry][1] if entry < len(self.entries) else None


def parse_bound(text: str) -> Bound | None:
    """Reads what `tp bound` wrote, if the text is that."""
    lines = text.splitlines()
    matches = [_ENTRY.fullmatch(line) for line in lines]
    entries = [match for match in matches if match is not None]
    named = [_PART.fullmatch(line) for line in lines[: len(lines) - len(entries)]]
    numbers = {match[1]: int(match[2]) for match in named if match is not None}
    if list(numbers) == [*PARTS, "bound"] and len(lines) == len(numbers):
        return Bound({part: numbers[part] for part in PARTS}, (), numbers["bound"])
    is_whole = list(numbers) == [part for part in PARTS if part != OPERATION]
    ascends = [int(match[1]) for match in entries] == list(range(len(entries)))
    if not (is_whole and ascends and entries and len(lines) == len(numbers) + len(entries)):
        return None
    return Bound(numbers, tuple((int(match[2]), int(match[3])) for match in entries), None)
