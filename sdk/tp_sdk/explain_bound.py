"""What `tp bound` writes, in sentences: the parts, and of each entry the calls by which its bound goes."""

from __future__ import annotations

import tomllib
from dataclasses import asdict
from typing import Any

from tp_sdk import keys
from tp_sdk.bounds import OPERATION, Bound, EntryBound, bound_on_a_switch, bounds_of, parts_of, writes_back
from tp_sdk.calls import CALLS, in_words
from tp_sdk.explain import label
from tp_sdk.faults import Fault
from tp_sdk.mail import OpenOrders
from tp_sdk.schedule import entries_of
from tp_sdk.toml_places import read_with_places

# (the words of docs/IMAGE.md)
WORDS = {
    "instruction": "begun in the slot's last cycle",
    OPERATION: "the kernel call that it makes",
    "leave": "the outgoing clone's",
    "prefetch": "of the shared lines",
    "flush": "of the core, every data line dirty",
    "enter": "the incoming clone's",
    "bound": "their sum, less the cycle of the slot in which the instruction began",
}


# (where dirty lines are written back into the second level)
WRITTEN_BACK = (
    "with `back`, a line that the second level misses may make it write one back, too, but for the shared "
    "lines of the prefetch"
)


def sentence_of(it: EntryBound, what: str, line: int) -> str:
    """An entry's bound in words, `what` being the entry, on a machine with lines of so many bytes."""
    told = f"{what}: operation {it.operation:,}, bound {it.bound:,}: {_calls_of(it, line)}"
    if it.saved:
        told += f"; with every call {it.with_every_call:,}, so {it.saved:,} are saved"
    lacks = it.bound - it.pad
    return f"{told}; its pad is {it.pad:,}: {'enough' if lacks <= 0 else f'{lacks:,} too short'}"


def _calls_of(it: EntryBound, line: int) -> str:
    """The calls that may be made, and which of them writes most."""
    own = [call for call in CALLS if call.name in it.calls]
    may = "every call" if not it.left_out else in_words(it.calls, "and") if own else "no call"
    most = max(own, key=lambda call: call.lines_written(line), default=None)
    if most is None or not most.lines_written(line):
        return f"it may make {may}: no frame is zeroed, no entry written"
    lines = most.lines_written(line)
    return f"it may make {may}, of which {most.name} writes most: {lines} line{'' if lines == 1 else 's'}"


class BoundTold:
    """The program's text of an image, explained."""

    def __init__(self, text: str, file: str, bound: Bound) -> None:
        try:
            self.image, _ = read_with_places(text)
        except tomllib.TOMLDecodeError as error:
            raise Fault(f"{file}: no TOML ({error}), so this bound is of another image") from None
        self.file = file
        self.bound = bound
        try:
            entries_of(self.image, file)
            self.entries = bounds_of(self.image)
            self.open_orders = OpenOrders(self.image, file)
            is_of_image = self._is_of_image()
        except (KeyError, IndexError, TypeError, ZeroDivisionError):
            is_of_image = False
        if not is_of_image:
            raise Fault(f"{file}: this is the bound of another image")

    def _is_of_image(self) -> bool:
        """The text is what the tables of parts and of calls make of the image."""
        parts = parts_of(self.image)
        if any(parts[part] != cycles for part, cycles in self.bound.parts.items()):
            return False
        if self.bound.total is None:
            told = [(entry.operation, entry.bound) for entry in self.entries]
            return list(self.bound.entries) == told and keys.version_of(self.image) > keys.VERSION.low
        return self.bound.total == bound_on_a_switch(self.image)

    def sentences(self) -> list[str]:
        """What a switch can use, part by part, and each entry's pad beside it."""
        lines = [f"{self.file}: the most cycles from the end of a slot to the end of its switch's work"]
        for part, words in WORDS.items():
            cycles = self.bound.total if part == "bound" else self.bound.parts.get(part)
            lines.append(f"  {part}{', by the entry' if cycles is None else f' {cycles:,}'}: {words}")
        if writes_back(self.image):
            lines.append(f"  {WRITTEN_BACK} ({self.image['costs']['wb']:,} cycles, the cost `wb`)")
        lines += [
            "  " + sentence_of(it, label(("schedule", it.entry), self.image), self.image["line"])
            for it in self.entries
        ]
        return lines + [f"  {told}" for told in self.open_orders.sentences()]

    def fields(self) -> dict[str, Any]:
        """What `--json` writes."""
        return {
            "image": self.file,
            "parts": self.bound.parts,
            "bound": self.bound.total,
            "entries": [asdict(entry) for entry in self.entries],
            "open_orders": self.open_orders.fields(),
            "sentences": [line.strip() for line in self.sentences()],
        }
