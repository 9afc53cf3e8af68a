"""What a domain measured: the cycles between readings of its clock, and over which a slot ended."""

from __future__ import annotations

from bisect import bisect_right
from collections.abc import Callable, Iterable, Sequence
from dataclasses import dataclass

from tp_sdk.report import Section
from tp_sdk.schedule import Entry, hart_for, slots_of

MEASURES = {
    "pairs": "each second reading less the one before it: a clock before and after",
    "steps": "each reading less the one before it",
    "values": "the readings themselves",
}

# Whether a slot ended between two readings.
SlotEnded = Callable[[int, int], bool]


@dataclass(frozen=True)
class Measurements:
    """The measurements that a report lists of a domain: their cycles, and of each whether a slot
    ended within it. A report lists the first readings alone, so the domain may have made more."""

    cycles: tuple[int, ...]
    is_over_end: tuple[bool, ...]
    made: int

    def within_slots(self) -> list[int]:
        """The cycles of those within which no slot ended."""
        return [cycles for cycles, is_over in zip(self.cycles, self.is_over_end) if not is_over]

    def more_than(self, other: Measurements, place: int) -> int | None:
        """How many cycles more than another's measurement in this place, where both have it, and both or
        none with a slot's end in it."""
        if place >= min(len(self.cycles), len(other.cycles)):
            return None
        if self.is_over_end[place] != other.is_over_end[place]:
            return None
        return self.cycles[place] - other.cycles[place]


@dataclass(frozen=True)
class Row:
    """A row of a picture: the reports that have these measurements."""

    reports: tuple[str, ...]
    measurements: Measurements


def by_schedule(entries: Sequence[Entry], slots: int, domain: int) -> SlotEnded:
    """What the schedule of the domain's hart tells of so many slots."""
    ends = [slot.end for slot in slots_of(entries, slots, hart_for(entries, domain))]
    return lambda before, after: bisect_right(ends, before) < bisect_right(ends, after)


def by_pads(pads: Iterable[int]) -> SlotEnded:
    """What can be told with no image: after a slot's end comes its pad, so what took no pad's time
    was within a slot."""
    least = min((pad for pad in pads if pad > 0), default=None)
    return lambda before, after: least is not None and after - before >= least


def measurements_of(section: Section, how: str, slot_ended: SlotEnded) -> Measurements:
    """The measurements that a domain's readings make."""
    made = section.readings_count
    if how == "values":
        return Measurements(section.readings, (False,) * len(section.readings), made)
    step = 2 if how == "pairs" else 1
    pairs = list(zip(section.readings[::step], section.readings[1::step]))
    return Measurements(
        tuple(after - before for before, after in pairs),
        tuple(slot_ended(before, after) for before, after in pairs),
        made // 2 if how == "pairs" else max(made - 1, 0),
    )


def rows_of(reports: Iterable[tuple[str, Measurements]]) -> list[Row]:
    """Reports with equal measurements are one row, in the place of the first."""
    names: dict[Measurements, list[str]] = {}
    for name, measurements in reports:
        names.setdefault(measurements, []).append(name)
    return [Row(tuple(of), measurements) for measurements, of in names.items()]
