"""How many of each event that costs cycles a domain's slots had, had from the program by running its
image with other costs.

What a domain does that doesn't read its clock, and has no interrupts, doesn't depend on the costs. So
where a cost is one cycle more, a slot must be longer by the number of its events to come as far. That
is checked: the domain must end each slot in the same state, and the counts must make up the cycles."""

from __future__ import annotations

from collections.abc import Sequence
from dataclasses import dataclass
from typing import Any

from tp_sdk.faults import Fault
from tp_sdk.keys import COST, COSTS, LENGTH, PAD, PRODUCTS, limits_of
from tp_sdk.program import Program
from tp_sdk.refusals import Image
from tp_sdk.replay import has_ended, number, written
from tp_sdk.report import Section, parse_report
from tp_sdk.running import with_end, words_for
from tp_sdk.schedule import entries_of, hart_for, places_on

# Switches alone flush.
COUNTED = tuple(cost for cost in COSTS if cost != "flush")


def counted_in(image: Image) -> tuple[str, ...]:
    """The costs by which events of an image are counted: of a machine with products theirs, too."""
    return (*COUNTED, *PRODUCTS) if "muldiv" in image else COUNTED


@dataclass(frozen=True)
class Counted:
    """The events of a slot before the instruction or call that is its last one, by their costs, and
    the cycles that they took; none, where the slot is too short to tell."""

    slot: int
    events: dict[str, int] | None
    cycles: int | None


def count_events(program: Program, image: Image, file: str, domain: int, slots: int) -> list[Counted]:
    """The events of the domain's slots among the first so many of its hart."""
    written(program, ["check"], image, file)
    if image["domain"][domain].get("moments"):
        raise Fault(f"{file}: interrupts come to domain {domain} by the clock, so costs change what it does")
    if any(it["to"] == domain for it in image.get("mail", [])):
        raise Fault(f"{file}: boxes lead to domain {domain}, and alone, as it is counted, no word comes in")
    runs = _Runs(program, image, file, domain)
    if slots > len(runs.schedule):
        raise Fault(f"{file}: of the first {len(runs.schedule)} slots alone can events be counted")
    own = [slot for slot in range(slots) if runs.schedule[slot]["domain"] == domain]
    counts = counted_in(image)
    plain = image["costs"] | image.get("muldiv", {})
    reached = {slot: runs.section(plain, {}, slot + 1) for slot in own}
    raised = plain | {"base": _raised(plain["base"], list(reached.values()))}
    in_time, least = runs.least_lengths(plain, reached), runs.least_lengths(raised, reached)
    longer = {}
    for cost in counts:
        step = 1 if raised[cost] < COST.high else -1
        lengths = runs.least_lengths(raised | {cost: raised[cost] + step}, reached)
        longer[cost] = {slot: (lengths[slot] - least[slot]) * step for slot in own}
    counted, before = [], 0
    for slot in own:
        events = {cost: longer[cost][slot] for cost in counts}
        # (a domain that came no further did nothing; nor can a slot be shorter than the shortest)
        if progress(reached[slot]) > before and least[slot] == LENGTH.low:
            counted.append(Counted(slot, None, None))
        else:
            for costs, length in ((plain, in_time[slot]), (raised, least[slot])):
                runs.refuse_other_sum(slot, events, costs, length)
            counted.append(Counted(slot, events, _sum(events, plain)))
        before = progress(reached[slot])
    return counted


def progress(section: Section) -> int:
    """How many instructions and calls it has done."""
    return number(section, "retired") + number(section, "replies") + has_ended(section)


def _raised(base: int, reached: Sequence[Section]) -> int:
    """A cost of an instruction with which short slots are long, and no slot is too long."""
    before = (0, *(progress(section) for section in reached))
    most = max((after - one for one, after in zip(before, before[1:])), default=0)
    return max(base, min(COST.high, LENGTH.high // (4 * (most + 1))))


def _sum(events: dict[str, int], costs: dict[str, int]) -> int:
    return sum(costs[cost] * count for cost, count in events.items())


class _Runs:
    """Runs of one domain alone, in slots of such lengths, with such costs. Pads are as long as may be:
    they are enough, whatever the costs."""

    def __init__(self, program: Program, image: Image, file: str, domain: int) -> None:
        self._program, self._image, self._file, self._domain = program, image, file, domain
        self._costly = [key for key in ("costs", "muldiv") if key in image]
        own = _entries_of_its_hart(image, file, domain)
        self.schedule = own * (limits_of(image).entries.high // len(own))

    def section(self, costs: dict[str, int], lengths: dict[int, int], slots: int) -> Section:
        """What the domain sees after so many slots."""
        schedule = [
            entry | {"length": lengths.get(slot, entry["length"]), "pad": PAD.high}
            for slot, entry in enumerate(self.schedule)
        ]
        keys = {key: {cost: costs[cost] for cost in self._image[key]} for key in self._costly}
        image = self._image | keys | {"schedule": schedule}
        words = [*words_for(alone=self._domain), "--slots", str(slots)]
        text = written(self._program, words, image, self._file)
        return parse_report(with_end(text), self._file).sections[0]

    def least_lengths(self, costs: dict[str, int], reached: dict[int, Section]) -> dict[int, int]:
        """The least lengths with which each slot ends as it does in the image."""
        lengths: dict[int, int] = {}
        for slot, section in reached.items():
            lengths[slot] = self._least_length(costs, lengths, slot, section)
        return lengths

    def _least_length(self, costs: dict[str, int], lengths: dict[int, int], slot: int, end: Section) -> int:
        def is_enough(length: int) -> bool:
            section = self.section(costs, lengths | {slot: length}, slot + 1)
            return progress(section) > progress(end) or _state(section) == _state(end)

        low, high = LENGTH.low - 1, LENGTH.low
        while not is_enough(high):
            if high == LENGTH.high:
                raise self._other_way(slot)
            low, high = high, min(2 * high, LENGTH.high)
        while high - low > 1:
            middle = (low + high) // 2
            low, high = (low, middle) if is_enough(middle) else (middle, high)
        if _state(self.section(costs, lengths | {slot: high}, slot + 1)) != _state(end):
            raise self._other_way(slot)
        return high

    def refuse_other_sum(self, slot: int, events: dict[str, int], costs: dict[str, int], length: int) -> None:
        """Refuses counts that don't make up the cycles: the last event begins in a slot's last cycle."""
        if length > LENGTH.low and _sum(events, costs) != length - 1:
            raise self._other_way(slot)

    def _other_way(self, slot: int) -> Fault:
        return Fault(
            f"{self._file}: what domain {self._domain} does in slot {slot} depends on the time: no counts"
        )


def _entries_of_its_hart(image: Image, file: str, domain: int) -> list[dict[str, Any]]:
    """The entries by which a domain runs alone, as those of an image of one hart."""
    entries = entries_of(image, file)
    own = [image["schedule"][place] for place in places_on(entries, hart_for(entries, domain))]
    return [{key: value for key, value in it.items() if key != "hart"} for it in own]


def _state(section: Section) -> Sequence[str]:
    """All of it but its readings."""
    return [line for line in section.text.splitlines() if not line.startswith("readings ")]
