"""Mailboxes: who may tell whom, which words come in where, and where that goes by who passes a slot's end.

The words that a slot of the sender put into a box go off in the switch at that slot's end, and come in in the
next switch that begins a slot of the receiver; that switch comes at the end of the slot before. On several
harts the clocks order these switches. A slot's last event may pass its end, so where another one comes later by
less than the longest event of the domain of the first, the schedule alone doesn't tell which switch comes first."""

from __future__ import annotations

from bisect import bisect_left
from collections.abc import Iterator, Sequence
from dataclasses import dataclass
from itertools import pairwise
from math import gcd
from typing import Any

from tp_sdk import keys
from tp_sdk.bounds import OPERATION, calls_of, parts_of
from tp_sdk.calls import SEND
from tp_sdk.faults import Fault
from tp_sdk.refusals import Image
from tp_sdk.schedule import Entry, domain_names, entries_of, hart_for, harts_in, places_on, slots_of
from tp_sdk.words import SLOTS


# What an arrow of a picture is.
TOLD = "words of a box, if any were put in: where they came in"
TOLD_IF_OPEN = "the same, or a slot earlier or later: by who passed an end"


@dataclass(frozen=True)
class Box:
    """A box, by its number and its domains' numbers."""

    number: int
    sender: int
    receiver: int


@dataclass(frozen=True)
class Mail:
    """Boxes, and how many cycles an event of each domain may take."""

    boxes: Sequence[Box] = ()
    longest: Sequence[int] = ()


def boxes_of(image: Image, file: str) -> list[Box]:
    """The boxes of an image that `tp check` accepts."""
    domains = range(len(domain_names(image)))
    try:
        ends = [[it[key] for key in keys.BOX_ENDS] for it in image.get("mail", [])]
        are_good = all(end in domains for both in ends for end in both)
    except (KeyError, TypeError):
        are_good = False
    if not are_good:
        raise Fault(f"{file}: no boxes with from and to in each: does 'tp check' accept it?")
    return [Box(number, *both) for number, both in enumerate(ends)]


def boxes_in_use(image: Image, boxes: Sequence[Box]) -> list[Box]:
    """The boxes into which their senders may put words: those whose calls have SEND."""
    return [it for it in boxes if SEND.number in calls_of(image, it.sender)]


def are_between_harts(entries: Sequence[Entry], boxes: Sequence[Box]) -> bool:
    """Some box is from a domain of one hart to a domain of another."""
    return any(hart_for(entries, it.sender) != hart_for(entries, it.receiver) for it in boxes)


# ---- deliveries


@dataclass(frozen=True)
class Delivery:
    """Words that may have been told: they went off at the end of a slot of the sender, and came in at the
    beginning of one of the receiver, each told by its place among its hart's slots. Where it `is_open` they
    may have come in a slot of the receiver's earlier or later."""

    box: Box
    left: int
    came: int
    is_open: bool


def deliveries(entries: Sequence[Entry], mail: Mail, count: int) -> Iterator[Delivery]:
    """The deliveries among each hart's first slots, by the schedule, where each slot of a sender puts words in.
    (Of two ends in the same cycle that of the hart of the lesser number comes first.)"""
    slots = [list(slots_of(entries, count, hart)) for hart in range(harts_in(entries))]
    for box in mail.boxes:
        one, other = (hart_for(entries, domain) for domain in (box.sender, box.receiver))
        begins = [
            (before.end, other, place, before.domain)
            for place, (before, slot) in enumerate(pairwise(slots[other]), 1)
            if slot.domain == box.receiver
        ]
        for left, slot in enumerate(slots[one]):
            after = bisect_left(begins, (slot.end, one, 0))
            if slot.domain == box.sender and after < len(begins):
                near = begins[max(after - 1, 0) : after + 1]
                own = slot.end, slot.domain
                is_open = one != other and any(
                    _is_open(own, (end, domain), mail.longest) for end, _, _, domain in near
                )
                yield Delivery(box, left, begins[after][2], is_open)


# ---- where the order of two switches is not the schedule's


@dataclass(frozen=True)
class Close:
    """A box, an entry of its sender, and one of its receiver before whose slot another one ends: at some time
    these ends are as close as this on two harts, for the first time after these slots, from 0; and the domain that
    may pass the first of these ends beyond the other."""

    box: Box
    sends: int
    receives: int
    slots: tuple[int, int]
    ends: tuple[int, int]
    passes: int

    @property
    def apart(self) -> int:
        """How many cycles."""
        return abs(self.ends[0] - self.ends[1])


def longest_events(image: Image, file: str) -> list[int]:
    """The most cycles that an event of each domain takes: an instruction, and the kernel call that it makes."""
    try:
        parts = [parts_of(image, calls_of(image, domain)) for domain in range(len(domain_names(image)))]
        return [it["instruction"] + it[OPERATION] for it in parts]
    except (KeyError, IndexError, TypeError, ZeroDivisionError):
        raise Fault(f"{file}: no bound can be told of it: does 'tp check' accept it?") from None


def _is_open(one: tuple[int, int], other: tuple[int, int], longest: Sequence[int]) -> bool:
    """Whether the switches at the ends of two slots, each with its domain, may come in either order: the domain of the
    first may pass its end beyond the second."""
    (end, domain), (its, whose) = one, other
    return its - end < longest[domain] and end - its < longest[whose]


def close_switches(
    entries: Sequence[Entry], boxes: Sequence[Box], longest: Sequence[int], slots: int = SLOTS.high
) -> list[Close]:
    """For each box between two harts, and each pair of entries, the first two ends of which either may come first,
    within so many slots of each hart."""
    found: list[Close] = []
    for box in boxes:
        harts = [hart_for(entries, domain) for domain in (box.sender, box.receiver)]
        if harts[0] != harts[1]:
            found += _close(entries, box, (harts[0], harts[1]), longest, slots)
    return found


@dataclass(frozen=True)
class _Ends:
    """The ends of the slots of an entry, as its hart comes to them: from the first on, one in each turn."""

    entry: int
    domain: int
    first_slot: int
    first: int
    turn: int
    slots_of_a_turn: int

    def count(self, slots: int) -> int:
        """How many there are in so many slots of the hart."""
        return max(0, -(-(slots - self.first_slot) // self.slots_of_a_turn))

    def at(self, number: int) -> tuple[int, int]:
        """The slot, and when it ends."""
        return self.first_slot + number * self.slots_of_a_turn, self.first + number * self.turn

    def end(self, number: int) -> tuple[int, int]:
        """When it ends, and whose it is."""
        return self.at(number)[1], self.domain


def _ends_on(entries: Sequence[Entry], hart: int) -> list[_Ends]:
    places = places_on(entries, hart)
    turn = sum(entries[place].length + entries[place].pad for place in places)
    slots = slots_of(entries, len(places), hart)
    return [
        _Ends(slot.entry, slot.domain, place, slot.end, turn, len(places)) for place, slot in enumerate(slots)
    ]


def _close(
    entries: Sequence[Entry], box: Box, harts: tuple[int, int], longest: Sequence[int], slots: int
) -> Iterator[Close]:
    sends, befores = _ends_on(entries, harts[0]), _ends_on(entries, harts[1])
    for one in sends:
        for place, other in enumerate(befores):
            # (a slot's end is followed by the next entry's slot)
            receives = befores[(place + 1) % len(befores)].entry
            if one.domain != box.sender or entries[receives].domain != box.receiver:
                continue
            first = _first_close(one, other, longest, slots)
            if first is not None:
                (sent, left), (ended, came) = one.at(first[0]), other.at(first[1])
                is_own = (left, harts[0]) < (came, harts[1])
                passes = one.domain if is_own else other.domain
                yield Close(box, one.entry, receives, (sent, ended), (left, came), passes)


def _first_close(one: _Ends, other: _Ends, longest: Sequence[int], slots: int) -> tuple[int, int] | None:
    """The first ends of two entries of which either may come first, by their numbers."""
    # (modulo this number the distances of all ends are the same)
    step = gcd(one.turn, other.turn)
    after = (one.first - other.first) % step
    if after >= longest[other.domain] and step - after >= longest[one.domain]:
        return None
    # (the last slot of a run has no switch after it)
    counts = one.count(slots - 1), other.count(slots - 1)
    for number in range(counts[0]):
        nearest = -(-(one.at(number)[1] - longest[other.domain] + 1 - other.first) // other.turn)
        its = max(nearest, 0)
        if its < counts[1] and _is_open(one.end(number), other.end(its), longest):
            return number, its
    return None


# ---- in words


class OpenOrders:
    """What is told of the boxes of an image for which the order of two switches isn't the schedule's."""

    def __init__(self, image: Image, file: str) -> None:
        boxes = boxes_in_use(image, boxes_of(image, file))
        self._names = domain_names(image)
        self._entries = entries_of(image, file) if boxes else []
        self._longest = longest_events(image, file) if boxes else []
        self.close = close_switches(self._entries, boxes, self._longest)

    def sentences(self) -> list[str]:
        """A sentence for each box and pair of entries."""
        return [self._sentence(it) for it in self.close]

    def fields(self) -> list[dict[str, Any]]:
        """The same for `--json`."""
        return [
            {
                "box": it.box.number,
                "sends": it.sends,
                "receives": it.receives,
                "slots": list(it.slots),
                "ends": list(it.ends),
                "passes": self._names[it.passes],
                "longest": self._longest[it.passes],
                "sentence": self._sentence(it),
            }
            for it in self.close
        ]

    def _sentence(self, it: Close) -> str:
        sender, receiver = (self._names[domain] for domain in (it.box.sender, it.box.receiver))
        sends, receives = (self._entries[entry].hart for entry in (it.sends, it.receives))
        return (
            f"box {it.box.number} ({sender} to {receiver}): on hart {sends} slot {it.slots[0]}, of entry "
            f"{it.sends} ({sender}), ends at {it.ends[0]:,}, and on hart {receives} slot {it.slots[1]}, before "
            f"entry {it.receives} ({receiver}), at {it.ends[1]:,}: they lie apart by {it.apart:,}, and an event "
            f"of {self._names[it.passes]} may take {self._longest[it.passes]:,}, so which words come in goes by "
            "who passes an end"
        )
