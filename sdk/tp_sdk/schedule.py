"""When each slot of an image begins and ends: the schedule alone tells, that of each hart its own."""

from __future__ import annotations

from collections.abc import Iterator, Sequence
from dataclasses import dataclass
from typing import TYPE_CHECKING

from tp_sdk.faults import Fault
from tp_sdk.keys import HART, hart_of

if TYPE_CHECKING:
    from tp_sdk.refusals import Image
    from tp_sdk.report import Report


@dataclass(frozen=True)
class Entry:
    """An entry of the schedule."""

    domain: int
    length: int
    pad: int
    hart: int = 0


@dataclass(frozen=True)
class Slot:
    """A slot: it ends at `end`, and the hart's next one starts at `pad_end`; `entry` is its entry's place
    among those of all harts."""

    entry: int
    domain: int
    start: int
    end: int
    pad_end: int


def entries_of(image: Image, file: str) -> list[Entry]:
    """The entries of an image that `tp check` accepts."""
    domains = len(domain_names(image))
    try:
        entries = [Entry(it["domain"], it["length"], it["pad"], hart_of(it)) for it in image["schedule"]]
        are_good = all(0 <= it.domain < domains and it.length > 0 and it.pad >= 0 for it in entries)
        are_good = are_good and _are_on_harts(entries)
    except (KeyError, TypeError):
        entries, are_good = [], False
    if not entries or not are_good:
        raise Fault(
            f"{file}: no schedule with domain, length and pad in each entry: does 'tp check' accept it?"
        )
    return entries


def _are_on_harts(entries: Sequence[Entry]) -> bool:
    """Each hart up to the greatest has an entry, and each domain is on one."""
    harts, domains = {it.hart for it in entries}, {it.domain for it in entries}
    are_there = harts == set(range(len(harts))) and len(harts) <= HART.high + 1
    return are_there and len({(it.domain, it.hart) for it in entries}) == len(domains)


def domain_names(image: Image) -> list[str]:
    """The names of its domains."""
    domains = image.get("domain")
    tables = domains if isinstance(domains, list) else []
    return [it["name"] for it in tables if isinstance(it, dict) and "name" in it]


def harts_in(entries: Sequence[Entry]) -> int:
    """How many harts there are."""
    return 1 + max(it.hart for it in entries)


def hart_for(entries: Sequence[Entry], domain: int) -> int:
    """The hart of a domain: one that no entry names counts as hart 0's."""
    return next((it.hart for it in entries if it.domain == domain), 0)


def places_on(entries: Sequence[Entry], hart: int) -> list[int]:
    """The places of a hart's entries among all."""
    return [place for place, it in enumerate(entries) if it.hart == hart]


def slots_of(entries: Sequence[Entry], count: int, hart: int = 0) -> Iterator[Slot]:
    """The first slots of a hart, its entries taken in turn; its boot has its last entry's pad."""
    places = places_on(entries, hart)
    start = entries[places[-1]].pad
    for number in range(count):
        entry = places[number % len(places)]
        it = entries[entry]
        end = start + it.length
        yield Slot(entry, it.domain, start, end, end + it.pad)
        start = end + it.pad


@dataclass(frozen=True)
class Time:
    """How long a hart's first slots take: the cycles from 0 to the last one's end, and those in slots alone."""

    cycles: int
    in_slots: int


def time_of(entries: Sequence[Entry], count: int, hart: int = 0) -> Time:
    """The time of a hart's first slots; the pad after the last one is no part of it."""
    places = places_on(entries, hart)
    rounds, rest = divmod(count, len(places))
    taken = [(entries[place], rounds + (number < rest)) for number, place in enumerate(places)]
    in_slots = sum(it.length * times for it, times in taken)
    pads = sum(it.pad * times for it, times in taken)
    # (a pad comes before each slot: the last entry's, and then those of the slots before the last one)
    last = entries[places[(count - 1) % len(places)]].pad if count else 0
    boot = entries[places[-1]].pad if count else 0
    return Time(in_slots + boot + pads - last, in_slots)


def slots_of_each(entries: Sequence[Entry], report: Report) -> int:
    """How many slots each hart had by a report of these entries: all have as many."""
    return report.slots // harts_in(entries)
