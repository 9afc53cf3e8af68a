"""What a report doesn't tell, had from the program by running its image again: what each slot did,
what each switch used, and when a domain ended.

A run is determined by its image, and what happened before a slot's end doesn't depend on where the
end is. So runs of fewer slots tell what each slot did; a schedule written out several times runs as
it does once, and tells each switch by itself; and a slot that is cut short tells whether its domain
had ended by then. Of several harts each is told by itself: what switches used depends on the order of
their events, so a report of another order than that of `run` is not told. Nor is an image with a box from
one hart to another: in as many slots of each less may have been told from there."""

from __future__ import annotations

import json
from collections.abc import Sequence
from dataclasses import dataclass
from typing import Any

from tp_sdk import running
from tp_sdk.keys import LENGTH, limits_of
from tp_sdk.mail import are_between_harts, boxes_of
from tp_sdk.program import Program
from tp_sdk.refusals import Image
from tp_sdk.report import Report, Section, parse_report
from tp_sdk.schedule import entries_of, harts_in, places_on, slots_of_each
from tp_sdk.toml_places import BARE_KEY


@dataclass(frozen=True)
class Did:
    """What a domain did in one of its slots."""

    retired: int
    calls: int  # that were answered
    had_ended: bool  # before the slot
    status: str  # after it
    ended_at: int | None  # how many cycles after the slot's start, where it can be told


@dataclass(frozen=True)
class Replay:
    """What each of a hart's first slots did, what its boot used, and what the switch after each slot did,
    where there was one: a run ends with its last slot."""

    slots: tuple[Did, ...]
    boot: int
    used: tuple[int, ...]


def replay(
    program: Program, image: Image, file: str, report: Report, count: int
) -> tuple[Replay, ...] | None:
    """Each hart's first slots by a report, where it is one that `run` writes of this image; else nothing."""
    if are_between_harts(entries_of(image, file), boxes_of(image, file)):
        return None
    slots = slots_of_each(entries_of(image, file), report)
    again = _run(program, image, file, slots)
    if _sections(again) != _sections(report) or _used(again) != _used(report):
        return None
    most_entries = limits_of(image).entries.high
    written_out = image | {"schedule": image["schedule"] * (most_entries // len(image["schedule"]))}
    entries = entries_of(written_out, file)
    harts = [places_on(entries, hart) for hart in range(harts_in(entries))]
    slots = min(slots, *map(len, harts))
    count = min(count, slots)
    if count == 0:
        return None
    # (one slot more has the last one's switch)
    most = min(count + 1, slots)
    runs = [_run(program, written_out, file, number) for number in range(most + 1)]
    if _sections(runs[-1]) != _sections(_run(program, image, file, most)):
        return None
    return tuple(_of_hart(program, written_out, file, places, runs, count) for places in harts)


def _of_hart(
    program: Program, image: Image, file: str, places: Sequence[int], runs: Sequence[Report], count: int
) -> Replay:
    """A hart's first slots, its entries having these places, by runs of 0 slots, of 1 and so on."""
    done = [_did(program, image, file, places, slot, *runs[slot : slot + 2]) for slot in range(count)]
    *after, boot = (runs[-1].switches[place].used for place in places)
    return Replay(tuple(done), boot, tuple(after[: len(runs) - 2]))


def _did(
    program: Program, image: Image, file: str, places: Sequence[int], slot: int, before: Report, after: Report
) -> Did:
    domain = image["schedule"][places[slot]]["domain"]
    one, two = before.sections[domain], after.sections[domain]
    ends_here = has_ended(two) and not has_ended(one)
    return Did(
        number(two, "retired") - number(one, "retired"),
        number(two, "replies") - number(one, "replies"),
        has_ended(one),
        two.status,
        _ended_at(program, image, file, places[slot], slot) if ends_here else None,
    )


def _ended_at(program: Program, image: Image, file: str, place: int, slot: int) -> int | None:
    """How long the slot, of the entry in this place, must be, at least, for its domain to end in it;
    nothing, where the shortest slot that there may be is enough."""
    schedule: list[dict[str, Any]] = image["schedule"]
    domain = schedule[place]["domain"]

    def is_enough(length: int) -> bool:
        cut = [*schedule[:place], schedule[place] | {"length": length}, *schedule[place + 1 :]]
        return has_ended(_run(program, image | {"schedule": cut}, file, slot + 1).sections[domain])

    low, high = LENGTH.low, schedule[place]["length"]
    if is_enough(low):
        return None
    while high - low > 1:
        middle = (low + high) // 2
        low, high = (low, middle) if is_enough(middle) else (middle, high)
    return int(high)


def has_ended(section: Section) -> bool:
    """It runs no more."""
    return section.status != "running"


def number(section: Section, word: str) -> int:
    """The number that stands after a word at the head of one of a section's lines."""
    return next(int(line.split()[1]) for line in section.text.splitlines() if line.startswith(f"{word} "))


def _sections(report: Report) -> Sequence[str]:
    return [section.text for section in report.sections]


def _used(report: Report) -> Sequence[tuple[int, int]]:
    return [(switch.used, switch.count) for switch in report.switches]


def _run(program: Program, image: Image, file: str, slots: int) -> Report:
    return parse_report(written(program, ["run", "--slots", str(slots)], image, file), file)


def written(program: Program, words: list[str], image: Image, file: str) -> str:
    """What the program writes of an image that it accepts."""
    return running.written(program, words, image_text(image), file)


def image_text(image: Image) -> str:
    """The text of an image's values, or of a description's."""
    return "".join(f"{_key(key)} = {_toml(value)}\n" for key, value in image.items())


def _toml(value: Any) -> str:
    if isinstance(value, dict):
        return "{ " + ", ".join(f"{_key(key)} = {_toml(item)}" for key, item in value.items()) + " }"
    if isinstance(value, list):
        return "[" + ", ".join(_toml(item) for item in value) + "]"
    return json.dumps(value)


def _key(key: str) -> str:
    """A key, in quotes where it has letters that want them."""
    return key if BARE_KEY.fullmatch(key) else json.dumps(key)
