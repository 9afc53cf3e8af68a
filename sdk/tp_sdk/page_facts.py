"""The facts of a page of a run: what `tp-report --json` writes, and what its pictures are drawn from."""

from __future__ import annotations

from collections import Counter
from collections.abc import Sequence
from dataclasses import asdict
from itertools import groupby
from pathlib import Path
from typing import Any

from tp_sdk.faults import Fault
from tp_sdk.keys import HART
from tp_sdk.mail import TOLD, TOLD_IF_OPEN, are_between_harts, boxes_in_use, boxes_of, longest_events
from tp_sdk.measurements import MEASURES, Measurements, SlotEnded, by_pads, by_schedule, measurements_of
from tp_sdk.memory import Frame, Memory, Use, memory_of
from tp_sdk.refusals import Image
from tp_sdk.report import Report, Section
from tp_sdk.schedule import Entry, entries_of, hart_for, harts_in, slots_of_each
from tp_sdk.telling import Telling
from tp_sdk.words import SLOTS

Facts = dict[str, Any]

_NO_IMAGE = "A report does not tell how long slots are, nor whose: an image does, given by --image."
_NO_PADS = "The guard pad was off, so slots began at other cycles than the schedule tells."


def facts_of(telling: Telling, image: Image | None, other: Report | None = None) -> Facts:
    """What a page has, ready for JSON: `run` is the object of `tp-report --json`. `image` is that of the run,
    where it is given, and `other` the report that is compared with it."""
    report, file = telling.report, str(telling.known.file)
    _refuse_more_slots_than_a_run_has(telling)
    entries = None if image is None else entries_of(image, file)
    memory = None if image is None else memory_of(image, file)
    return {
        "title": Path(telling.file).name,
        "head": telling.head(),
        "run": telling.fields(),
        "switch_sentences": telling.switches(),
        "schedule": _schedule(report, entries) | {"mail": _mail(image, entries, report, file)},
        "memory": None if memory is None else _memory(memory, len(report.sections)),
        "measures": MEASURES,
        "measurements": [_measured(*it) for it in zip(report.sections, _slot_ended(report, entries))],
        "others": None if other is None else _others(report, other, entries),
    }


def _refuse_more_slots_than_a_run_has(telling: Telling) -> None:
    most = (
        SLOTS.high * telling.known.harts if telling.known.file is not None else SLOTS.high * (HART.high + 1)
    )
    if telling.report.slots > most:
        raise Fault(
            f"{telling.file}: its switches are of {telling.report.slots:,} slots: a run has {most:,} at most"
        )


# ---- time


def _schedule(report: Report, entries: Sequence[Entry] | None) -> Facts:
    """The entries in their order, `used` being the most that a switch of one used; `slots` of each hart.
    Where `why_not` says so, lengths and domains are not there, and `slots` is one turn of the entries."""
    why_not = _NO_IMAGE if entries is None else _NO_PADS if report.off == "pad" else None
    if entries is None or why_not is not None:
        unknown = [{"domain": None, "length": None, "pad": it.pad, "hart": 0} for it in report.switches]
        rows, harts, slots = unknown, 1, min(len(unknown), report.slots)
    else:
        rows = [{"domain": it.domain, "length": it.length, "pad": it.pad, "hart": it.hart} for it in entries]
        harts, slots = harts_in(entries), slots_of_each(entries, report)
    for row, switch in zip(rows, report.switches):
        row["used"] = switch.used
    return {"entries": rows, "harts": harts, "slots": slots, "why_not": why_not}


def _mail(image: Image | None, entries: Sequence[Entry] | None, report: Report, file: str) -> Facts | None:
    """The boxes by which words may have come, where it is known when slots began; how long an event of each domain may
    take, and what an arrow is."""
    if image is None or entries is None or report.off == "pad":
        return None
    boxes = boxes_in_use(image, boxes_of(image, file))
    if not boxes:
        return None
    return {
        "boxes": [asdict(it) for it in boxes],
        "longest": longest_events(image, file),
        "told": TOLD,
        "told_if_open": TOLD_IF_OPEN if are_between_harts(entries, boxes) else None,
    }


# ---- memory


def _memory(memory: Memory, domains: int) -> Facts:
    """The rows of a map by page colours, those of nobody's that are beside each other in one row; and how
    many frames of each use a domain has."""
    return {
        "frames": len(memory.frames),
        "colours": memory.colours,
        "ways": memory.ways,
        "sets_of_colour": memory.sets_of_colour,
        "shared_lines": memory.shared_lines,
        "rows": [_row(memory, colours) for colours in memory.ranges()],
        "owners": [_owned(memory, domain) for domain in range(domains)],
    }


def _row(memory: Memory, colours: range) -> Facts:
    """Frames of the same use beside each other are one run: in how many columns, of which pages. (In a row
    of several colours, which are nobody's, the frames of all are alike.)"""
    frames = memory.frames[colours.start :: memory.colours]
    runs = [[*run] for _, run in groupby(frames, key=lambda it: (it.domain, _kind(it)))]
    return {
        "first": colours.start,
        "last": colours[-1],
        "owner": memory.owners.get(colours.start),
        "runs": [_run(run) for run in runs],
    }


def _run(frames: Sequence[Frame]) -> Facts:
    pages = [it.page for it in frames if it.page is not None]
    return {
        "use": _kind(frames[0]),
        "frames": [it.number for it in frames[:: max(len(frames) - 1, 1)]],
        "count": len(frames),
        "pages": [pages[0], pages[-1]] if pages else None,
    }


def _kind(frame: Frame) -> str:
    """What a frame is drawn as."""
    if frame.use.is_of_clone:
        return "clone"
    return "table" if frame.use.is_of_tables else frame.use.value


def _owned(memory: Memory, domain: int) -> Facts:
    uses = Counter(_kind(frame) for frame in memory.frames if frame.domain == domain)
    counts = {use: uses[use] for use in ("clone", "table", Use.PAGE.value, Use.FREE.value)}
    return {"colours": [colour for colour, owner in memory.owners.items() if owner == domain], **counts}


# ---- measurements


def _measured(section: Section, ended: SlotEnded) -> Facts:
    """By each measure the cycles of each measurement, the places of those within which a slot ended, and
    how many were made in all."""
    return {
        name: {
            "cycles": it.cycles,
            "over_end": [place for place, is_over in enumerate(it.is_over_end) if is_over],
            "made": it.made,
        }
        for name, it in _by_measure(section, ended).items()
    }


def _others(report: Report, other: Report, entries: Sequence[Entry] | None) -> list[Facts]:
    """Of each domain what it measured by the other report, and how much more that of this one is."""
    sides = [
        [_by_measure(*it) for it in zip(of.sections, _slot_ended(of, entries))] for of in (report, other)
    ]
    return [{name: _compared(own[name], its[name]) for name in MEASURES} for own, its in zip(*sides)]


def _compared(own: Measurements, other: Measurements) -> Facts:
    most = max(len(own.cycles), len(other.cycles))
    return {"cycles": other.cycles, "more": [own.more_than(other, place) for place in range(most)]}


def _by_measure(section: Section, ended: SlotEnded) -> dict[str, Measurements]:
    """What a section's readings measure, as `tp-plot readings` takes them."""
    return {name: measurements_of(section, name, ended) for name in MEASURES}


def _slot_ended(report: Report, entries: Sequence[Entry] | None) -> list[SlotEnded]:
    """For each section, whether a slot ended: by the schedule of its hart where it is known and was kept,
    else by the pads."""
    if entries is None or report.off == "pad":
        return [by_pads(switch.pad for switch in report.switches)] * len(report.sections)
    slots = slots_of_each(entries, report)
    harts = [hart_for(entries, section.number) for section in report.sections]
    # (a long run has many slots, and many domains are on the same hart)
    one_of = dict(zip(harts, (section.number for section in report.sections)))
    by_hart = {hart: by_schedule(entries, slots, domain) for hart, domain in one_of.items()}
    return [by_hart[hart] for hart in harts]
