"""The numbers of pictures as tables, for whoever draws them otherwise."""

from __future__ import annotations

import csv
import io
from collections.abc import Iterable, Iterator, Sequence
from pathlib import Path
from typing import TYPE_CHECKING, Any

from tp_sdk.faults import write_bytes
from tp_sdk.memory import Memory
from tp_sdk.schedule import Entry, harts_in, places_on, slots_of, slots_of_each
from tp_sdk.sweeping.charts import Chart

# (a picture's library is loaded as the picture is drawn)
if TYPE_CHECKING:
    from tp_sdk.plot_matrix import Side
    from tp_sdk.plot_readings import Panel
    from tp_sdk.plot_timeline import Strip

Rows = Iterable[Sequence[Any]]


def write_table(file: Path, columns: Sequence[str], rows: Rows) -> None:
    """Writes a CSV file: the columns' names, then a line a row, with nothing where there is no number."""
    out = io.StringIO()
    writer = csv.writer(out, lineterminator="\n")
    writer.writerow(columns)
    writer.writerows(["" if cell is None else cell for cell in row] for row in rows)
    write_bytes(file, out.getvalue().encode())


def write_readings(file: Path, panels: Sequence[Panel]) -> None:
    """Each measurement of each report: its cycles, and whether a slot ended within it (1) or not (0)."""
    write_table(file, ("domain", "report", "measurement", "cycles", "slot_ended"), _readings(panels))


def _readings(panels: Sequence[Panel]) -> Iterator[Sequence[Any]]:
    for panel in panels:
        for row in panel.rows:
            for report in row.reports:
                measured = zip(row.measurements.cycles, row.measurements.is_over_end)
                for place, (cycles, is_over_end) in enumerate(measured):
                    yield panel.domain, report, place, cycles, int(is_over_end)


def write_channel(file: Path, domain: str, secrets: Sequence[str], sides: Sequence[Side]) -> None:
    """Each measurement beside each secret, by the guard that was off."""
    rows = (
        (domain, side.off or "none", secret, place, cycles)
        for side in sides
        for secret, row in zip(secrets, side.rows)
        for place, cycles in enumerate(row)
    )
    write_table(file, ("domain", "off", "secret", "measurement", "cycles"), rows)


def write_timeline(
    file: Path, names: Sequence[str], entries: Sequence[Entry], strips: Sequence[Strip], most: int
) -> None:
    """Each slot that is drawn, after its hart's boot: its cycles, what was done in it where that is known, and
    what the switch after it used."""
    columns = (
        *("report", "hart", "slot", "entry", "domain", "start", "end", "pad_end"),
        *("retired", "calls", "status", "ended_at", "used"),
    )
    rows = (row for strip in strips for row in _slots(names, entries, strip, most))
    write_table(file, columns, rows)


def _slots(
    names: Sequence[str], entries: Sequence[Entry], strip: Strip, most: int
) -> Iterator[Sequence[Any]]:
    of_each = slots_of_each(entries, strip.report)
    switches = [switch.used for switch in strip.report.switches]
    for hart in range(harts_in(entries)):
        told = None if strip.replays is None else strip.replays[hart]
        last = places_on(entries, hart)[-1]
        boot = switches[last] if told is None else told.boot
        yield strip.title, hart, "boot", last, None, 0, 0, entries[last].pad, *[None] * 4, boot
        for place, slot in enumerate(slots_of(entries, min(of_each, most), hart)):
            did = told.slots[place] if told is not None and place < len(told.slots) else None
            done = (None,) * 4 if did is None else (did.retired, did.calls, did.status, did.ended_at)
            used: int | None = None
            if place < of_each - 1:
                is_told = told is not None and place < len(told.used)
                used = told.used[place] if told is not None and is_told else switches[slot.entry]
            where = (place, slot.entry, names[slot.domain], slot.start, slot.end, slot.pad_end)
            yield strip.title, hart, *where, *done, used


def write_memory(file: Path, names: Sequence[str], memory: Memory) -> None:
    """Each frame: its colour, whose it is, what it has; then each set of the second level, by its colour and
    whose it is, with how many lines of the kernel's region it keeps."""
    columns = ("what", "number", "colour", "domain", "use", "page", "shared_lines")
    write_table(file, columns, [*_frames(names, memory), *_sets(names, memory)])


def _frames(names: Sequence[str], memory: Memory) -> Iterator[Sequence[Any]]:
    for it in memory.frames:
        domain = None if it.domain is None else names[it.domain]
        yield "frame", it.number, memory.colour(it), domain, it.use.value, it.page, None


def _sets(names: Sequence[str], memory: Memory) -> Iterator[Sequence[Any]]:
    for number in range(memory.colours * memory.sets_of_colour):
        colour, place = divmod(number, memory.sets_of_colour)
        owner = memory.owners.get(colour)
        lines = memory.shared_lines[place] if colour == 0 else None
        yield "set", number, colour, None if owner is None else names[owner], None, None, lines


def write_chart(file: Path, chart: Chart) -> None:
    """Each number of a sweep's picture; nothing where the point was refused."""
    keys = [chart.right] if chart.other is None else [chart.right, chart.other]
    rows = (
        (side.observer, *spot[: len(keys)], number)
        for side in chart.sides
        for spot, number in side.numbers.items()
    )
    write_table(file, ("observer", *keys, chart.column), rows)
