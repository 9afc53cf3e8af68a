"""Pictures of slots, what domains did in them, pads and switches."""

from __future__ import annotations

from collections.abc import Sequence
from dataclasses import dataclass
from pathlib import Path
from typing import TYPE_CHECKING

from tp_sdk.bounds import EntryBound
from tp_sdk.keys import LENGTH
from tp_sdk.mail import Mail
from tp_sdk.plot_deliveries import Arrow, arrows_of, draw_arrows, legend_of
from tp_sdk.plots import PLAIN, SMALL, WIDTH, Figure, colour_of, grey, ink, paper, save, title
from tp_sdk.replay import Did, Replay, number
from tp_sdk.report import Report, Section
from tp_sdk.schedule import Entry, Slot, hart_for, harts_in, places_on, slots_of, slots_of_each

# (after that one, which tells where the library is missing)
from matplotlib.lines import Line2D
from matplotlib.patches import Patch
from matplotlib.ticker import MaxNLocator, StrMethodFormatter

if TYPE_CHECKING:
    from matplotlib.axes import Axes

_PAD, _USED, _IDLE = 0.12, 0.65, 0.03  # of the texts' colour
_SAVED = "////"
_ABOVE, _BELOW = 0.6, 0.8  # from a lane's first row to its top, and from its last one to its end
_BETWEEN = 0.2  # lanes
_IN_A_ROW = 6  # slots of each hart
_COLUMNS = 3  # of the legend
_ROOM, _LETTER = 7.8, 0.065  # inches: of a row, of a letter in the smallest type


@dataclass(frozen=True)
class Strip:
    """A report, and what running its image again told of each hart, if it did."""

    title: str
    report: Report
    replays: Sequence[Replay] | None


@dataclass(frozen=True)
class Lane:
    """A hart's part of a strip: the rows of its domains, and of its last entry the place among all."""

    hart: int
    rows: dict[int, float]
    last_entry: int

    @property
    def last_row(self) -> float:
        """The lowest one."""
        return max(self.rows.values())


def lanes_of(entries: Sequence[Entry], domains: int) -> list[Lane]:
    """A lane for each hart that has domains, from the top down; that of one hart alone has a row for each."""
    lanes: list[Lane] = []
    row = 0.0
    for hart in range(harts_in(entries)):
        own = [domain for domain in range(domains) if hart_for(entries, domain) == hart]
        rows = {domain: row + place for place, domain in enumerate(own)}
        lanes.append(Lane(hart, rows, places_on(entries, hart)[-1]))
        row = lanes[-1].last_row + _BELOW + _BETWEEN + _ABOVE
    return lanes


@dataclass(frozen=True)
class Part:
    """A row of a strip: the numbers of its slots, from 0, and how many are drawn in all rows, of so many
    that each hart had."""

    strip: Strip
    slots: range
    drawn: int
    of_each: int

    @property
    def is_first(self) -> bool:
        """The boot is drawn in it."""
        return self.slots.start == 0

    @property
    def is_last(self) -> bool:
        """No other row of the strip comes after it."""
        return self.slots.stop == self.drawn


def parts_of(entries: Sequence[Entry], strip: Strip, most: int) -> list[Part]:
    """The rows of a strip for its first slots."""
    of_each = slots_of_each(entries, strip.report)
    drawn = min(of_each, most)
    starts = range(0, max(drawn, 1), _IN_A_ROW)
    return [Part(strip, range(it, min(it + _IN_A_ROW, drawn)), drawn, of_each) for it in starts]


def draw_timeline(
    file: Path,
    names: Sequence[str],
    entries: Sequence[Entry],
    strips: Sequence[Strip],
    most: int,
    bounds: Sequence[EntryBound] = (),
    mail: Mail = Mail(),
) -> None:
    """The first slots, what was done in them, their pads and what switches used, a strip for each report,
    in whose rows each hart has a lane, and an arrow for each delivery of a box that may have been; and, where
    bounds are given, those of each domain beside the bound with every call."""
    of_domains = list({it.domain: it for it in bounds}.values())
    lanes = lanes_of(entries, len(names))
    parts = [part for strip in strips for part in parts_of(entries, strip, most)]
    arrows = [_arrows(entries, mail, part) for part in parts]
    legend = _legend(strips, bool(of_domains)) + legend_of([it for of_part in arrows for it in of_part])
    heights = [0.1 + 0.17 * -(-len(legend) // _COLUMNS)]
    heights += [0.5 * (lanes[-1].last_row + 1)] * len(parts)
    heights += [0.3 + 0.25 * len(of_domains)] if of_domains else []
    # (what stands above and below them in words)
    words = 0.5 * (len(heights) - 1) + 0.15 * (len(names) + 1) * len(strips)
    figure = Figure(figsize=(WIDTH, sum(heights) + words), layout="constrained")
    above, *places = figure.subplots(len(heights), 1, height_ratios=heights)
    above.set_axis_off()
    above.legend(handles=legend, loc="upper left", ncols=_COLUMNS, frameon=False, borderaxespad=0)
    # (a cycle is as wide in each row)
    widest = max(_cycles(entries, part)[1] for part in parts)
    for axes, part, its in zip(places, parts, arrows):
        first, _ = _cycles(entries, part)
        axes.set_xlim(first, first + widest)
        _draw_part(axes, names, lanes, entries, part)
        draw_arrows(axes, _rows(lanes), its)
    if of_domains:
        _draw_bounds(places[-1], names, of_domains)
    save(figure, file)


def _cycles(entries: Sequence[Entry], part: Part) -> tuple[int, int]:
    """When a row begins, and how many cycles it has, of all harts."""
    starts, ends = [], []
    for hart in range(harts_in(entries)):
        slots = list(slots_of(entries, part.slots.stop, hart))[part.slots.start :]
        starts.append(0 if part.is_first else slots[0].start)
        ends.append(slots[-1].pad_end if slots else entries[places_on(entries, hart)[-1]].pad)
    return min(starts), max(ends) - min(starts)


def _draw_part(
    axes: Axes, names: Sequence[str], lanes: Sequence[Lane], entries: Sequence[Entry], part: Part
) -> None:
    for lane in lanes:
        _draw_lane(axes, lane, entries, part)
    rows = _rows(lanes)
    of_hart = "" if len(lanes) == 1 else "hart {}: "
    axes.set_yticks(list(rows.values()), [of_hart.format(hart_for(entries, it)) + names[it] for it in rows])
    axes.set_ylim(lanes[-1].last_row + _BELOW, -_ABOVE)
    axes.xaxis.set_major_locator(MaxNLocator(nbins=8, integer=True))
    axes.xaxis.set_major_formatter(StrMethodFormatter("{x:,.0f}"))
    axes.set_title(title(_head(part, len(lanes))), loc="left", fontsize=PLAIN)
    if part.is_last:
        clock = "cycles" if len(lanes) == 1 else "cycles, by each hart's own clock"
        told = [_summary(section, entries, part) for section in part.strip.report.sections]
        axes.set_xlabel("\n".join([clock, *told]), loc="left", fontsize=SMALL)


def _rows(lanes: Sequence[Lane]) -> dict[int, float]:
    """The row of each domain."""
    return {domain: row for lane in lanes for domain, row in lane.rows.items()}


def _arrows(entries: Sequence[Entry], mail: Mail, part: Part) -> list[Arrow]:
    """Those of a row of slots, as far as they are drawn."""
    arrows = arrows_of(entries, mail, part.strip.replays, part.drawn)
    return [it for it in arrows if any(slot in part.slots for slot in it.slots)]


def _draw_lane(axes: Axes, lane: Lane, entries: Sequence[Entry], part: Part) -> None:
    """A hart's slots in a row."""
    most = [switch.used for switch in part.strip.report.switches]
    told = None if part.strip.replays is None else part.strip.replays[lane.hart]
    if part.is_first:
        _draw_pad(axes, lane, (0, entries[lane.last_entry].pad), told.boot if told else most[lane.last_entry])
    slots = list(slots_of(entries, part.slots.stop, lane.hart))
    for place in part.slots:
        slot = slots[place]
        replay = told if told and place < len(told.slots) else None
        _draw_slot(axes, slot, lane.rows[slot.domain], replay.slots[place] if replay else None)
        # (a run ends with its last slot, whose switch it doesn't have)
        if place < part.of_each - 1:
            used = replay.used[place] if replay and place < len(replay.used) else most[slot.entry]
            _draw_pad(axes, lane, (slot.end, slot.pad_end), used)
    for section in part.strip.report.sections:
        if section.number in lane.rows:
            clocks = _readings_in(section, slots[part.slots.start :])
            row = lane.rows[section.number]
            axes.vlines(clocks, row + 0.28, row + 0.4, color=ink(), linewidth=0.5)


def _readings_in(section: Section, slots: Sequence[Slot]) -> list[int]:
    """The listed clocks that it read in its own of these slots."""
    own = [slot for slot in slots if slot.domain == section.number]
    return [it for it in section.readings if any(slot.start <= it < slot.end for slot in own)]


def _draw_bounds(axes: Axes, names: Sequence[str], bounds: Sequence[EntryBound]) -> None:
    """A row for each domain that has slots: the bound by its calls, and on to the bound with every call."""
    for row, it in enumerate(bounds):
        colour, height = colour_of(names.index(it.domain)), (row - 0.35, 0.7)
        axes.broken_barh([(0, it.bound)], height, facecolor=colour, alpha=0.55)
        axes.broken_barh([(it.bound, it.saved)], height, facecolor="none", edgecolor=colour, hatch=_SAVED)
        told = f" {it.bound:,}" + (f" in place of {it.with_every_call:,}" if it.saved else "")
        axes.text(it.with_every_call, row, told, fontsize=SMALL, va="center")
    axes.set_yticks(range(len(bounds)), [it.domain for it in bounds])
    axes.set_ylim(len(bounds) - 0.5, -0.5)
    axes.set_xlim(0, 1.2 * bounds[0].with_every_call)
    axes.set_xlabel("cycles from the end of a domain's slot: the bound on the switch, the least pad")


def _head(part: Part, harts: int) -> str:
    """Which slots a row has, and from which on it has no more than the report itself tells."""
    first, last = part.slots.start + 1, part.slots.stop
    on_each = "" if harts == 1 else " on each hart"
    if part.of_each == 0:
        return f"{part.strip.title}: the boot, and no slot{on_each}"
    head = f"{part.strip.title}: slots {first} to {last} of {part.of_each}{on_each}"
    told = _told_slots(part)
    if told >= last and part.strip.replays is not None:
        return head
    since = f"from slot {told + 1} on " if told >= first else ""
    return f"{head} ({since}of each switch the most that its entry's used)"


def _told_slots(part: Part) -> int:
    """Of how many slots it is known what was done in them."""
    return 0 if part.strip.replays is None else min(part.drawn, len(part.strip.replays[0].slots))


def _draw_slot(axes: Axes, slot: Slot, row: float, did: Did | None) -> None:
    """The time in which the domain ran, and what it did; pale, where it had ended."""
    whole = slot.end - slot.start
    ran = whole
    if did is not None and did.had_ended:
        ran = 0
    elif did is not None and did.status != "running":
        ran = did.ended_at or LENGTH.low
    height = (row - 0.4, 0.8)
    axes.broken_barh(
        [(slot.start, whole)], height, facecolor=grey(_IDLE), edgecolor=colour_of(slot.domain), linewidth=0.6
    )
    axes.broken_barh([(slot.start, ran)], height, facecolor=colour_of(slot.domain), alpha=0.55)
    if did is not None and not did.had_ended:
        _tell(axes, slot, row, _told(did))


def _tell(axes: Axes, slot: Slot, row: float, words: str) -> None:
    """What was done, in the slot's middle; on from its start, and on paper of its own, where it is narrow."""
    first, last = axes.get_xlim()
    room = (slot.end - slot.start) / (last - first) * _ROOM
    if max(map(len, words.splitlines())) * _LETTER < room:
        axes.text((slot.start + slot.end) / 2, row, words, ha="center", va="center", fontsize=SMALL)
        return
    below = {"facecolor": paper(), "alpha": 0.75, "pad": 0.6, "linewidth": 0}
    axes.text(slot.start, row, words, ha="left", va="center", fontsize=SMALL, bbox=below)


def _told(did: Did) -> str:
    words = f"{did.retired:,}"
    if did.calls:
        words += f"\n{_many(did.calls, 'call')}"
    if did.status != "running":
        words += f"\n{did.status.split(' pc ')[0]}"
        words += f" within {LENGTH.low:,}" if did.ended_at is None else f" at {did.ended_at:,}"
    return words


def _draw_pad(axes: Axes, lane: Lane, pad: tuple[int, int], used: int) -> None:
    start, end = pad
    top = min(lane.rows.values()) - _ABOVE
    whole = (top, lane.last_row + _BELOW - top)
    axes.broken_barh([(start, end - start)], whole, facecolor=grey(_PAD))
    axes.broken_barh([(start, used)], whole, facecolor=grey(_USED))
    axes.text(start + used, lane.last_row + 0.65, f" {used:,}", fontsize=SMALL, va="center")


def _summary(section: Section, entries: Sequence[Entry], part: Part) -> str:
    """What a domain did in the slots that are drawn, where that is known, and in all."""
    retired, calls = number(section, "retired"), number(section, "replies")
    read = section.readings_count
    at_end = f"at the end {section.status.split(' pc ')[0]}"
    told = _told_slots(part)
    if part.strip.replays is None or told in (0, part.of_each):
        done = _done(retired, calls, _many(read, "reading"))
        return f"{section.name}: {done} in all {_many(part.of_each, 'slot')}; {at_end}"
    hart = hart_for(entries, section.number)
    slots = list(slots_of(entries, told, hart))
    own = [did for slot, did in zip(slots, part.strip.replays[hart].slots) if slot.domain == section.number]
    listed = "" if read <= len(section.readings) else f" of the first {len(section.readings)}"
    readings = _many(len(_readings_in(section, slots)), "reading") + listed
    done = _done(sum(it.retired for it in own), sum(it.calls for it in own), readings)
    in_all = f"in all {part.of_each}: {retired:,}, {calls:,} and {read:,}"
    return f"{section.name}: {done} in slots 1 to {told}; {in_all}; {at_end}"


def _done(retired: int, calls: int, readings: str) -> str:
    return f"{_many(retired, 'instruction')}, {_many(calls, 'call')} and {readings}"


def _many(number: int, what: str) -> str:
    return f"{number:,} {what}{'' if number == 1 else 's'}"


def _legend(strips: Sequence[Strip], has_bounds: bool) -> list[Patch | Line2D]:
    is_replayed = any(strip.replays is not None for strip in strips)
    saved = Patch(facecolor="none", edgecolor=colour_of(0), hatch=_SAVED, label="saved by calls left out")
    return [
        Patch(
            facecolor=colour_of(0),
            alpha=0.55,
            label="a slot: instructions retired in it" if is_replayed else "a slot",
        ),
        Patch(facecolor=grey(_IDLE), edgecolor=colour_of(0), label="the domain had ended"),
        Line2D(
            [],
            [],
            color=ink(),
            marker="|",
            linestyle="none",
            label="it read its clock (of its first 256 readings)",
        ),
        Patch(facecolor=grey(_PAD), label="pad"),
        Patch(facecolor=grey(_USED), label="cycles that the switch used"),
        *([saved] if has_bounds else []),
    ]
