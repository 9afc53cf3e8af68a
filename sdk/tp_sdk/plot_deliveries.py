"""In a picture of slots: arrows from the ends of slots to those in which the words that they sent came in."""

from __future__ import annotations

from collections.abc import Mapping, Sequence
from dataclasses import dataclass
from typing import TYPE_CHECKING

from tp_sdk.mail import TOLD, TOLD_IF_OPEN, Mail, deliveries
from tp_sdk.plots import ink
from tp_sdk.replay import Replay
from tp_sdk.schedule import Entry, hart_for, harts_in, slots_of

# (after that one, which tells where the library is missing)
from matplotlib.lines import Line2D
from matplotlib.patches import FancyArrowPatch

if TYPE_CHECKING:
    from matplotlib.axes import Axes

_WIDTH, _HEAD = 0.9, 8  # points
_KNOWN, _OPEN = "-", ":"


@dataclass(frozen=True)
class Arrow:
    """From a domain to another, each with its slot's place among its hart's, at the cycles where one ends and
    the other begins. Where it `is_open`, the schedule doesn't tell in which slot the words came in."""

    domains: tuple[int, int]
    slots: tuple[int, int]
    cycles: tuple[int, int]
    is_open: bool


def arrows_of(
    entries: Sequence[Entry], mail: Mail, replays: Sequence[Replay] | None, count: int
) -> list[Arrow]:
    """Those of each hart's first slots; from none in which its domain made no call, as far as that is known."""
    if not mail.boxes:
        return []
    slots = [list(slots_of(entries, count, hart)) for hart in range(harts_in(entries))]
    arrows = []
    for it in deliveries(entries, mail, count):
        sender, receiver = it.box.sender, it.box.receiver
        one, other = hart_for(entries, sender), hart_for(entries, receiver)
        told = () if replays is None else replays[one].slots
        if it.left < len(told) and told[it.left].calls == 0:
            continue
        cycles = slots[one][it.left].end, slots[other][it.came].start
        arrows.append(Arrow((sender, receiver), (it.left, it.came), cycles, it.is_open))
    return arrows


def draw_arrows(axes: Axes, rows: Mapping[int, float], arrows: Sequence[Arrow]) -> None:
    """Draws them, `rows` having that of each domain; what is beyond the picture's cycles is cut off."""
    for it in arrows:
        start, end = ((cycle, rows[domain]) for cycle, domain in zip(it.cycles, it.domains))
        axes.add_patch(_arrow(start, end, _OPEN if it.is_open else _KNOWN))


def _arrow(start: tuple[float, float], end: tuple[float, float], style: str) -> FancyArrowPatch:
    return FancyArrowPatch(
        start,
        end,
        arrowstyle="->",
        mutation_scale=_HEAD,
        color=ink(),
        linewidth=_WIDTH,
        linestyle=style,
        shrinkA=0,
        shrinkB=0,
    )


def legend_of(arrows: Sequence[Arrow]) -> list[Line2D]:
    """What an arrow is."""
    told = {_KNOWN: TOLD, _OPEN: TOLD_IF_OPEN}
    drawn = {_OPEN if it.is_open else _KNOWN for it in arrows}
    return [
        Line2D([], [], color=ink(), linewidth=_WIDTH, linestyle=style, marker=">", markersize=3, label=words)
        for style, words in told.items()
        if style in drawn
    ]
