"""A picture of whose memory is whose."""

from __future__ import annotations

from collections.abc import Sequence
from pathlib import Path
from typing import TYPE_CHECKING, Any

from tp_sdk.mail import Box
from tp_sdk.memory import Frame, Memory, Use
from tp_sdk.plots import PLAIN, SMALL, WIDTH, Figure, colour_of, grey, ink, is_dark, mixed, paper, save

# (after that one, which tells where the library is missing)
import numpy
from matplotlib.patches import Patch

if TYPE_CHECKING:
    from matplotlib.axes import Axes

_SHARED, _NOBODYS = 0.75, 0.07  # of the texts' colour
# More frames than these have no room for words.
_MOST_TOLD = 18
_COLUMNS = 3  # of the legend


def draw_memory(file: Path, names: Sequence[str], memory: Memory, boxes: Sequence[Box] = ()) -> None:
    """A row for each colour, or for several that are nobody's: its frames, and below them its sets of
    the second level. The legend tells by which boxes one domain may tell another."""
    legend, rows = _legend(names, memory, boxes), len(memory.ranges())
    heights = [0.2 + 0.17 * -(-len(legend) // _COLUMNS), 0.6 + 0.36 * rows, 0.6 + 0.24 * rows]
    figure = Figure(figsize=(WIDTH, sum(heights)), layout="constrained")
    above, frames, sets = figure.subplots(3, 1, height_ratios=heights)
    above.set_axis_off()
    above.legend(handles=legend, loc="upper left", ncols=_COLUMNS, frameon=False, borderaxespad=0)
    _draw_frames(frames, names, memory)
    _draw_sets(sets, names, memory)
    save(figure, file)


def _draw_frames(axes: Axes, names: Sequence[str], memory: Memory) -> None:
    columns = -(-len(memory.frames) // memory.colours)
    ranges = memory.ranges()
    row_of = {colour: row for row, colours in enumerate(ranges) for colour in colours}
    cells = numpy.ones((len(ranges), columns, 3))
    for frame in memory.frames:
        row, column = row_of[memory.colour(frame)], frame.number // memory.colours
        cells[row, column] = _colour(frame)
        if columns <= _MOST_TOLD and _words(frame):
            of_text = "white" if is_dark(_colour(frame)) else "black"
            axes.text(column, row, _words(frame), ha="center", va="center", fontsize=SMALL, color=of_text)
    _show(axes, cells, names, memory)
    axes.set_title("frames, by their page colours", loc="left", fontsize=PLAIN)
    axes.set_xlabel(f"in column c and the row of colour k stands frame {memory.colours} c + k")


def _draw_sets(axes: Axes, names: Sequence[str], memory: Memory) -> None:
    ranges = memory.ranges()
    cells = numpy.ones((len(ranges), memory.sets_of_colour, 3))
    for row, colours in enumerate(ranges):
        owner = memory.owners.get(colours.start)
        cells[row, :] = grey(_NOBODYS) if owner is None else mixed(colour_of(owner), 0.5)
    for place, lines in enumerate(memory.shared_lines):
        if lines:
            cells[0, place] = grey(_SHARED)
    _show(axes, cells, names, memory)
    axes.set_title(
        f"sets of the second level, of {memory.ways} ways, by their page colours", loc="left", fontsize=PLAIN
    )
    axes.set_xlabel(f"in column s and the row of colour k is set {memory.sets_of_colour} k + s")


def _legend(names: Sequence[str], memory: Memory, boxes: Sequence[Box]) -> list[Patch]:
    shared = sum(memory.shared_lines)
    return [
        Patch(facecolor=grey(_SHARED), label=f"the kernel's region, shared by all ({shared} lines)"),
        *(Patch(facecolor=colour_of(number), label=f"{name}'s alone") for number, name in enumerate(names)),
        Patch(facecolor=grey(_NOBODYS), label="nobody's"),
        Patch(facecolor="none", label="strongest to faintest: clone of the kernel,"),
        Patch(facecolor="none", label="page tables, pages by their numbers, free"),
        *(Patch(facecolor=colour_of(it.sender), label=_telling(it, names)) for it in boxes),
    ]


def _telling(box: Box, names: Sequence[str]) -> str:
    return f"{names[box.sender]} may tell {names[box.receiver]}"


def _show(axes: Axes, cells: Any, names: Sequence[str], memory: Memory) -> None:
    axes.imshow(cells, aspect="auto", interpolation="nearest")
    axes.set_yticks(range(len(cells)), [_owner(colours, names, memory) for colours in memory.ranges()])
    axes.set_yticks([it - 0.5 for it in range(1, len(cells))], minor=True)
    axes.grid(which="minor", axis="y", color=paper(), linewidth=2)
    axes.tick_params(which="minor", length=0)


def _owner(colours: range, names: Sequence[str], memory: Memory) -> str:
    told = f"{colours.start}" + (f" to {colours[-1]}" if len(colours) > 1 else "")
    owner = memory.owners.get(colours.start)
    if owner is None:
        return f"{told}: {'nobody' if colours.start else 'the kernel'}"
    return f"{told}: {names[owner]}"


def _words(frame: Frame) -> str:
    if frame.page is not None:
        return f"page\n{frame.page}"
    return "" if frame.use in (Use.FREE, Use.NOBODYS) else frame.use.value


def _colour(frame: Frame) -> tuple[float, ...]:
    if frame.domain is None:
        return grey(_SHARED if frame.use is Use.SHARED else _NOBODYS)
    if frame.use.is_of_clone:
        return mixed(colour_of(frame.domain), 0.6, ink())
    share = 0.75 if frame.use.is_of_tables else 0.45 if frame.use is Use.PAGE else 0.12
    return mixed(colour_of(frame.domain), share)
