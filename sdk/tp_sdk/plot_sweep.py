"""Pictures of a sweep: numbers of its points as lines, or as a map of two things that are varied."""

from __future__ import annotations

from collections.abc import Sequence
from pathlib import Path
from typing import TYPE_CHECKING, Any

from tp_sdk.plots import (
    PLAIN,
    SMALL,
    WIDTH,
    Figure,
    colour_of,
    grey,
    is_dark,
    is_wide,
    paper,
    save,
    short,
    title,
)
from tp_sdk.sweeping.charts import UNITS, Chart, Side, Value

# (after that one, which tells where the library is missing)
import numpy
from matplotlib.colors import LinearSegmentedColormap, to_hex
from matplotlib.lines import Line2D
from matplotlib.ticker import MaxNLocator, StrMethodFormatter

if TYPE_CHECKING:
    from matplotlib.axes import Axes

MOST_LINES = 8  # more of them are a map
_BESIDE = 3  # so many sides at most, and the others below them
_REFUSED = 0.2  # of the texts' colour
_MARKS = "os^Dv<>P"
_CELL_LETTER = 0.08  # inches
# (after the paper's own, on white and on dark)
_ON_WHITE, _ON_DARK = ("#d6e6f4", "#7fb2d9", "#2f6fad"), ("#1f3a55", "#3f78ab", "#a5cdee")


def draw_sweep(file: Path, chart: Chart, form: str | None) -> None:
    """Draws a side for each observer, all on one scale: lines where nothing else is said and they are few."""
    is_map = form == "map" or (form is None and len(chart.values(1)) > MOST_LINES)
    beside = min(len(chart.sides), _BESIDE)
    below = -(-len(chart.sides) // beside)
    height = 0.24 * max(len(chart.values(1)), 6) + 0.6 if is_map else 2.6
    figure = Figure(figsize=(WIDTH, 0.5 + below * height), layout="constrained")
    figure.suptitle(title(chart.title), x=0.01, ha="left", fontsize=PLAIN)
    grid = figure.subplots(below, beside, sharex=True, sharey=True, squeeze=False)
    places = list(grid.flat)
    for axes in places[len(chart.sides) :]:
        axes.set_axis_off()
    draw = _draw_maps if is_map and chart.other is not None else _draw_lines
    draw(figure, places[: len(chart.sides)], chart)
    save(figure, file)


# ---- lines


def _draw_lines(figure: Any, places: Sequence[Axes], chart: Chart) -> None:
    right = chart.values(0)
    lines: list[Value | None] = [*chart.values(1)] or [None]
    numbers = [it for side in chart.sides for it in side.numbers.values() if it is not None]
    for axes, side in zip(places, chart.sides):
        axes.set_title(f"observer: {side.observer}", loc="left", fontsize=PLAIN)
        for number, line in enumerate(lines):
            _draw_line(axes, side, right, line, number, len(lines))
        _mark_refused(axes, side, right, lines)
        _tell_right(axes, chart, right)
        axes.set_ylim(bottom=0 if not numbers or min(numbers) * 3 < max(numbers) else None)
        if numbers and max(numbers) == 0:
            axes.set_ylim(-0.05, 1)
        axes.yaxis.set_major_locator(MaxNLocator(nbins=6))
        if numbers and max(numbers) >= 1000:
            axes.yaxis.set_major_formatter(StrMethodFormatter("{x:,.0f}"))
        axes.grid(axis="y", color=grey(0.12), linewidth=0.6)
        axes.set_axisbelow(True)
    places[0].set_ylabel(UNITS[chart.column])
    handles = _legend(chart, lines, _are_refused(chart))
    if handles:
        places[-1].legend(handles=handles, title=chart.other, title_fontsize=SMALL, frameon=False)


def _draw_line(
    axes: Axes, side: Side, right: Sequence[Value], line: Value | None, number: int, lines: int
) -> None:
    """A line, with a gap where a point was refused or isn't there."""
    found = [side.numbers.get((value, line)) for value in right]
    below = lines - 1 - number  # (equal lines lie on each other: each is seen, as the upper ones are finer)
    axes.plot(
        _places(right),
        [numpy.nan if it is None else it for it in found],
        color=colour_of(number),
        marker=_MARKS[number % len(_MARKS)],
        markersize=4 + below * min(2, 8 / lines),
        linewidth=1.3 + below * min(0.8, 3 / lines),
        solid_capstyle="round",
    )


def _legend(chart: Chart, lines: Sequence[Value | None], are_refused: bool) -> list[Any]:
    handles: list[Any] = []
    if chart.other is not None:
        for number, line in enumerate(lines):
            mark = _MARKS[number % len(_MARKS)]
            handles.append(Line2D([], [], color=colour_of(number), marker=mark, label=short(str(line))))
    if are_refused:
        handles.append(Line2D([], [], color=grey(0.5), marker="x", linestyle="", label="refused"))
    return handles


def _are_refused(chart: Chart) -> bool:
    return any(it is None for side in chart.sides for it in side.numbers.values())


def _mark_refused(axes: Axes, side: Side, right: Sequence[Value], lines: Sequence[Value | None]) -> None:
    """A cross at the foot where the image of a point is refused."""
    places = [
        place
        for place, value in zip(_places(right), right)
        if any(side.numbers.get((value, line), 0) is None for line in lines)
    ]
    axes.plot(places, [0.02] * len(places), "x", color=grey(0.5), transform=axes.get_xaxis_transform())


def _places(values: Sequence[Value]) -> list[float]:
    """Where values stand: numbers by what they are, words one beside the other."""
    if _are_numbers(values):
        return [float(it) for it in values]
    return [float(it) for it in range(len(values))]


def _are_numbers(values: Sequence[Value]) -> bool:
    return all(isinstance(it, int) for it in values)


def _tell_right(axes: Axes, chart: Chart, values: Sequence[Value]) -> None:
    axes.set_xlabel(chart.right)
    if not _are_numbers(values):
        axes.set_xticks(range(len(values)), [short(str(it)) for it in values])
        axes.set_xlim(-0.3, len(values) - 0.7)
        return
    places = _places(values)
    if is_wide(places):
        axes.set_xscale("log")
    axes.minorticks_off()
    if len(values) <= 12:
        axes.set_xticks(places, [f"{it:,}" for it in values])
    else:
        axes.xaxis.set_major_formatter(StrMethodFormatter("{x:,.0f}"))


# ---- maps


def _draw_maps(figure: Any, places: Sequence[Axes], chart: Chart) -> None:
    right, up = chart.values(0), chart.values(1)
    numbers = [it for side in chart.sides for it in side.numbers.values() if it is not None]
    low, high = min(numbers, default=0), max(numbers, default=1)
    colours, shown = _colours(), None
    for axes, side in zip(places, chart.sides):
        cells = numpy.array([[_cell(side, value, line) for value in right] for line in up])
        axes.set_facecolor(grey(_REFUSED))
        shown = axes.imshow(
            cells,
            aspect="auto",
            interpolation="nearest",
            origin="lower",
            cmap=colours,
            vmin=low,
            vmax=max(high, low + 1e-9),
        )
        if len(right) * _CELL_LETTER * 7 < WIDTH / min(len(chart.sides), _BESIDE) - 1.5:
            _write(axes, cells, lambda it: str(to_hex(colours((it - low) / (high - low or 1)))))
        axes.set_title(f"observer: {side.observer}", loc="left", fontsize=PLAIN)
        _name(axes.xaxis, right)
        _name(axes.yaxis, up)
        axes.set_xlabel(chart.right + (" (grey: refused)" if _are_refused(chart) else ""))
    places[0].set_ylabel(chart.other or "")
    bar = figure.colorbar(shown, ax=list(places), pad=0.01, aspect=16)
    bar.set_label(UNITS[chart.column], fontsize=SMALL)
    if high >= 1000:
        bar.ax.yaxis.set_major_formatter(StrMethodFormatter("{x:,.0f}"))


def _cell(side: Side, value: Value, line: Value) -> float:
    found = side.numbers.get((value, line))
    return float("nan") if found is None else found


def _name(axis: Any, values: Sequence[Value]) -> None:
    """Names rows or columns: not all where they are many."""
    each = -(-len(values) // 24)
    axis.set_ticks(range(0, len(values), each), [short(str(it)) for it in values[::each]])


def _write(axes: Axes, cells: Any, colour: Any) -> None:
    """The numbers in their cells."""
    digits = 0 if all(it == int(it) for it in cells.flat if not numpy.isnan(it)) else 2
    for (row, column), number in numpy.ndenumerate(cells):
        if not numpy.isnan(number):
            of_text = "white" if is_dark(colour(number)) else "black"
            axes.text(
                column, row, f"{number:,.{digits}f}", ha="center", va="center", fontsize=SMALL, color=of_text
            )


def _colours() -> LinearSegmentedColormap:
    """From the paper's colour, for the least, on."""
    colours = (paper(), *(_ON_DARK if is_dark(paper()) else _ON_WHITE))
    return LinearSegmentedColormap.from_list("numbers", colours, N=256)
