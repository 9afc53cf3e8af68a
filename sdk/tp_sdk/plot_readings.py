"""Pictures of what domains measured in many reports."""

from __future__ import annotations

from collections.abc import Sequence
from dataclasses import dataclass
from math import log, log10
from pathlib import Path
from typing import TYPE_CHECKING, Any

from tp_sdk.measurements import Row
from tp_sdk.plots import (
    PLAIN,
    SMALL,
    WIDTH,
    Figure,
    colour_of,
    grey,
    is_dark,
    is_wide,
    paper,
    save,
    short,
    tell_cycles,
    title,
)

# (after that one, which tells where the library is missing)
import numpy
from matplotlib.colors import LinearSegmentedColormap, ListedColormap, LogNorm, Normalize
from matplotlib.patches import Patch
from matplotlib.ticker import FuncFormatter, MaxNLocator

if TYPE_CHECKING:
    from matplotlib.axes import Axes

_OVER_END, _ALONE = 0.28, 0.08  # of the texts' colour
_NONE = "no readings to draw"
_BINS = 120
_BESIDE_NAMES = 84  # letters of a title, where the rows' names are long


@dataclass(frozen=True)
class Panel:
    """What one domain measured in each report, and what that tells in a sentence."""

    domain: str
    rows: Sequence[Row]
    verdict: str
    against: str | None = None  # the report that others are compared with

    @property
    def reports(self) -> int:
        """How many there are."""
        return sum(len(row.reports) for row in self.rows)

    @property
    def compared(self) -> Row:
        """The row with which the others are compared: the first one with measurements, if none is named."""
        named = (row for row in self.rows if self.against in row.reports)
        measured = (row for row in self.rows if row.measurements.cycles)
        return next(named, next(measured, self.rows[0]))

    @property
    def width(self) -> int:
        """The most measurements of a report."""
        return max(len(row.measurements.cycles) for row in self.rows)

    def within_slots(self) -> list[int]:
        """The cycles of all measurements within which no slot ended."""
        return [cycles for row in self.rows for cycles in row.measurements.within_slots()]


def draw_matrix(file: Path, panels: Sequence[Panel]) -> None:
    """For each domain a row for each report, a column for each measurement, its cycles as a colour; and
    below that, where reports differ, by what they do from one report's."""
    rows = [0.24 * max(len(panel.rows), 2) for panel in panels for _ in range(_pictures(panel))]
    figure, (*places, last) = _places([*rows, 0.3], len(panels))
    for panel in panels:
        axes = places.pop(0)
        axes.set_title(title(panel.verdict), loc="left", fontsize=PLAIN)
        _draw_cycles(figure, axes, panel)
        if _pictures(panel) > 1:
            _draw_differences(figure, places.pop(0), panel)
    last.set_axis_off()
    last.legend(
        handles=[
            Patch(facecolor=grey(_OVER_END), label="a slot ended within it: left out of the scale"),
            Patch(
                facecolor=paper(),
                edgecolor=grey(0.4),
                label="of cycles: no measurement; of differences: none",
            ),
            Patch(
                facecolor=grey(_ALONE),
                label="of differences: one of the two has no measurement, or a slot ended within one alone",
            ),
        ],
        loc="lower right",
        ncols=2,
        frameon=False,
        borderaxespad=0,
    )
    save(figure, file)


def _pictures(panel: Panel) -> int:
    """How many a panel has."""
    return 1 if len(panel.rows) == 1 else 2


def _draw_cycles(figure: Figure, axes: Axes, panel: Panel) -> None:
    cells = _blank(panel)
    is_over = _blank(panel)
    for number, row in enumerate(panel.rows):
        for place, (cycles, over) in enumerate(zip(row.measurements.cycles, row.measurements.is_over_end)):
            if over:
                is_over[number, place] = 1
            else:
                cells[number, place] = cycles
    within = panel.within_slots()
    shown = _show(axes, cells, cmap="viridis", norm=LogNorm() if within and is_wide(within) else None)
    _show(axes, is_over, cmap=ListedColormap([grey(_OVER_END)]))
    if within:
        bar = figure.colorbar(shown, ax=axes, pad=0.02, aspect=8)
        if is_wide(within):
            tell_cycles(bar.ax.yaxis)
        else:
            bar.locator = MaxNLocator(integer=True, nbins=4)
            bar.update_ticks()
        bar.set_label("logarithmic" if is_wide(within) else "linear", fontsize=SMALL)
    _name_rows(axes, panel)
    for number, row in enumerate(panel.rows):
        if not row.measurements.cycles:
            _say(axes, number, _NONE)
    axes.set_xlabel(f"{panel.domain}: cycles of each measurement{_one_row(panel)}{_left_out(panel)}")


def _draw_differences(figure: Figure, axes: Axes, panel: Panel) -> None:
    first = panel.compared.measurements
    cells, alone = _blank(panel), _blank(panel)
    most = 1.0
    for number, row in enumerate(panel.rows):
        for place in range(max(len(row.measurements.cycles), len(first.cycles))):
            difference = row.measurements.more_than(first, place)
            if difference is None:
                alone[number, place] = 1
                continue
            cells[number, place] = far(difference)
            if not first.is_over_end[place]:
                most = max(most, abs(far(difference)))
    shown = _show(axes, cells, cmap=difference_colours(most), norm=Normalize(-most, most))
    _show(axes, alone, cmap=ListedColormap([grey(_ALONE)]))
    powers = range(1, int(most) + 1)
    ticks = [*(-power for power in reversed(powers)), 0, *powers]
    bar = figure.colorbar(shown, ax=axes, pad=0.02, aspect=8, ticks=ticks)
    bar.ax.yaxis.set_major_formatter(FuncFormatter(lambda place, _: near(place)))
    bar.set_label("logarithmic", fontsize=SMALL)
    _name_rows(axes, panel)
    axes.set_xlabel(f"{panel.domain}: cycles more than in {panel.against or panel.compared.reports[0]}")


def difference_colours(most: float) -> LinearSegmentedColormap:
    """The paper's for no difference alone: the next one, of one cycle, has a colour that is seen."""
    none = 0.25 / most
    fewer, more = ("#08306b", "#7db8da"), ("#f6a178", "#7f0000")
    if is_dark(paper()):
        fewer, more = ("#a9d6f5", "#1f5f99"), ("#8f3a2a", "#ffc9a8")
    return LinearSegmentedColormap.from_list(
        "differences",
        [
            (0, fewer[0]),
            (0.5 - none, fewer[1]),
            (0.5 - none, paper()),
            (0.5 + none, paper()),
            (0.5 + none, more[0]),
            (1, more[1]),
        ],
        N=1024,
    )


def far(difference: int) -> float:
    """Where a difference stands on the scale: 0, 1 cycle, 10 and 100 are equally far apart."""
    if difference == 0:
        return 0.0
    return (1 + log10(abs(difference))) * (1 if difference > 0 else -1)


def near(place: float) -> str:
    """What is told of a place on that scale."""
    return "0" if place == 0 else f"{'+' if place > 0 else '−'}{10 ** (abs(place) - 1):,.0f}"


def _blank(panel: Panel) -> Any:
    """Cells of which none is drawn."""
    return numpy.full((len(panel.rows), max(panel.width, 1)), numpy.nan)


def _show(axes: Axes, cells: Any, **how: Any) -> Any:
    return axes.imshow(cells, aspect="auto", interpolation="nearest", **how)


def _say(axes: Axes, row: int, what: str) -> None:
    axes.text(0.5, row, what, transform=axes.get_yaxis_transform(), ha="center", va="center", fontsize=PLAIN)


def _name_rows(axes: Axes, panel: Panel) -> None:
    axes.set_yticks(range(len(panel.rows)), [_name(row) for row in panel.rows])


def _name(row: Row) -> str:
    name, others = short(row.reports[0]), len(row.reports) - 1
    return name if not others else f"{name} and {others} more"


def _one_row(panel: Panel) -> str:
    """What a picture of differences would tell."""
    if len(panel.rows) > 1:
        return ""
    return f"; one row for all {panel.reports} reports: every difference is 0"


def _left_out(panel: Panel) -> str:
    """What the reports don't list."""
    unlisted = max(row.measurements.made - len(row.measurements.cycles) for row in panel.rows)
    return f" (reports list the first 256 readings: up to {unlisted} more were made)" if unlisted else ""


def draw_histogram(file: Path, panels: Sequence[Panel]) -> None:
    """How often so many cycles were measured, a strip for each report."""
    figure, places = _places([0.4 * len(panel.rows) for panel in panels], len(panels))
    for axes, panel in zip(places, panels):
        axes.set_title(title(panel.verdict, _BESIDE_NAMES), loc="left", fontsize=PLAIN)
        _draw_counts(axes, panel)
    save(figure, file)


def _places(heights: Sequence[float], panels: int) -> tuple[Figure, list[Axes]]:
    """A picture, and places of these heights, one below the other, with room for words."""
    words = 0.5 * len(heights) + 0.25 * panels
    figure = Figure(figsize=(WIDTH, sum(heights) + words), layout="constrained")
    places = figure.subplots(len(heights), 1, squeeze=False, height_ratios=heights)
    return figure, list(places[:, 0])


def _draw_counts(axes: Axes, panel: Panel) -> None:
    """Each strip has a base line of its own, and a count has the same height in all: that of a count
    is logarithmic, so that what was measured once is seen."""
    bins = _bins(panel.within_slots())
    counts = [numpy.histogram(row.measurements.within_slots(), bins)[0] for row in panel.rows]
    most = max(max(of) for of in counts) or 1
    places = range(len(panel.rows) - 1, -1, -1)
    for number, (place, of) in enumerate(zip(places, counts)):
        heights = 0.9 * numpy.log1p(of) / log(1 + most)
        axes.stairs(place + heights, bins, baseline=place, fill=True, color=colour_of(number))
    axes.set_yticks(
        places, [f"{_name(row)}: {_counted(row)}" for row in panel.rows], fontsize=SMALL, va="bottom"
    )
    axes.set_ylim(-0.05, len(panel.rows))
    if is_wide(bins):
        axes.set_xscale("log")
        tell_cycles(axes.xaxis)
    else:
        axes.xaxis.set_major_locator(MaxNLocator(integer=True))
    kind = "logarithmic" if is_wide(bins) else "linear"
    axes.set_xlabel(
        f"cycles measured by {panel.domain}, {kind} (height: how often, logarithmic, {most} at most)"
    )


def _counted(row: Row) -> str:
    """How many are drawn, and how many not."""
    within, over = len(row.measurements.within_slots()), sum(row.measurements.is_over_end)
    if not within and not over:
        return _NONE
    return f"{within}" + (f" ({over} over a slot's end left out)" if over else "")


def _bins(values: Sequence[int]) -> list[float]:
    """Ends of the counts' ranges: of one cycle each where there are few."""
    if not values:
        return [0, 1]
    low, high = min(values), max(values) + 1
    if high - low <= 2 * _BINS:
        return [float(it) for it in range(low, high + 1)]
    if is_wide(values):
        return [low * (high / low) ** (number / _BINS) for number in range(_BINS + 1)]
    return [low + (high - low) * number / _BINS for number in range(_BINS + 1)]
