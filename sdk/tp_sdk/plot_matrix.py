"""The picture of a channel: a row for each secret, a column for each measurement of a spy, beside each
other with all guards on and with one off."""

from __future__ import annotations

from collections.abc import Callable, Sequence
from dataclasses import dataclass
from pathlib import Path
from typing import TYPE_CHECKING, Any

from tp_sdk.plots import PLAIN, SMALL, WIDTH, Figure, Colour, ink, is_dark, paper, save, short, title

# (after that one, which tells where the library is missing)
import numpy
from matplotlib.colors import LinearSegmentedColormap, to_hex
from matplotlib.ticker import FuncFormatter, MaxNLocator

if TYPE_CHECKING:
    from matplotlib.axes import Axes

_BESIDE = 3  # so many sides at most, and the others below them
_LABELS, _BAR, _GAP = 0.7, 0.9, 0.1  # inches: of the secrets' names, of the scale, between sides
_LEAST_CELL = 0.03  # inches: three pixels
_DIGIT = 0.072  # inches, in the smallest type
_TICKS = 8  # of the scale
# (after the paper's own, on white and on dark)
_ON_WHITE, _ON_DARK = ("#d6e6f4", "#7fb2d9", "#2f6fad"), ("#1f3a55", "#3f78ab", "#a5cdee")


@dataclass(frozen=True)
class Side:
    """The measurements beside each secret, all with the same guard off, or with none; and of the readings
    that they are made of the entropy and the capacity, in bits of the secret."""

    off: str | None
    rows: Sequence[tuple[int, ...]]
    entropy: float
    capacity: float

    @property
    def guards(self) -> str:
        """Which guard is off."""
        return "all guards on" if self.off is None else f"{self.off} off"

    @property
    def bits(self) -> str:
        """What that tells."""
        return f"entropy {self.entropy:.2f}, capacity {self.capacity:.2f} bits"

    @property
    def width(self) -> int:
        """The most measurements beside a secret."""
        return max(map(len, self.rows))

    def tells(self, columns: Sequence[int]) -> bool:
        """One of these measurements is not the same beside each secret."""
        return len({tuple(row[it] for it in columns if it < len(row)) for row in self.rows}) > 1


@dataclass(frozen=True)
class Columns:
    """The measurements of each column of a picture, and what is said of those that are not as measured."""

    groups: Sequence[Sequence[int]]
    told: str


def columns_of(sides: Sequence[Side], most: int) -> Columns:
    """A column for each measurement, where there are so many at most; else for each that tells on some
    side; and where those are too many, too, several in one."""
    width = max(1, *(side.width for side in sides))
    every = range(width)
    if width <= most:
        return Columns([[it] for it in every], "")
    telling = [it for it in every if any(side.tells([it]) for side in sides)] or [0]
    each = -(-len(telling) // most)
    groups = [telling[at : at + each] for at in range(0, len(telling), each)]
    told = f"; of {width} measurements the {len(telling)} that differ on a side"
    return Columns(groups, told if each == 1 else f"{told}, the sum of {each} in a column")


def draw_channel(file: Path, domain: str, secrets: Sequence[str], sides: Sequence[Side]) -> None:
    """Draws the sides on one scale, on which each number has its colour."""
    beside = min(len(sides), _BESIDE)
    room = (WIDTH - _LABELS - _BAR) / beside - _GAP
    columns = columns_of(sides, int(room / _LEAST_CELL))
    numbers = sorted({it for side in sides for row in _sums(side, columns) for it in row if it is not None})
    below = -(-len(sides) // beside)
    height = 0.45 + below * (0.75 + 0.22 * max(len(secrets), 4))
    figure = Figure(figsize=(WIDTH, height), layout="constrained")
    figure.suptitle(
        title(f"cycles that {domain} measured beside each of {len(secrets)} secrets{columns.told}"),
        x=0.01,
        ha="left",
        fontsize=PLAIN,
    )
    grid = figure.subplots(below, beside, sharey=True, squeeze=False)
    all_axes = list(grid.flat)
    for axes in all_axes[len(sides) :]:
        axes.set_axis_off()
    for axes, side in zip(all_axes, sides):
        shown = _draw(axes, side, columns, numbers, room)
    grid[0, 0].set_yticks(range(len(secrets)), [short(it) for it in secrets])
    _draw_scale(figure, all_axes, shown, numbers)
    save(figure, file)


def _sums(side: Side, columns: Columns) -> list[list[int | None]]:
    """The cycles of each cell; none where a row has no measurement."""
    rows = []
    for row in side.rows:
        cells = ([row[it] for it in group if it < len(row)] for group in columns.groups)
        rows.append([sum(cell) if cell else None for cell in cells])
    return rows


def _draw(axes: Axes, side: Side, columns: Columns, numbers: Sequence[int], room: float) -> Any:
    rows = _sums(side, columns)
    places = {number: place for place, number in enumerate(numbers)}
    cells = numpy.array([[numpy.nan if it is None else places[it] for it in row] for row in rows])
    colours = _colours(len(numbers))
    if numbers and len(str(numbers[-1])) * _DIGIT < room / len(columns.groups):
        _write(axes, rows, lambda cycles: str(to_hex(colours(places[cycles]))))
    telling = [place for place, group in enumerate(columns.groups) if side.tells(group)]
    _mark(axes, telling)
    axes.set_title(f"{side.guards}\n{side.bits}", fontsize=PLAIN)
    axes.xaxis.set_major_locator(MaxNLocator(nbins=10, integer=True))
    axes.xaxis.set_major_formatter(FuncFormatter(lambda place, _: _name(columns, place)))
    axes.set_xlabel("measurement" + (" (a bar above: it differs)" if telling else ""))
    most = max(len(numbers) - 1, 1)
    return axes.imshow(
        cells, aspect="auto", interpolation="nearest", cmap=colours, vmin=-0.5, vmax=most + 0.5
    )


def _write(axes: Axes, rows: Sequence[Sequence[int | None]], colour: Callable[[int], Colour]) -> None:
    """The cycles in their cells."""
    for number, row in enumerate(rows):
        for place, cycles in enumerate(row):
            if cycles is not None:
                of_text = "white" if is_dark(colour(cycles)) else "black"
                axes.text(place, number, f"{cycles}", ha="center", va="center", fontsize=SMALL, color=of_text)


def _mark(axes: Axes, places: Sequence[int]) -> None:
    """A bar above each of these columns."""
    for place in places:
        ends = [place - 0.4, place + 0.4]
        axes.plot(ends, [-0.5, -0.5], color=ink(), linewidth=4, clip_on=False, solid_capstyle="butt")


def _name(columns: Columns, place: float) -> str:
    """The first measurement of a column."""
    is_column = place == int(place) and 0 <= place < len(columns.groups)
    return str(columns.groups[int(place)][0]) if is_column else ""


def _colours(count: int) -> LinearSegmentedColormap:
    """A colour for each number, from the least on: that has the paper's."""
    colours = (paper(), *(_ON_DARK if is_dark(paper()) else _ON_WHITE))
    return LinearSegmentedColormap.from_list("cycles", colours, N=max(count, 2))


def _draw_scale(figure: Any, all_axes: Sequence[Axes], shown: Any, numbers: Sequence[int]) -> None:
    count = max(len(numbers), 1)
    ticks = sorted({round(it) for it in numpy.linspace(0, count - 1, min(count, _TICKS))})
    bar = figure.colorbar(shown, ax=list(all_axes), pad=0.01, aspect=16, ticks=ticks)
    bar.ax.set_ylim(-0.5, count - 0.5)
    bar.ax.set_yticklabels([f"{numbers[it]:,}" if numbers else "" for it in ticks])
    bar.set_label("cycles: a step for each number", fontsize=SMALL)
