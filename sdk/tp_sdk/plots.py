"""What all pictures share: the library that draws them, their width and type, colours on white or dark
paper, their files, scales that tell cycles."""

from __future__ import annotations

import textwrap
from collections.abc import Sequence
from pathlib import Path
from typing import TYPE_CHECKING

from tp_sdk.faults import Fault, MissingLibrary

try:
    import matplotlib
    from matplotlib.colors import to_rgb

    # (of no window or notebook: who draws with pyplot besides has that as it was)
    from matplotlib.figure import Figure as Figure
    from matplotlib.ticker import LogLocator, NullFormatter, StrMethodFormatter
except ImportError:
    raise MissingLibrary("matplotlib", "matplotlib") from None

if TYPE_CHECKING:
    from matplotlib.axis import Axis

Colour = str | tuple[float, ...]

# A page of text is some 830 pixels wide, and so are pictures, in inches: there the smallest type has 9.
WIDTH = 8.6
SMALL, PLAIN = 7, 9
_PIXELS = 96  # of an inch
_LETTERS = 118  # of a line of a title
_NAME_MOST = 20
_DARK_PAPER, _LIGHT_INK = "#16191d", "#e8e8e8"

matplotlib.rcParams.update(
    {
        # (the same picture is the same file)
        "svg.hashsalt": "tp",
        # (texts as texts: a small file, in which they can be searched)
        "svg.fonttype": "none",
        "font.sans-serif": ["DejaVu Sans"],
        "font.size": PLAIN,
        "axes.labelsize": SMALL + 1,
        **dict.fromkeys(("xtick.labelsize", "ytick.labelsize", "legend.fontsize"), SMALL),
    }
)


def use_dark_paper() -> None:
    """Draws all pictures from now on in light colours on dark paper."""
    for key in ("figure.facecolor", "axes.facecolor"):
        matplotlib.rcParams[key] = _DARK_PAPER
    for key in ("text.color", "axes.labelcolor", "axes.edgecolor", "xtick.color", "ytick.color"):
        matplotlib.rcParams[key] = _LIGHT_INK


def ink() -> str:
    """The colour of texts."""
    return str(matplotlib.rcParams["text.color"])


def paper() -> str:
    """The colour on which all is drawn."""
    return str(matplotlib.rcParams["figure.facecolor"])


def is_dark(colour: Colour) -> bool:
    """What stands on it is to be light."""
    red, green, blue = to_rgb(colour)
    return bool(0.3 * red + 0.59 * green + 0.11 * blue < 0.5)


def mixed(colour: Colour, share: float, other: Colour | None = None) -> tuple[float, ...]:
    """So much of a colour, and the rest of another, else of the paper."""
    pairs = list(zip(to_rgb(colour), to_rgb(paper() if other is None else other)))
    return tuple(share * one + (1 - share) * two for one, two in pairs)


def grey(share: float) -> tuple[float, ...]:
    """So much of the texts' colour on the paper."""
    return mixed(ink(), share)


def colour_of(domain: int) -> str:
    """A domain's colour in every picture."""
    return f"C{domain % 10}"


def title(text: str, letters: int = _LETTERS) -> str:
    """A text in as many lines as it needs."""
    return "\n".join(textwrap.wrap(text, letters))


def short(name: str) -> str:
    """A name that leaves room for the picture."""
    return name if len(name) <= _NAME_MOST else f"{name[: _NAME_MOST - 2]}.."


def is_wide(values: Sequence[float]) -> bool:
    """They want a logarithmic scale, and have one."""
    return 0 < min(values) and 10 * min(values) < max(values)


def tell_cycles(axis: Axis) -> None:
    """Has a logarithmic axis tell 1, 2 and 5 of each power of ten, in full: there may be one power alone."""
    axis.set_major_locator(LogLocator(subs=(1, 2, 5)))
    axis.set_major_formatter(StrMethodFormatter("{x:,.0f}"))
    axis.set_minor_formatter(NullFormatter())


def save(figure: Figure, file: Path) -> None:
    """Writes the picture, the same each time: the last digits of what the layout finds may be others, and
    go into names of parts of the file."""
    figure.draw_without_rendering()
    figure.set_layout_engine("none")
    for axes in figure.axes:
        axes.set_position(tuple(round(it, 4) for it in axes.get_position().bounds))
    metadata = {"Date": None} if file.suffix == ".svg" else None
    try:
        # ("tight" grows the picture where a text would be cut off)
        figure.savefig(
            file,
            metadata=metadata,
            bbox_inches="tight",
            pad_inches=0.03,
            dpi=_PIXELS if file.suffix == ".png" else "figure",
        )
    except OSError as error:
        raise Fault(f"{file}: {error.strerror}") from None
    # (of a picture that is too large)
    except ValueError as error:
        raise Fault(f"{file}: {error}") from None
