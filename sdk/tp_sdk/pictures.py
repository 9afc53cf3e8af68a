"""Pictures as values, which a notebook shows and a file keeps."""

from __future__ import annotations

import tempfile
from collections.abc import Hashable, Mapping, Sequence
from dataclasses import dataclass
from pathlib import Path
from typing import TYPE_CHECKING

from tp_sdk.faults import Fault
from tp_sdk.information import capacity, entropy
from tp_sdk.report import Report

# (its library is loaded as the picture is drawn)
if TYPE_CHECKING:
    from tp_sdk.plot_matrix import Side

SUFFIXES = (".svg", ".png")


def refuse_suffix(file: Path) -> None:
    """Faults a name by which no picture is written."""
    if file.suffix not in SUFFIXES:
        raise Fault(f"{file}: a picture is NAME.svg or NAME.png")


@dataclass(frozen=True, repr=False)
class Picture:
    """What a domain measured beside each secret, a side for each mapping that `picture` was given. A notebook
    shows it where it is a cell's last value; `save` writes it."""

    domain: str
    secrets: Sequence[str]
    sides: Sequence[Side]

    def save(self, file: str | Path) -> None:
        """Writes the picture, 830 pixels wide, as NAME.svg or NAME.png: the same reports give the same bytes.
        Raises a `Fault` where the file has another name or can't be written."""
        from tp_sdk.plot_matrix import draw_channel

        refuse_suffix(Path(file))
        draw_channel(Path(file), self.domain, self.secrets, self.sides)

    def _repr_png_(self) -> bytes:
        with tempfile.TemporaryDirectory() as room:
            file = Path(room) / "picture.png"
            self.save(file)
            return file.read_bytes()

    def __repr__(self) -> str:
        sides = ", ".join(f"{side.guards}: {side.bits}" for side in self.sides)
        return f"<Picture of {self.domain}: {sides}>"


def picture(domain: str, *sides: Mapping[Hashable, Report], measure: str = "pairs") -> Picture:
    """A picture of what a domain measured beside each of some secrets, as those of docs/CHANNELS.md.

    Each side has the report of each secret, all of them with the same guard off or with none: a row for
    each secret, a column for each measurement (`Report.measurements`), on one scale, with the bits
    of the secret that the domain's readings tell. Raises a `Fault` where a side is empty, has other
    secrets or several guards off, or a report lacks the domain.
    """
    from tp_sdk.plot_matrix import Side

    secrets = list(sides[0]) if sides else []
    if not secrets:
        raise Fault("a picture wants one side or more, and in each the report of one secret or more")
    drawn = []
    for reports in sides:
        if set(reports) != {*secrets}:
            other = next(iter(set(reports) ^ {*secrets}))
            raise Fault(f"one side of a picture has the secret {other!r}, and another one hasn't")
        off = {report.off for report in reports.values()}
        if len(off) > 1:
            raise Fault(f"one side of a picture has reports with {' and with '.join(map(_guards, off))}")
        rows = [reports[secret].measurements(domain, measure) for secret in secrets]
        readings = [reports[secret].readings(domain) for secret in secrets]
        drawn.append(Side(off.pop(), rows, entropy(readings), capacity(readings)))
    return Picture(domain, [str(secret) for secret in secrets], drawn)


def _guards(off: str | None) -> str:
    return "all guards on" if off is None else f"{off} off"
