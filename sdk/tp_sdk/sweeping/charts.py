"""What of a sweep's rows a picture shows: one column's numbers, by one or two of the varied things."""

from __future__ import annotations

from collections.abc import Sequence
from dataclasses import dataclass
from pathlib import Path

from tp_sdk.faults import Fault
from tp_sdk.spelling import did_you_mean
from tp_sdk.sweeping.tables import Cells, format_of, number_of
from tp_sdk.sweeping.values import as_read, written

UNITS = {
    "capacity": "bits",
    "entropy": "bits",
    "bits_per_slot": "bits of capacity a slot",
    "bits_per_million_cycles": "bits of capacity a million cycles",
    "sections": "different sections",
    "cycles": "cycles to the last slot's end",
    "slot_cycles": "cycles in slots",
    "pad": "cycles",
    "pad_used": "cycles",
    "retired": "instructions",
}

Value = int | str
# A place of a picture: the value of what goes to the right, and of what has lines or goes up.
Spot = tuple[Value, Value | None]


@dataclass(frozen=True)
class Side:
    """What one observer's rows have at each place: None where the point was refused."""

    observer: str
    numbers: dict[Spot, float | None]


@dataclass(frozen=True)
class Chart:
    """A picture of a sweep: the column that is drawn, what is varied to the right, and what else is, if it is."""

    column: str
    right: str
    other: str | None
    secret: str
    secrets: int
    sides: list[Side]

    def values(self, of: int) -> list[Value]:
        """The values to the right (0), or of what else is varied (1): numbers ascending, words as they come."""
        found = {spot[of]: None for side in self.sides for spot in side.numbers}
        values = [it for it in found if it is not None]
        return sorted(values, key=int) if all(isinstance(it, int) for it in values) else values

    @property
    def title(self) -> str:
        """What is drawn."""
        of = f" of {self.secret} ({self.secrets} values)" if self.secret else ""
        match self.column:
            case "capacity":
                return f"capacity: the most bits{of} that a section can tell, however likely each value is"
            case "entropy":
                return f"entropy: the bits{of} that a section tells, where each value is equally likely"
        name = self.column.replace("_", " ")
        return f"{name}{': ' + UNITS[self.column] if UNITS[self.column] != name else ''}"


def chart_of(
    file: Path, column: str, keys: Sequence[str], where: Sequence[str], observers: Sequence[str]
) -> Chart:
    """A chart of a file of rows: by the keys that are named, else by what has several values in it. Of what else
    is varied one value is chosen by `NAME=VALUE`."""
    rows = format_of(file).rows(file)
    if not rows or "observer" not in rows[0]:
        raise Fault(f"{file}: no rows of a sweep")
    names = list(rows[0])[: list(rows[0]).index("observer")]
    rows = _chosen(file, rows, names, where)
    several = [name for name in names if len({_cell(row, name) for row in rows}) > 1]
    for key in keys:
        if key not in names:
            raise Fault(f"--key {key}: {file} has no such column that is varied{_meant(key, names)}")
    right, other = _right_and_other(file, [*keys] or several or names, len(keys) > 0)
    for name in several:
        if name not in (right, other):
            raise Fault(f"{file}: '{name}' has several values, too: --where {name}=VALUE chooses one")
    there = {str(row["observer"]): None for row in rows}
    for observer in observers:
        if observer not in there:
            raise Fault(f"--observer {observer}: {file} has no such observer{_meant(observer, there)}")
    sides = [
        Side(
            observer,
            {
                (_cell(row, right), None if other is None else _cell(row, other)): number_of(
                    column, row[column]
                )
                for row in rows
                if row["observer"] == observer
            },
        )
        for observer in there
        if not observers or observer in observers
    ]
    return Chart(column, right, other, str(rows[0]["secret"]), int(rows[0]["secrets"]), sides)


def _right_and_other(file: Path, keys: Sequence[str], are_named: bool) -> tuple[str, str | None]:
    if not keys:
        raise Fault(f"{file}: nothing is varied in it but the secret: there is one number to each observer")
    if len(keys) > 2:
        asked = "two keys are drawn at most" if are_named else "--key NAME chooses one or two"
        raise Fault(f"{file}: {len(keys)} things are varied ({', '.join(keys)}): {asked}")
    return keys[0], keys[1] if len(keys) > 1 else None


def _chosen(file: Path, rows: list[Cells], names: Sequence[str], where: Sequence[str]) -> list[Cells]:
    for given in where:
        name, _, value = given.partition("=")
        if name not in names:
            raise Fault(f"--where {given}: {file} has no such column that is varied{_meant(name, names)}")
        there = {written(_cell(row, name)): None for row in rows}
        if value not in there:
            raise Fault(f"--where {given}: no row has it: {', '.join(there)}")
        rows = [row for row in rows if written(_cell(row, name)) == value]
    return rows


def _cell(row: Cells, name: str) -> Value:
    value = as_read(row[name])
    return value if isinstance(value, int) and not isinstance(value, bool) else written(value)


def _meant(name: str, known: Sequence[str] | dict[str, None]) -> str:
    return did_you_mean(name, known) or f": {', '.join(known) or 'none is'}"
