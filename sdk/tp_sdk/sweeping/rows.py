"""A sweep's rows: of each point what each observer could tell of the secret, and what it took."""

from __future__ import annotations

from collections import Counter
from collections.abc import Sequence
from dataclasses import dataclass, field
from typing import Any

from tp_sdk.information import capacity, entropy
from tp_sdk.sweeping.plan import Plan
from tp_sdk.sweeping.running import Ran, Seen
from tp_sdk.sweeping.values import Value

REFUSED = "refused"
_DIGITS = 6  # after the point
_MILLION = 1_000_000


@dataclass(frozen=True)
class SweepRow:
    """What one observer could tell at one point of a sweep.

    `varied` has the point's values by their names. `sections` is how many different sections the observer has
    over `secrets` values of the secret; `entropy` is in bits, where each value is equally likely; `capacity` is
    log2 of `sections`, in bits. `cycles` are those of the observer's hart from 0 to its last slot's end, and
    `slot_cycles` those of them that are in slots. `pad` is the greatest pad of an entry, `pad_used` the most that
    a switch used, and `retired` the most instructions that the observer retired, each over all values of the
    secret. `status` is `running`, `exited`, `stopped`, two or three of them with `/` between, or `refused`: then
    `note` says why, and what is counted is None. `sweep` tells sweeps apart."""

    varied: dict[str, Value]
    observer: str
    secret: str
    secrets: int
    sections: int | None
    entropy: float | None
    capacity: float | None
    bits_per_slot: float | None
    bits_per_million_cycles: float | None
    slots: int
    slot_cycles: int | None
    cycles: int | None
    pad: int | None
    pad_used: int | None
    retired: int | None
    status: str
    note: str
    sweep: str

    def row(self) -> dict[str, Any]:
        """One flat row: what is varied, then the rest, as the columns of a file are."""
        return self.varied | {name: getattr(self, name) for name in COLUMNS}


COLUMNS = tuple(name for name in SweepRow.__dataclass_fields__ if name != "varied")


@dataclass
class _OfPoint:
    """The runs of a point, as far as they are there."""

    sections: list[Counter[bytes]]
    done: int = 0
    most: list[Seen | None] = field(default_factory=list)
    pad: int = 0
    pad_used: int = 0
    refused: Ran | None = None


class Rows:
    """Makes rows of runs: a point's are there with its last run."""

    def __init__(self, plan: Plan) -> None:
        self._plan, self._sweep = plan, plan.sweep
        self._points: dict[int, _OfPoint] = {}

    def add(self, ran: Ran) -> list[SweepRow] | None:
        """Takes a run, and gives the rows of its point where that was the last one."""
        observers = self._plan.observers
        point = self._points.get(ran.run.point)
        if point is None:
            point = _OfPoint([Counter() for _ in observers], most=[None] * len(observers))
            self._points[ran.run.point] = point
        point.done += 1
        if ran.refused and (point.refused is None or ran.run.secret < point.refused.run.secret):
            point.refused = ran
        for number, seen in enumerate(ran.seen):
            point.sections[number][seen.section] += 1
            point.most[number] = _most(point.most[number], seen)
        point.pad, point.pad_used = max(point.pad, ran.pad), max(point.pad_used, ran.pad_used)
        if point.done < len(self._plan.secrets):
            return None
        del self._points[ran.run.point]
        return [self._row(ran.run.point, point, number) for number in range(len(observers))]

    def _row(self, place: int, point: _OfPoint, number: int) -> SweepRow:
        plan, seen, sections = self._plan, point.most[number], point.sections[number]
        is_refused = point.refused is not None or seen is None
        counted = _NOTHING if seen is None or is_refused else _counted(sections, seen, point, plan.slots)
        return SweepRow(
            varied=dict(zip(plan.names, plan.points.values(place))),
            observer=plan.observers[number],
            secret=plan.secret,
            secrets=len(plan.secrets),
            slots=plan.slots,
            status=REFUSED if seen is None or is_refused else seen.status,
            note="" if point.refused is None else self._note(point.refused),
            sweep=self._sweep,
            **counted,
        )

    def _note(self, refused: Ran) -> str:
        """Why a point is refused, and with which value of the secret, where there are several."""
        if len(self._plan.secrets) == 1:
            return refused.refused
        values = self._plan.secrets.values(refused.run.secret)
        told = ", ".join(f"{it.name} {value}" for it, value in zip(self._plan.secrets.varied, values))
        return f"{told}: {refused.refused}"


_NOTHING: dict[str, Any] = dict.fromkeys(
    (
        "sections",
        "entropy",
        "capacity",
        "bits_per_slot",
        "bits_per_million_cycles",
        "slot_cycles",
        "cycles",
        "pad",
        "pad_used",
        "retired",
    )
)


def _counted(sections: Counter[bytes], seen: Seen, point: _OfPoint, slots: int) -> dict[str, Any]:
    """What a row counts."""
    bits = capacity(sections)
    return {
        "sections": len(sections),
        "entropy": _rounded(entropy(list(sections.elements()))),
        "capacity": _rounded(bits),
        "bits_per_slot": _rounded(bits / slots) if slots else None,
        "bits_per_million_cycles": _rounded(bits * _MILLION / seen.cycles) if seen.cycles else None,
        "slot_cycles": seen.slot_cycles,
        "cycles": seen.cycles,
        "pad": point.pad,
        "pad_used": point.pad_used,
        "retired": seen.retired,
    }


def _most(one: Seen | None, other: Seen) -> Seen:
    # (runs of a point that came to the same, and from a worker at once, have the same one)
    if one is None or one is other:
        return other
    return Seen(
        b"",
        "/".join(sorted({*one.status.split("/"), *other.status.split("/")})),
        max(one.retired, other.retired),
        max(one.cycles, other.cycles),
        max(one.slot_cycles, other.slot_cycles),
    )


def _rounded(number: float) -> float:
    return round(number, _DIGITS) + 0.0


def columns_of(names: Sequence[str]) -> list[str]:
    """The columns of a file, where these are varied."""
    return [*names, *COLUMNS]
