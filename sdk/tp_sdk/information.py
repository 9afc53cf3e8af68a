"""How much the readings of a spy tell of its neighbours, in bits."""

from __future__ import annotations

from collections import Counter
from collections.abc import Collection, Hashable, Sequence
from dataclasses import dataclass
from itertools import zip_longest
from math import log2


@dataclass(frozen=True)
class Measured:
    """The information of a set of reports, one of each neighbour, all neighbours equally likely."""

    neighbours: int
    sections: int  # different ones
    of_section: float
    of_one_reading: float
    best_reading: int | None

    @property
    def capacity(self) -> float:
        """The most that the sections can tell of a neighbour, however likely each is."""
        return log2(self.sections)

    @property
    def most(self) -> float:
        """What would tell each neighbour from each other one."""
        return log2(self.neighbours)


def entropy(values: Sequence[Hashable]) -> float:
    """The entropy of a value drawn from these. A run is determined by the neighbour, so for one
    value of each neighbour it is the information that the value has of the neighbour."""
    total = len(values)
    # (+ 0.0 makes no negative zero of one value alone)
    return -sum(count / total * log2(count / total) for count in Counter(values).values()) + 0.0


def capacity(values: Collection[Hashable]) -> float:
    """The most that a value of these can tell of the neighbour, however likely each neighbour is: a run is
    determined by the neighbour, so it is log2 of how many different values there are."""
    return log2(len(set(values)))


def measure(sections: Sequence[str], readings: Sequence[Sequence[int]]) -> Measured:
    """The information of whole sections, and of the one reading that tells most. That one is not
    there tells, too."""
    each = [entropy(place) for place in zip_longest(*readings)]
    best = max(range(len(each)), key=lambda place: each[place]) if any(each) else None
    return Measured(
        len(sections),
        len(set(sections)),
        entropy(sections),
        0.0 if best is None else each[best],
        best,
    )
