"""What a sweep varies, which of it is the secret, and its points: all that each of its runs needs."""

from __future__ import annotations

import hashlib
from collections.abc import Iterable, Sequence
from dataclasses import dataclass, field
from functools import cached_property
from math import prod

from tp_sdk.description import Description
from tp_sdk.elf import Loaded
from tp_sdk.sweeping.places import AtSymbol, DomainKey, Variant, Where
from tp_sdk.sweeping.values import Value, Values, written

MOST_RUNS = 1_000_000  # with no word of the user's


@dataclass(frozen=True)
class Varied:
    """A thing that has other values: its column's name, where it stands."""

    name: str
    where: Where
    values: Values


@dataclass(frozen=True)
class Grid:
    """Combinations of the values of several things, by their numbers: the last thing's value is the next one's
    first; all of them, or those that were drawn."""

    varied: tuple[Varied, ...]
    numbers: Sequence[int]

    @classmethod
    def of(cls, varied: Iterable[Varied], drawn: int | None = None, seed: int = 0) -> Grid:
        """All combinations, or as many as are drawn by the seed, in the order of all."""
        its = tuple(varied)
        every = range(prod(len(it.values) for it in its))
        if drawn is None or drawn >= len(every):
            return cls(its, every)
        import random  # (it takes a while to load)

        return cls(its, sorted(random.Random(seed).sample(every, drawn)))

    def __len__(self) -> int:
        return len(self.numbers)

    def values(self, place: int) -> list[Value]:
        """The values of a combination, by its place among those of the grid."""
        number, values = self.numbers[place], []
        for it in reversed(self.varied):
            number, at = divmod(number, len(it.values))
            values.append(it.values[at])
        return values[::-1]

    def put(self, variant: Variant, place: int) -> None:
        """Has the values of a combination in a variant."""
        for it, value in zip(self.varied, self.values(place)):
            it.where.put(variant, value)


@dataclass(frozen=True)
class Run:
    """One run of a sweep, by the places of its point and its secret in their grids."""

    point: int
    secret: int


@dataclass(frozen=True)
class Runs:
    """The runs of some points, each with every value of the secret, of which there are so many."""

    points: Sequence[int]
    secrets: int

    def __len__(self) -> int:
        return len(self.points) * self.secrets

    def part(self, numbers: range) -> list[Run]:
        """The runs of these numbers."""
        return [Run(self.points[it // self.secrets], it % self.secrets) for it in numbers]


# What a program is compiled for, and so loaded by: its domain's place, the stack, the instructions.
Compiled = tuple[int, int | None, str]


@dataclass(frozen=True)
class Plan:
    """A sweep. Its points are the combinations of what is varied and is no secret."""

    description: Description
    programs: dict[Compiled, Loaded]
    points: Grid
    secrets: Grid
    observers: tuple[str, ...]
    slots: int
    base: str = field(repr=False)  # the image with nothing varied, as a text

    @property
    def runs(self) -> int:
        """How many runs it has."""
        return len(self.points) * len(self.secrets)

    @property
    def names(self) -> list[str]:
        """The names of what is varied and is no secret."""
        return [it.name for it in self.points.varied]

    @property
    def secret(self) -> str:
        """The names of what is the secret."""
        return "+".join(it.name for it in self.secrets.varied)

    @cached_property
    def is_secret_of_domains(self) -> bool:
        """The secret is in what domains have, and neither in the machine nor in the schedule, nor is it a guard."""
        return all(isinstance(it.where, (AtSymbol, DomainKey)) for it in self.secrets.varied)

    def at(self, point: int) -> Variant:
        """What the description says at a point, with no secret put."""
        variant = Variant.of(self.description)
        self.points.put(variant, point)
        return variant

    def with_secret(self, variant: Variant, secret: int) -> Variant:
        """What it says with this value of the secret."""
        made = variant.copy()
        self.secrets.put(made, secret)
        return made

    @cached_property
    def sweep(self) -> str:
        """What tells the sweep from others: all but the values of what is varied and is no secret."""
        parts = [self.base, str(self.slots), *self.observers]
        parts += [f"{it.name} {it.where}" for it in (*self.points.varied, *self.secrets.varied)]
        if self.secrets.varied:
            parts += [f"{self.secrets.numbers}"]
            parts += [it.values.in_short() for it in self.secrets.varied]
        for (domain, stack, arch), loaded in sorted(self.programs.items(), key=str):
            segments = [f"{it.page} {it.pages} {it.rights} {it.data.hex()}" for it in loaded.segments]
            parts += [f"{domain} {stack} {arch} {loaded.entry}", *segments]
        return hashlib.sha256("\0".join(parts).encode()).hexdigest()[:12]

    def key(self, point: int) -> tuple[str, ...]:
        """A point's values as columns have them."""
        return tuple(written(value) for value in self.points.values(point))
