"""From what is asked for to the plan of a sweep."""

from __future__ import annotations

from collections.abc import Iterable, Mapping, Sequence
from dataclasses import dataclass, field
from itertools import islice, product
from pathlib import Path

from tp_sdk.build import set_words
from tp_sdk.description import Description, read_description
from tp_sdk.elf import Loaded
from tp_sdk.faults import Fault
from tp_sdk.program import Program
from tp_sdk.schedule import Entry
from tp_sdk.spelling import did_you_mean
from tp_sdk.sweeping.images import Images
from tp_sdk.sweeping.places import (
    HARTS,
    NOISE,
    OFF,
    AtSymbol,
    DomainKey,
    Guard,
    MachineKey,
    Seed,
    Variant,
    find,
)
from tp_sdk.sweeping.plan import MOST_RUNS, Compiled, Grid, Plan, Varied
from tp_sdk.sweeping.rows import COLUMNS
from tp_sdk.sweeping.values import NONE, Value, Values, written

_TRIED = 1_000  # values of a symbol, each of which is put there before the sweep begins


@dataclass(frozen=True)
class Asked:
    """A sweep as words ask for it: each varied thing by its name, with its place and values; the three that have
    options of their own by these; no secret or observer means that they are chosen."""

    description: Path
    slots: int
    vary: Mapping[str, tuple[str, Values]] = field(default_factory=dict)
    drawn: Mapping[str, Values] = field(default_factory=dict)
    settings: Sequence[str] = ()
    secret: Sequence[str] | None = None
    observer: Sequence[str] | None = None
    random: int | None = None
    secrets: int | None = None
    seed: int = 0
    is_large_meant: bool = False


def plan_of(asked: Asked, program: Program) -> Plan:
    """The plan: all that can be at fault for every point is faulted here."""
    description = read_description(asked.description)
    set_words(description, list(asked.settings))
    varied = _varied(asked, description)
    secret = _secret(asked, description, varied)
    points = Grid.of((it for it in varied if it not in secret), asked.random, asked.seed)
    secrets = Grid.of(secret, asked.secrets, asked.seed)
    runs = len(points) * len(secrets)
    if runs > MOST_RUNS and not asked.is_large_meant:
        raise Fault(
            f"{len(points):,} points by {len(secrets):,} values of the secret are {runs:,} runs, and more than "
            f"{MOST_RUNS:,} want --yes; --random N draws points, --secrets N values of the secret"
        )
    programs: dict[Compiled, Loaded] = {}
    images = Images(description, programs, None)
    for variant in _compiled_for(description, varied):
        images.load(variant)
    _try_symbols(description, varied, images)
    base = images.build(Variant.of(description))
    observers = _observers(asked, description, secret)
    _refuse_guards_of_harts(description, varied, base.entries)
    return Plan(description, programs, points, secrets, observers, asked.slots, base.text)


def _varied(asked: Asked, description: Description) -> list[Varied]:
    """All that is varied: what has a place, in the order of the words, then guards, noise and orders."""
    varied = []
    for name, (where, values) in asked.vary.items():
        varied.append(Varied(name, find(where, description, f"--vary {where}"), values))
    for name in (OFF, NOISE, HARTS):
        if name in asked.drawn:
            varied.append(Varied(name, Guard() if name == OFF else Seed(name), asked.drawn[name]))
    for number, it in enumerate(varied):
        option = f"--{it.name}" if it.name in asked.drawn else f"--vary {it.name}"
        if it.name in COLUMNS:
            raise Fault(f"{option}: a column has this name: NAME=WHERE:VALUES gives it another")
        if it.name in [other.name for other in varied[:number]]:
            raise Fault(f"{option}: two things have this name: NAME=WHERE:VALUES gives one another")
        for value in it.values.samples():
            fault = it.where.fault(value)
            if fault is not None:
                raise Fault(f"{option}: '{written(value)}': {fault}")
        twice = it.values.twice()
        if twice is not None:
            raise Fault(f"{option}: the value {twice} stands twice")
    return varied


def _domain_of(it: Varied) -> int | None:
    """The domain whose own it is, and no one else's to know."""
    if isinstance(it.where, AtSymbol):
        return it.where.domain
    return it.where.domain if isinstance(it.where, DomainKey) and it.where.name == "moments" else None


def _secret(asked: Asked, description: Description, varied: list[Varied]) -> list[Varied]:
    """What is named; else what is varied at symbols, or as moments, of the first domain that has such, and
    that does not observe."""
    if asked.secret is not None:
        names = [it.name for it in varied]
        for name in asked.secret:
            if name not in (*names, NONE):
                meant = did_you_mean(name, names) or f": {', '.join(names) or 'nothing'} is"
                raise Fault(f"--secret {name}: nothing of this name is varied{meant}")
        return [it for it in varied if it.name in asked.secret]
    own = [it for it in varied if _domain_of(it) is not None]
    observers = set(asked.observer or ())
    others = [it for it in own if description.domains[_domain_of(it) or 0].name not in observers]
    first = next(iter(others or own), None)
    return [it for it in own if first is not None and _domain_of(it) == _domain_of(first)]


def _observers(asked: Asked, description: Description, secret: list[Varied]) -> tuple[str, ...]:
    """Those that are named; else each domain that doesn't have the secret, or all where there is no other."""
    names = [it.name for it in description.domains]
    if asked.observer is None:
        has = {_domain_of(it) for it in secret}
        return tuple(name for number, name in enumerate(names) if number not in has) or tuple(names)
    for name in asked.observer:
        if name not in names:
            meant = did_you_mean(name, names) or f": {', '.join(names)}"
            raise Fault(f"--observer {name}: {description.file} has no domain '{name}'{meant}")
    return tuple(name for name in names if name in asked.observer)


def _compiled_for(description: Description, varied: list[Varied]) -> Iterable[Variant]:
    """A variant for each combination of the values for which programs are compiled."""
    touching = [it for it in varied if _touches_programs(it)]
    for values in product(*(it.values for it in touching)):
        variant = Variant.of(description)
        for it, value in zip(touching, values):
            it.where.put(variant, value)
        yield variant
    yield Variant.of(description)


def _touches_programs(it: Varied) -> bool:
    where = it.where
    if isinstance(where, MachineKey):
        return where.path == ("muldiv",)
    return isinstance(where, DomainKey) and where.name == "stack"


def _try_symbols(description: Description, varied: list[Varied], images: Images) -> None:
    """Faults a symbol that isn't there, or has no room for a value."""
    for it in varied:
        if isinstance(it.where, AtSymbol):
            for value in islice(it.values.samples(), _TRIED):
                variant = Variant.of(description)
                it.where.put(variant, value)
                try:
                    images.build(variant)
                except Fault as fault:
                    raise Fault(f"--vary {it.name}: {fault}") from None


def _refuse_guards_of_harts(description: Description, varied: list[Varied], entries: list[Entry]) -> None:
    """The program has no guards off, where there are several harts."""
    if not any(it.hart for it in entries):
        return
    for it in varied:
        guards = [value for value in it.values if value is not None] if isinstance(it.where, Guard) else []
        for guard in guards:
            raise Fault(f"--off {guard}: {description.file} has several harts, and all their guards stay")


def values_of(given: str | Iterable[Value], asked: str) -> Values:
    """Values that a caller gives: as words, or themselves."""
    from tp_sdk.sweeping.values import parse_values

    if isinstance(given, str):
        return parse_values(given, asked)
    return Values([given if isinstance(given, range) else list(given)])
