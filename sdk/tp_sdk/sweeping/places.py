"""Where a sweep puts its values: at a key of the machine, of a domain or of the schedule, or at a symbol."""

from __future__ import annotations

from collections.abc import Iterable, Iterator
from dataclasses import dataclass, replace
from pathlib import Path
from typing import Any

from tp_sdk import keys
from tp_sdk.calls import NUMBERS
from tp_sdk.description import DOMAIN_KEYS, ENTRY_KEYS, Description, DomainDescription, EntryDescription, Key
from tp_sdk.faults import Fault
from tp_sdk.guards import GUARDS
from tp_sdk.spelling import did_you_mean
from tp_sdk.sweeping.values import Value, written
from tp_sdk.values import bytes_of
from tp_sdk.words import SEED

MACHINE, DOMAIN, SCHEDULE = "machine", "domain", "schedule"
BOUND = "bound"  # the pad that `tp bound` says
_OF_DOMAIN = {it: DOMAIN_KEYS[it] for it in ("colours", "stack", "caps", "lines", "moments", "calls")}
_OF_ENTRY = {it: ENTRY_KEYS[it] for it in ("length", "pad", "hart")}


@dataclass
class Variant:
    """What a description says, with some of it replaced; what is not is the description's own."""

    machine: dict[str, Any]
    domains: list[DomainDescription]
    schedule: list[EntryDescription]
    off: str | None = None  # the guard that is off
    harts: int | None = None  # the seed of the order of several harts' events
    noise: int | None = None  # the seed of the program of a domain that is put beside

    @classmethod
    def of(cls, description: Description) -> Variant:
        """The description itself."""
        return cls(description.machine, list(description.domains), list(description.schedule))

    def copy(self) -> Variant:
        """Another one of the same."""
        return Variant(
            self.machine, list(self.domains), list(self.schedule), self.off, self.harts, self.noise
        )


@dataclass(frozen=True)
class MachineKey:
    """A key of the machine, by the keys that lead to it."""

    path: tuple[str, ...]
    kind: keys.Kind
    needed: bool

    def put(self, variant: Variant, value: Value) -> None:
        """Has the value there; none leaves the key out."""
        # (tables that lead to it are copied, and no others: a sweep does this at each run)
        variant.machine = table = dict(variant.machine)
        for name in self.path[:-1]:
            table[name] = table = dict(table[name])
        if value is None:
            table.pop(self.path[-1], None)
        else:
            table[self.path[-1]] = value

    def fault(self, value: Value) -> str | None:
        """What is wrong with a value, in words."""
        if value is None:
            return "it may not be missing" if self.needed else None
        return None if keys.fault_in(self.kind, value, ()) is None else f"{_in_words(self.kind)} is wanted"


@dataclass(frozen=True)
class DomainKey:
    """A key of one domain's description."""

    domain: int
    name: str
    key: Key

    def put(self, variant: Variant, value: Value) -> None:
        """Has the value there."""
        if self.name == "calls" and isinstance(value, list):
            value = sorted({NUMBERS.get(it, it) for it in value})
        if value is None and self.name in ("caps", "lines", "moments"):
            value = []
        fields: dict[str, Any] = {self.name: value}
        variant.domains[self.domain] = replace(variant.domains[self.domain], **fields)

    def fault(self, value: Value) -> str | None:
        """What is wrong with a value, in words."""
        if value is None:
            return "it may not be missing" if self.key.needed else None
        if keys.fault_in(self.key.kind, value, ()) is not None:
            return f"{self.key.words} is wanted"
        if self.name == "calls" and isinstance(value, list):
            unknown = [it for it in value if isinstance(it, str) and it not in NUMBERS]
            return f"'{unknown[0]}' is no call{did_you_mean(unknown[0], NUMBERS)}" if unknown else None
        return None


@dataclass(frozen=True)
class EntryKey:
    """A key of some entries of the schedule."""

    entries: tuple[int, ...]
    name: str
    key: Key

    def put(self, variant: Variant, value: Value) -> None:
        """Has the value in each of them."""
        fields: dict[str, Any] = {self.name: None if value == BOUND else value}
        for entry in self.entries:
            variant.schedule[entry] = replace(variant.schedule[entry], **fields)

    def fault(self, value: Value) -> str | None:
        """What is wrong with a value, in words."""
        if self.name == "pad" and value in (BOUND, None):
            return None
        is_good = keys.fault_in(self.key.kind, value, ()) is None
        return None if is_good else f"{self.key.words} is wanted"


@dataclass(frozen=True)
class AtSymbol:
    """A symbol of a domain's program, or an offset from it; a file's bytes are looked for where the tool runs."""

    domain: int
    where: str
    asked: str

    def put(self, variant: Variant, value: Value) -> None:
        """Puts the value there, after whatever the description puts."""
        it = variant.domains[self.domain]
        words = {where: data for where, data in it.words.items() if where != self.where}
        variant.domains[self.domain] = replace(it, words=words | {self.where: self._bytes(value)})

    def fault(self, value: Value) -> str | None:
        """What is wrong with a value, in words."""
        if value is None or isinstance(value, bool):
            return 'a word, [1, 2], "text" or @FILE is wanted'
        try:
            self._bytes(value)
        except Fault as fault:
            return str(fault).removeprefix(f"{self.asked} ")
        return None

    def _bytes(self, value: Value) -> bytes:
        return bytes_of(value, Path(), self.asked)


@dataclass(frozen=True)
class Guard:
    """The guard that is off."""

    def put(self, variant: Variant, value: Value) -> None:
        """Has it off; none: all are on."""
        assert value is None or isinstance(value, str)
        variant.off = value

    def fault(self, value: Value) -> str | None:
        """What is wrong with a value, in words."""
        if value is None or value in GUARDS:
            return None
        return f"there is no such guard{did_you_mean(written(value), GUARDS) or ': ' + ', '.join(GUARDS)}"


@dataclass(frozen=True)
class Seed:
    """The seed of what is drawn: of the noise beside, or of the order of several harts' events (as options
    name them)."""

    name: str

    def put(self, variant: Variant, value: Value) -> None:
        """Has the seed; none: nothing is drawn."""
        setattr(variant, self.name, value)

    def fault(self, value: Value) -> str | None:
        """What is wrong with a value, in words."""
        if value is None or keys.fault_in(SEED, value, ()) is None:
            return None
        return f"a seed is wanted, {SEED.low} to {SEED.high:,}"


OFF, NOISE, HARTS = "off", "noise", "harts"
Where = MachineKey | DomainKey | EntryKey | AtSymbol | Guard | Seed


def find(where: str, description: Description, asked: str) -> Where:
    """The place that words name: `machine.l1d.sets`, `domain.NAME.colours`, `schedule.pad`, `NAME.SYMBOL`."""
    first, _, rest = where.partition(".")
    if not rest:
        known = [*_machine_keys(), *(f"{it.name}." for it in description.domains)]
        meant = did_you_mean(where, [*known, *(it.split(".", 1)[1] for it in _machine_keys())])
        wanted = meant or ": machine.KEY, domain.NAME.KEY, schedule.KEY or NAME.SYMBOL"
        raise Fault(f"{asked}: '{where}' is no place{wanted}")
    if first == MACHINE:
        return _machine_key(rest, description, asked)
    if first == DOMAIN:
        return _domain_key(rest, description, asked)
    if first == SCHEDULE:
        return _entry_key(rest, description, asked)
    names = [it.name for it in description.domains]
    if first not in names:
        known = [*names, MACHINE, DOMAIN, SCHEDULE]
        is_key = f"{MACHINE}.{where}" in _machine_keys()
        meant = f": did you mean '{MACHINE}.{where}'?" if is_key else did_you_mean(first, known)
        meant = meant or f": {', '.join(names)}"
        raise Fault(f"{asked}: {description.file} has no domain '{first}'{meant}")
    return AtSymbol(names.index(first), rest, asked)


def _machine_keys() -> Iterator[str]:
    """Each key that a machine may have, as words name it."""
    for row in keys.KEY_ROWS:
        path = (*row.place.path, row.key)
        if row.place.is_one and path[0] not in keys.FRAME:
            yield ".".join((MACHINE, *path))
            if isinstance(row.kind, keys.Table):
                yield from (".".join((MACHINE, *path, name)) for name, _ in row.kind.fields)


def _machine_key(rest: str, description: Description, asked: str) -> MachineKey:
    known = list(_machine_keys())
    if f"{MACHINE}.{rest}" not in known:
        meant = did_you_mean(f"{MACHINE}.{rest}", known)
        raise Fault(f"{asked}: no machine has a key '{rest}'{meant}")
    path = tuple(rest.split("."))
    if len(path) > 1 and path[0] not in description.machine:
        raise Fault(f"{asked}: the machine of {description.file} has no '{path[0]}'")
    row = next((it for it in keys.KEY_ROWS if (*it.place.path, it.key) == path and it.place.is_one), None)
    if row is not None:
        return MachineKey(path, row.kind, row.needed)
    table = next(it.kind for it in keys.KEY_ROWS if (*it.place.path, it.key) == path[:1])
    assert isinstance(table, keys.Table)
    return MachineKey(path, dict(table.fields)[path[1]], True)


def _domain_key(rest: str, description: Description, asked: str) -> DomainKey:
    name, _, key = rest.partition(".")
    names = [it.name for it in description.domains]
    if name not in names:
        meant = did_you_mean(name, names) or f": {', '.join(names)}"
        raise Fault(f"{asked}: {description.file} has no domain '{name}'{meant}")
    return DomainKey(names.index(name), key, _key(key, _OF_DOMAIN, "a domain", asked))


def _entry_key(rest: str, description: Description, asked: str) -> EntryKey:
    of, _, key = rest.rpartition(".")
    entries = range(len(description.schedule))
    found: Iterable[int]
    if not of:
        found = entries
    elif of.isdecimal():
        found = [it for it in entries if it == int(of)]
    else:
        names = [it.name for it in description.domains]
        named = [_name(it, names) for it in description.schedule]
        found = [it for it in entries if named[it] == of]
    if not list(found):
        raise Fault(
            f"{asked}: the schedule of {description.file} has no entry '{of}': a domain's name, or 0..{len(entries) - 1}"
        )
    return EntryKey(tuple(found), key, _key(key, _OF_ENTRY, "an entry", asked))


def _name(entry: EntryDescription, names: list[str]) -> str:
    if isinstance(entry.domain, str):
        return entry.domain
    return names[entry.domain] if 0 <= entry.domain < len(names) else ""


def _key(name: str, known: dict[str, Key], of: str, asked: str) -> Key:
    if name not in known:
        meant = did_you_mean(name, known) or f": {', '.join(known)}"
        raise Fault(f"{asked}: {of} has no key '{name}' to vary{meant}")
    return known[name]


def _in_words(kind: keys.Kind) -> str:
    match kind:
        case keys.Integer():
            return "an integer"
        case keys.Truth():
            return "true or false"
        case keys.Text():
            return "a word"
    return "a table"
