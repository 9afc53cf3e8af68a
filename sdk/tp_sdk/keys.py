"""The image's keys: what must stand at each, as one table for the explanations and the schema."""

from __future__ import annotations

from collections.abc import Iterator
from dataclasses import dataclass
from enum import Enum
from typing import Any

from tp_sdk.toml_places import Path

OTHER_KEYS = 26

# ---- what may stand at a key


@dataclass(frozen=True)
class Integer:
    """An integer."""


@dataclass(frozen=True)
class Within:
    """An integer from `low` to `high`."""

    low: int
    high: int


@dataclass(frozen=True)
class Truth:
    """True or false."""


@dataclass(frozen=True)
class Text:
    """A string."""


@dataclass(frozen=True)
class Table:
    """A table; with `fields`, one that has each of these keys, and none with other values there."""

    fields: tuple[tuple[str, Integer | Text], ...] = ()


@dataclass(frozen=True)
class Array:
    """An array of such items, `least` to `most` of them where these are said."""

    item: Kind
    least: int = 0
    most: int | None = None


@dataclass(frozen=True)
class Either:
    """One of these kinds."""

    kinds: tuple[Kind, ...]


Kind = Integer | Within | Truth | Text | Table | Array | Either


class Place(Enum):
    """The tables in which a key stands, by the keys that lead to them."""

    TOP = ""
    LEVEL2 = "l2"
    DOMAIN = "domain"
    SEGMENT = "domain segment"
    ENTRY = "schedule"
    BOX = "mail"

    @property
    def path(self) -> tuple[str, ...]:
        """Those keys."""
        return tuple(self.value.split())

    @property
    def is_one(self) -> bool:
        """There is one such table, and not one for each item of an array."""
        return self in (Place.TOP, Place.LEVEL2)


@dataclass(frozen=True)
class KeyRow:
    """A row of the table of keys; `value` has the words of docs/IMAGE.md for what must stand there, and
    `since` the version of the format from which on there is the key."""

    number: int
    place: Place
    key: str
    kind: Kind
    value: str
    needed: bool = True
    since: int = 1


CACHE = Table((("sets", Integer()), ("ways", Integer()), ("policy", Text())))
COSTS = ("base", "l1", "l2", "mem", "wb", "tlb", "mispredict", "trap", "flush")
PRODUCTS = ("mul", "div")
VERSION = Within(1, 2)

KEY_ROWS = (
    KeyRow(1, Place.TOP, "frames", Integer(), "integer"),
    KeyRow(2, Place.TOP, "shared", Integer(), "integer: bytes"),
    KeyRow(3, Place.TOP, "line", Integer(), "integer: bytes"),
    KeyRow(4, Place.TOP, "l1i", CACHE, "table of a cache, below"),
    KeyRow(5, Place.TOP, "l1d", CACHE, "table of a cache"),
    KeyRow(6, Place.TOP, "l2", CACHE, "table of a cache"),
    KeyRow(7, Place.TOP, "tlb", CACHE, "table of a cache"),
    KeyRow(8, Place.TOP, "predictor", Integer(), "integer: counters"),
    KeyRow(
        9, Place.TOP, "costs", Table(tuple((cost, Integer()) for cost in COSTS)), "table of integers, below"
    ),
    KeyRow(10, Place.TOP, "domain", Array(Table()), "array of tables"),
    KeyRow(11, Place.DOMAIN, "name", Text(), "string"),
    KeyRow(12, Place.DOMAIN, "colours", Array(Integer()), "array of integers"),
    KeyRow(
        13,
        Place.DOMAIN,
        "entry",
        Within(0, 4_294_967_295),
        "integer 0 to 4,294,967,295: the address of its first instruction",
    ),
    KeyRow(14, Place.DOMAIN, "segment", Array(Table(), 1, 16), "array of 1 to 16 tables"),
    KeyRow(
        15,
        Place.SEGMENT,
        "page",
        Within(0, 1_048_575),
        "integer 0 to 1,048,575: the address of its first page divided by 4,096",
    ),
    KeyRow(16, Place.SEGMENT, "pages", Within(1, 64), "integer 1 to 64: how many pages"),
    KeyRow(17, Place.SEGMENT, "rights", Text(), "string"),
    KeyRow(18, Place.SEGMENT, "hex", Text(), "string"),
    KeyRow(19, Place.DOMAIN, "caps", Array(Text()), "array of strings; it may be missing", needed=False),
    KeyRow(20, Place.DOMAIN, "lines", Array(Integer()), "array of integers; it may be missing", needed=False),
    KeyRow(
        21,
        Place.DOMAIN,
        "moments",
        Array(Array(Integer(), 2, 2)),
        "array of pairs of integers, `[cycle, line]`; it may be missing",
        needed=False,
    ),
    KeyRow(22, Place.TOP, "schedule", Array(Table()), "array of tables"),
    KeyRow(23, Place.ENTRY, "domain", Integer(), "integer: the place of the domain that runs"),
    KeyRow(24, Place.ENTRY, "length", Integer(), "integer: cycles of the slot"),
    KeyRow(25, Place.ENTRY, "pad", Integer(), "integer: cycles from the slot's end to the next slot's start"),
    KeyRow(
        27,
        Place.LEVEL2,
        "back",
        Truth(),
        "boolean: whether dirty lines are written back into it; it may be missing",
        needed=False,
    ),
    KeyRow(
        28,
        Place.TOP,
        "version",
        VERSION,
        "integer 1 to 2: the version of the format; it may be missing",
        needed=False,
    ),
    KeyRow(
        29,
        Place.DOMAIN,
        "calls",
        Array(Integer()),
        "array of integers, from version 2 on; it may be missing",
        needed=False,
        since=2,
    ),
    KeyRow(
        30,
        Place.TOP,
        "history",
        Integer(),
        "integer: outcomes of branches; it may be missing",
        needed=False,
    ),
    KeyRow(
        31,
        Place.ENTRY,
        "hart",
        Integer(),
        "integer: the number of the hart that runs it; it may be missing",
        needed=False,
    ),
    KeyRow(32, Place.TOP, "mail", Array(Table()), "array of tables; it may be missing", needed=False),
    KeyRow(33, Place.BOX, "from", Integer(), "integer: the place of the domain that sends"),
    KeyRow(34, Place.BOX, "to", Integer(), "integer: the place of the domain that receives"),
    KeyRow(
        37,
        Place.TOP,
        "muldiv",
        Table(tuple((cost, Integer()) for cost in PRODUCTS)),
        "table of integers, below; it may be missing",
        needed=False,
    ),
    KeyRow(38, Place.TOP, "targets", Integer(), "integer: places; it may be missing", needed=False),
)

# The keys at the top that are not the machine's.
FRAME = ("version", "domain", "schedule", "mail")

# ---- what the values' rules ask for, where the schema can ask for it, too


@dataclass(frozen=True)
class Part:
    """A part of the machine in the rules of sizes: its size, or its `sets`, is a power of two in a range."""

    number: int
    key: str
    low: int
    high: int
    is_cache: bool

    @property
    def size(self) -> Path:
        """Where its size stands."""
        return (self.key, "sets") if self.is_cache else (self.key,)


PARTS = (
    Part(1, "line", 16, 128, False),
    Part(2, "l1i", 1, 1_024, True),
    Part(3, "l1d", 1, 1_024, True),
    Part(4, "l2", 1, 16_384, True),
    Part(5, "tlb", 1, 256, True),
    Part(6, "predictor", 1, 4_096, False),
)
PAGE = 4_096
COLOURS = Within(2, 64)
WAYS = Within(1, 16)
TREE_POLICY = "plru"  # its ways are a power of two
POLICIES = ("lru", "fifo", TREE_POLICY, "nmru")
HISTORY = Within(0, 8)
COST = Within(1, 1_000)
DIVISION_STEPS = 33  # at most: one, and one for each binary digit of the dividend
TARGETS = Within(1, 256)  # a power of two
NAME = "[a-z0-9]{1,16}"
NAME_MOST = 16
SHARED_MOST = 65_536
PAGES_OF_ALL = 1_048_576
RIGHTS = ("r", "rw", "x", "rx", "rwx")
HEX = "([0-9a-fA-F]{2})*"
CAPS_MOST = 64
CAP = r"none|(page|irq) (0|[1-9][0-9]{0,9})"
LINE = Within(0, 31)
MOMENTS_MOST = 1_024
MOMENT = Within(0, 1_000_000_000_000)
LENGTH = Within(1_000, 1_000_000)
PAD = Within(0, 1_000_000)
CALL = Within(0, 14)
MAIL_CALL = Within(19, 20)  # those on mailboxes: in an image without any they are bad calls
HART = Within(0, 3)
BOXES_MOST = 64
BOX_WORDS = 16  # that a slot of the sender may put into one
BOX_ENDS = ("from", "to")


@dataclass(frozen=True)
class Limits:
    """How many of a thing there may be in an image of a version."""

    frames: Within
    domains: Within
    entries: Within


LIMITS = {
    1: Limits(Within(64, 4_096), Within(1, 16), Within(1, 64)),
    2: Limits(Within(64, 16_384), Within(1, 32), Within(1, 256)),
}

# ---- looking into an image


def version_of(image: dict[str, Any]) -> int:
    """The version of an image. One that is none breaks its own row, and counts as the last one, which has
    all keys."""
    version = image.get("version", VERSION.low)
    return VERSION.low if _is_integer(version) and version == VERSION.low else VERSION.high


def hart_of(entry: dict[str, Any]) -> Any:
    """The hart of an entry of the schedule."""
    return entry["hart"] if "hart" in entry else 0


def limits_of(image: dict[str, Any]) -> Limits:
    """The limits of an image's version."""
    return LIMITS[version_of(image)]


def rows_of(image: dict[str, Any]) -> list[KeyRow]:
    """The rows of an image's version."""
    return [row for row in KEY_ROWS if row.since <= version_of(image)]


def fault_in(kind: Kind, value: Any, path: Path) -> Path | None:
    """The first place in a value that isn't of its kind."""
    match kind:
        case Integer():
            return None if _is_integer(value) else path
        case Within(low, high):
            return None if _is_integer(value) and low <= value <= high else path
        case Truth():
            return None if isinstance(value, bool) else path
        case Text():
            return None if isinstance(value, str) else path
        case Table(fields):
            if not isinstance(value, dict):
                return path
            return _first(
                fault_in(field, value[key], path + (key,)) if key in value else path + (key,)
                for key, field in fields
            )
        case Array(item, least, most):
            if not isinstance(value, list) or len(value) < least or (most is not None and len(value) > most):
                return path
            return _first(fault_in(item, it, path + (number,)) for number, it in enumerate(value))
        case Either(kinds):
            return None if any(fault_in(one, value, path) is None for one in kinds) else path


def tables_at(image: dict[str, Any], place: Place) -> Iterator[tuple[Path, dict[str, Any]]]:
    """The tables of a place, in the text's order; what is no table is another row's matter."""
    tables: list[tuple[Path, dict[str, Any]]] = [((), image)]
    for key in place.path:
        tables = [
            (path + (key, *within), item)
            for path, table in tables
            for within, item in _tables_in(table.get(key), place)
            if isinstance(item, dict)
        ]
    yield from tables


def _tables_in(value: Any, place: Place) -> list[tuple[Path, Any]]:
    """What may be a table of the place in a value on the way to it: the value itself, or each item."""
    return [((), value)] if place.is_one else [((number,), item) for number, item in enumerate(_items(value))]


def broken_place(row: KeyRow, image: dict[str, Any], number: int) -> Path | None:
    """Where a row is broken, in the domain, the entry or the box of this number."""
    for path, table in tables_at(image, row.place):
        if not row.place.is_one and path[1] != number:
            continue
        here = path + (row.key,)
        if row.key not in table:
            if row.needed:
                return here
            continue
        fault = fault_in(row.kind, table[row.key], here)
        if fault is not None:
            return fault
    return None


def other_keys(image: dict[str, Any]) -> Iterator[Path]:
    """Each key that no row has."""
    known_rows = rows_of(image)
    for place in Place:
        if place is Place.LEVEL2:
            continue  # (a key of the table above it)
        rows = {row.key: row.kind for row in known_rows if row.place is place}
        for path, table in tables_at(image, place):
            for key, value in table.items():
                kind = rows.get(key)
                if kind is None:
                    yield path + (key,)
                elif isinstance(kind, Table) and isinstance(value, dict):
                    known = _keys_in(kind, (*place.path, key))
                    yield from (path + (key, name) for name in value if name not in known)


def keys_at(path: Path, image: dict[str, Any]) -> list[str]:
    """The keys that a table of an image may have."""
    names = tuple(it for it in path if isinstance(it, str))
    row = next((it for it in KEY_ROWS if it.place is Place.TOP and (it.key,) == names), None)
    if row is not None and isinstance(row.kind, Table):
        return _keys_in(row.kind, names)
    for place in Place:
        if place.path == names:
            return [row.key for row in rows_of(image) if row.place is place]
    return []


def _keys_in(kind: Table, names: tuple[str, ...]) -> list[str]:
    """The keys of the table at these keys: those that it must have, and those with rows of their own."""
    return [name for name, _ in kind.fields] + [row.key for row in KEY_ROWS if row.place.path == names]


def version_with(path: Path) -> int | None:
    """The version from which on there is a key."""
    names = tuple(it for it in path if isinstance(it, str))
    return next((row.since for row in KEY_ROWS if (*row.place.path, row.key) == names), None)


def _is_integer(value: Any) -> bool:
    return isinstance(value, int) and not isinstance(value, bool)


def _items(value: Any) -> list[Any]:
    return value if isinstance(value, list) else []


def _first(paths: Iterator[Path | None]) -> Path | None:
    return next((path for path in paths if path is not None), None)
