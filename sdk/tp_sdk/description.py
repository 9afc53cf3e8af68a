"""The description from which an image is made: the machine, domains with their programs, the schedule.
An image is a description that names no file."""

from __future__ import annotations

import json
import re
import tomllib
from dataclasses import dataclass
from pathlib import Path
from typing import Any

from tp_sdk import toml_places
from tp_sdk.calls import EVERY_CALL, NUMBERS
from tp_sdk.elf import PAGES, Loaded, Segment
from tp_sdk.faults import Fault, read_text, refuse_unread
from tp_sdk.instructions import arch_of
from tp_sdk.keys import (
    BOX_ENDS,
    FRAME,
    HEX,
    KEY_ROWS,
    PAGE,
    VERSION,
    Array,
    Either,
    Integer,
    Kind,
    Place,
    Table,
    Text,
    broken_place,
    fault_in,
    other_keys,
    version_of,
)
from tp_sdk.spelling import did_you_mean
from tp_sdk.symbols import Symbols
from tp_sdk.values import MOMENTS, bytes_of


# What faults tell in the stead of places that the user did not write, by the places' paths.
Told = dict[toml_places.Path, str]


@dataclass(frozen=True)
class Key:
    """A key of a description, and what must stand there, in words, too."""

    kind: Kind
    words: str
    needed: bool = True


def _keys_of(place: Place) -> dict[str, Key]:
    """The keys of an image's tables."""
    return {
        row.key: Key(row.kind, f"as docs/IMAGE.md says: {row.value}", row.needed)
        for row in KEY_ROWS
        if row.place is place
    }


MACHINE_KEYS = {name: key for name, key in _keys_of(Place.TOP).items() if name not in FRAME}
FRAME_KEYS = {
    "version": Key(VERSION, f"the version of the format, {VERSION.low} or {VERSION.high}", needed=False),
    "machine": Key(Text(), "the name of a file with the machine's keys"),
    "domain": Key(Array(Table(), 1), "one or more tables [[domain]]"),
    "schedule": Key(Array(Table(), 1), "one or more tables [[schedule]]"),
    "mail": Key(Array(Table()), "tables [[mail]], one for each box", needed=False),
}
_LISTS = {
    "colours": Key(Array(Integer()), "an array of integers"),
    "caps": Key(Array(Text()), "an array of strings", needed=False),
    "lines": Key(Array(Integer()), "an array of integers", needed=False),
    "moments": Key(MOMENTS, "an array of pairs [cycle, line]", needed=False),
    "calls": Key(Array(Either((Text(), Integer()))), "an array of names or numbers of calls", needed=False),
}
DOMAIN_KEYS = {
    "name": Key(Text(), "a string"),
    "program": Key(Text(), "the name of an ELF file or of a source in C or assembler (.c, .s, .S)"),
    "stack": Key(PAGES, f"a number of pages, {PAGES.low} to {PAGES.high}", needed=False),
    **_LISTS,
    "words": Key(Table(), "a table of symbols and the values that stand there", needed=False),
}
WRITTEN_DOMAIN_KEYS = _keys_of(Place.DOMAIN) | {"calls": _LISTS["calls"]}
SEGMENT_KEYS = _keys_of(Place.SEGMENT)
_DOMAIN = Key(Either((Text(), Integer())), "the name of a domain, or its place")
BOX_KEYS = dict.fromkeys(BOX_ENDS, _DOMAIN)
ENTRY_KEYS = {
    "domain": _DOMAIN,
    "length": Key(Integer(), "an integer: cycles"),
    "pad": Key(Integer(), "an integer: cycles", needed=False),
    "hart": Key(Integer(), "an integer: the number of the hart that runs it", needed=False),
}


@dataclass
class DomainDescription:
    """A domain: `place` says where in the description's file it begins. Its program is a file, or
    written out; `calls` has the numbers of those that it may make, ascending, where not every call;
    `words` has the bytes that are put at a symbol, or at an offset from it."""

    place: str
    name: str
    program: Path | Loaded
    colours: list[int]
    stack: int | None
    caps: list[str]
    lines: list[int]
    moments: list[list[int]]
    calls: list[int] | None
    words: dict[str, bytes]


@dataclass(frozen=True)
class EntryDescription:
    """An entry of the schedule: with no pad, the bound on a switch is its pad; with no hart, it is 0."""

    place: str
    domain: str | int
    length: int
    pad: int | None
    hart: int


@dataclass(frozen=True)
class BoxDescription:
    """A mailbox, by the domains at its ends; the places are where these are named."""

    places: tuple[str, str]
    sender: str | int
    receiver: str | int

    @property
    def ends(self) -> tuple[tuple[str, str | int], tuple[str, str | int]]:
        """Each end, after its place."""
        return (self.places[0], self.sender), (self.places[1], self.receiver)


class _Text:
    """A text of TOML, to be looked into; faults tell the line and column, or what is told in the place of
    those that nobody wrote."""

    def __init__(self, file: Path, text: str | None = None, told: Told | None = None) -> None:
        self.file = file
        self.told = told or {}
        try:
            read = read_text(file) if text is None else text
            self.data, self.places = toml_places.read_with_places(read)
        except tomllib.TOMLDecodeError as error:
            raise Fault(f"{file}: no TOML: {error}") from None

    def place(self, path: toml_places.Path) -> str:
        return self._told(path) or self.place_of(self.places.nearest(path))

    def place_of_key(self, path: toml_places.Path) -> str:
        return self._told(path) or self.place_of(self.places.keys[path])

    def _told(self, path: toml_places.Path) -> str | None:
        """What is told of a place that nobody wrote."""
        lengths = range(len(path), -1, -1)
        return next((self.told[path[:length]] for length in lengths if path[:length] in self.told), None)

    def place_of(self, span: toml_places.Span) -> str:
        at = self.places.position(span.start)
        return f"{self.file}:{at.line}:{at.column}"

    def file_at(self, path: toml_places.Path, name: str) -> Path:
        """The file that is named there; it is looked for beside the text."""
        file = self.file.parent / name
        refuse_unread(file, self.place(path))
        return file

    def check(self, known: dict[str, Key], table: dict[str, Any], path: toml_places.Path) -> None:
        """Faults the first key that is unknown, missing, or of another kind."""
        for name in table:
            if name not in known:
                meant = did_you_mean(name, known) or f": {', '.join(known)}"
                raise Fault(f"{self.place_of_key(path + (name,))}: there is no key '{name}' here{meant}")
        for name, key in known.items():
            here = path + (name,)
            if name not in table:
                if key.needed:
                    raise Fault(f"{self.place(here)}: '{name}' is missing: {key.words}")
                continue
            fault = fault_in(key.kind, table[name], here)
            if fault is not None:
                raise Fault(f"{self.place(fault)}: '{name}' must be {key.words}")


@dataclass
class Description:
    """A description, as its file says."""

    text: _Text
    version: int | None
    machine_text: _Text
    machine: dict[str, Any]
    domains: list[DomainDescription]
    schedule: list[EntryDescription]
    boxes: list[BoxDescription]

    @property
    def file(self) -> Path:
        """Its file."""
        return self.text.file

    @property
    def arch(self) -> str:
        """What its machine's instructions are."""
        return arch_of(self.machine)

    def place(self, path: toml_places.Path) -> str:
        """Where that stands from which a place of the image is made."""
        is_of_machine = bool(path) and path[0] in MACHINE_KEYS
        return (self.machine_text if is_of_machine else self.text).place(path)

    def name_at(self, path: toml_places.Path) -> str:
        """The name that stands there, of the domain whose number the image has."""
        match path:
            case ("schedule", int(number), "domain"):
                domain = self.schedule[number].domain
            case ("mail", int(number), str(key)) if key in BOX_ENDS:
                domain = self.boxes[number].ends[BOX_ENDS.index(key)][1]
            case _:
                return ""
        return f'`"{domain}"`' if isinstance(domain, str) else ""


def read_description(file: Path, given: str | None = None, told: Told | None = None) -> Description:
    """Reads a description, from its file where no text is given; the files that it names are looked for
    beside it."""
    text = _Text(file, given, told)
    if "machine" in text.data:
        text.check(FRAME_KEYS, text.data, ())
        machine = _Text(text.file_at(("machine",), text.data["machine"]))
        _check_machine(machine, ())
    else:
        machine = text
        text.check({name: FRAME_KEYS[name] for name in FRAME} | _optional(MACHINE_KEYS), text.data, ())
        if not any(key in text.data for key in MACHINE_KEYS):
            raise Fault(f"{text.place(())}: 'machine' is missing: {FRAME_KEYS['machine'].words}")
        _check_machine(text, FRAME)
    domains = [_domain(text, number, table) for number, table in enumerate(text.data["domain"])]
    schedule = [_entry(text, number, table) for number, table in enumerate(text.data["schedule"])]
    boxes = [_box(text, number, table) for number, table in enumerate(text.data.get("mail", []))]
    keys = {key: value for key, value in machine.data.items() if key in MACHINE_KEYS}
    return Description(text, text.data.get("version"), machine, keys, domains, schedule, boxes)


def describe(programs: dict[str, Path], machine: Path, length: int, stack: int | None) -> tuple[str, Told]:
    """A description of programs by their domains' names, beside each other: each has as many colours as
    the others, and a slot in turn. Faults tell the options that its places are made from."""
    keys = _Text(machine)
    _check_machine(keys, ())
    colours = keys.data["l2"]["sets"] * keys.data["line"] // PAGE - 1
    each = colours // len(programs)
    if each < 1:
        raise Fault(f"{machine}: it has {colours} colours for domains, too few for {len(programs)} programs")
    domains, entries = "", ""
    told: Told = {(): "the programs"}
    for number, (name, program) in enumerate(programs.items()):
        own = [number * each + 1 + place for place in range(each)]
        domains += f"\n[[domain]]\nname = {_quoted(name)}\nprogram = {_quoted(str(program))}\n"
        domains += f"colours = {own}\n" + (f"stack = {stack}\n" if stack is not None else "")
        entries += f"\n[[schedule]]\ndomain = {_quoted(name)}\nlength = {length}\n"
        told |= {("domain", number): f"domain '{name}'", ("domain", number, "stack"): f"--stack {stack}"}
        told[("schedule", number)] = f"--length {length}"
    return f"machine = {_quoted(str(machine))}\n{domains}{entries}", told


def _quoted(text: str) -> str:
    """A string: what JSON writes with letters of its own, TOML reads alike."""
    return json.dumps(text, ensure_ascii=False)


def _optional(known: dict[str, Key]) -> dict[str, Key]:
    return {name: Key(key.kind, key.words, needed=False) for name, key in known.items()}


def _check_machine(text: _Text, others: tuple[str, ...]) -> None:
    """The keys of the machine are there, and none but they and the others."""
    rows = [row for row in KEY_ROWS if row.place.is_one and (*row.place.path, row.key)[0] in MACHINE_KEYS]
    for name in text.data:
        if name not in (*MACHINE_KEYS, *others):
            meant = did_you_mean(name, MACHINE_KEYS)
            raise Fault(f"{text.place_of_key((name,))}: there is no key '{name}' of a machine{meant}")
    for row in rows:
        fault = broken_place(row, text.data, 0)
        if fault is not None:
            must = "be there, as" if row.needed else "be as"
            raise Fault(f"{text.place(fault)}: '{row.key}' must {must} docs/IMAGE.md says: {row.value}")
    machine = {key: value for key, value in text.data.items() if key in MACHINE_KEYS}
    for path in other_keys(machine):
        raise Fault(f"{text.place_of_key(path)}: there is no key '{path[-1]}' of a machine")


def _domain(text: _Text, number: int, table: dict[str, Any]) -> DomainDescription:
    path: toml_places.Path = ("domain", number)
    is_written = "program" not in table and "segment" in table
    text.check(WRITTEN_DOMAIN_KEYS if is_written else DOMAIN_KEYS, table, path)
    program: Path | Loaded
    if is_written:
        program = _written(text, path, table)
    else:
        program = text.file_at(path + ("program",), table["program"])
    words = {}
    for where, value in table.get("words", {}).items():
        words[where] = bytes_of(value, text.file.parent, f"{text.place(path + ('words', where))}: '{where}'")
    return DomainDescription(
        text.place(path),
        table["name"],
        program,
        table["colours"],
        table.get("stack"),
        table.get("caps", []),
        table.get("lines", []),
        table.get("moments", []),
        _calls(text, path + ("calls",), table.get("calls")),
        words,
    )


def _calls(text: _Text, path: toml_places.Path, calls: list[str | int] | None) -> list[int] | None:
    """The numbers of the calls that a domain may make, ascending."""
    if calls is None:
        return None
    if version_of(text.data) == VERSION.low:
        raise Fault(f"{text.place_of_key(path)}: 'calls' wants version = {VERSION.high}")
    numbers: set[int] = set()
    for place, call in enumerate(calls):
        here = f"{text.place(path + (place,))}: '{call}'"
        number = NUMBERS.get(call) if isinstance(call, str) else call
        if number is None or number not in EVERY_CALL:
            meant = did_you_mean(str(call), NUMBERS) or f": {', '.join(NUMBERS)}, or their numbers"
            raise Fault(f"{here} is no call{meant}")
        if number in numbers:
            raise Fault(f"{here}: the call stands twice")
        numbers.add(number)
    return sorted(numbers)


def _written(text: _Text, path: toml_places.Path, table: dict[str, Any]) -> Loaded:
    """A program whose segments stand in the text, as in an image."""
    segments = []
    for number, segment in enumerate(table["segment"]):
        here = path + ("segment", number)
        text.check(SEGMENT_KEYS, segment, here)
        if not re.fullmatch(HEX, segment["hex"]):
            raise Fault(
                f"{text.place(here + ('hex',))}: 'hex' must be two digits, 0 to 9 and a to f, for each byte"
            )
        data = bytearray.fromhex(segment["hex"])
        name = f"segment{number}"
        segments.append(Segment(name, segment["page"], segment["pages"], segment["rights"], data))
    return Loaded(text.file, table["entry"], segments, Symbols())


def _entry(text: _Text, number: int, table: dict[str, Any]) -> EntryDescription:
    path: toml_places.Path = ("schedule", number)
    text.check(ENTRY_KEYS, table, path)
    pad, hart = table.get("pad"), table.get("hart", 0)
    return EntryDescription(text.place(path), table["domain"], table["length"], pad, hart)


def _box(text: _Text, number: int, table: dict[str, Any]) -> BoxDescription:
    path: toml_places.Path = ("mail", number)
    text.check(BOX_KEYS, table, path)
    sender, receiver = (text.place((*path, key)) for key in BOX_ENDS)
    return BoxDescription((sender, receiver), *(table[key] for key in BOX_ENDS))
