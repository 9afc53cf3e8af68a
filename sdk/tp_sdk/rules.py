"""Every broken case of the rules that can be told of an image, the rules in order. The program tells the
first; what needs a value that is itself broken is not told."""

from __future__ import annotations

import re
from collections.abc import Iterator
from dataclasses import dataclass
from typing import Any

from tp_sdk import keys
from tp_sdk.bounds import bound_on_a_switch, calls_of
from tp_sdk.calls import EVERY_CALL
from tp_sdk.keys import KEY_ROWS, PAGE, PARTS, Place, Within
from tp_sdk.refusals import Image, Refusal
from tp_sdk.toml_places import Path

_KERNELS_FRAMES = 5
_TABLE_PAGES = 1024
_CAP = re.compile(keys.CAP)

Broken = tuple[Refusal, Path | None]


@dataclass(frozen=True)
class _Domain:
    number: int
    table: dict[str, Any]


class Rules:
    """The rules on an image; `rows` are the broken rows of the table of keys, with their numbers."""

    def __init__(self, image: Image) -> None:
        self.image = image
        self.is_first_version = keys.version_of(image) == keys.VERSION.low
        self.limits = keys.limits_of(image)
        broken = list(_broken_rows(image))
        self.rows = [(row.number, number) for row, number in broken]
        self.has_machine = not any(row <= 9 for row, _ in self.rows)
        of_domains = {number for row, number in broken if "domain" in row.place.path}
        of_entries = {number for row, number in broken if row.place is Place.ENTRY}
        of_boxes = {number for row, number in broken if row.place is Place.BOX}
        self.domains = [_Domain(*it) for it in _whole_tables(image, "domain", of_domains)]
        self.entries = _whole_tables(image, "schedule", of_entries)
        self.boxes = _whole_tables(image, "mail", of_boxes)

    def broken(self) -> Iterator[Broken]:
        """The refusals; with a place where the refusal's numbers don't say which of several it is."""
        rows: list[Broken] = [(Refusal(2, row, number, 0), None) for row, number in self.rows]
        rows += [(Refusal(2, keys.OTHER_KEYS, 0, 0), path) for path in keys.other_keys(self.image)]
        yield from sorted(rows, key=lambda it: it[0].at)
        values = [*self._machine(), *self._names(), *self._colours(), *self._shared()]
        values += [*self._segments(), *self._caps(), *self._lines(), *self._moments()]
        values += [*self._schedule(), *self._pads(), *self._calls(), *self._harts()]
        values += [*self._boxes(), *self._extensions()]
        yield from ((it, None) for it in sorted(values, key=lambda it: it.rule))

    # ---- the machine

    def _machine(self) -> Iterator[Refusal]:
        if not self.has_machine:
            return
        for part in PARTS:
            yield from self._part(part)
        history = self._optional("history", 0)
        if not _is_within(history, keys.HISTORY):
            yield Refusal(3, PARTS[-1].number, history, 2)
        yield from _outside(4, 0, self.image["frames"], self.limits.frames)
        if self._is_good(PARTS[0]) and self._is_good(PARTS[3]):
            yield from _outside(5, 0, self._count_colours(), keys.COLOURS)
        for place, cost in enumerate(keys.COSTS, 1):
            yield from _outside(6, place, self.image["costs"][cost], keys.COST)

    def _optional(self, key: str, missing: Any, place: Place = Place.TOP) -> Any:
        """The value of a key that may be missing; as if it were, where it breaks its row."""
        row = next(row for row in KEY_ROWS if row.place is place and row.key == key)
        if (row.number, 0) in self.rows:
            return missing
        table = self.image if place is Place.TOP else self.image[place.value]
        return table.get(key, missing)

    def _part(self, part: keys.Part) -> Iterator[Refusal]:
        if not self._is_good(part):
            yield Refusal(3, part.number, self._size(part), 1)
        if not part.is_cache:
            return
        ways, policy = self.image[part.key]["ways"], self.image[part.key]["policy"]
        if not _is_within(ways, keys.WAYS):
            yield Refusal(3, part.number, ways, 2)
        if policy not in keys.POLICIES:
            yield Refusal(3, part.number, ways, 3)
        elif policy == keys.TREE_POLICY and _is_within(ways, keys.WAYS) and not _is_power_of_two(ways):
            yield Refusal(3, part.number, ways, 4)

    def _size(self, part: keys.Part) -> int:
        value = self.image[part.key]
        return int(value["sets"] if part.is_cache else value)

    def _is_good(self, part: keys.Part) -> bool:
        return part.low <= self._size(part) <= part.high and _is_power_of_two(self._size(part))

    def _count_colours(self) -> int:
        return int(self.image["l2"]["sets"] * self.image["line"] // PAGE)

    @property
    def _colours_there(self) -> int | None:
        """How many page colours there are, where that can be told."""
        if not self.has_machine or not self._is_good(PARTS[0]) or not self._is_good(PARTS[3]):
            return None
        count = self._count_colours()
        return count if _is_within(count, keys.COLOURS) else None

    # ---- domains

    def _names(self) -> Iterator[Refusal]:
        count = len(_tables(self.image, "domain"))
        most = self.limits.domains.high
        if (10, 0) not in self.rows and not _is_within(count, self.limits.domains):
            yield Refusal(7, most, count, most)
        names: dict[str, int] = {}
        for it in self.domains:
            name = it.table["name"]
            if not re.fullmatch(keys.NAME, name):
                yield Refusal(7, it.number, len(name.encode()), keys.NAME_MOST)
            elif name in names:
                yield Refusal(7, it.number, names[name], 0)
            names.setdefault(name, it.number)

    def _colours(self) -> Iterator[Refusal]:
        there = self._colours_there
        owners: dict[int, int] = {}
        for it in self.domains:
            own = it.table["colours"]
            if there is not None:
                for place, colour in enumerate(own):
                    if not 1 <= colour < there or colour in own[:place]:
                        yield Refusal(8, it.number, colour, there)
            for colour in dict.fromkeys(own):
                if colour in owners:
                    yield Refusal(9, it.number, colour, owners[colour])
                owners.setdefault(colour, it.number)
            yield from self._frames(it, there)

    def _frames(self, it: _Domain, there: int | None) -> Iterator[Refusal]:
        if there is None or not _is_within(self.image["frames"], self.limits.frames):
            return
        own = set(it.table["colours"])
        pool = sum(frame % there in own for frame in range(self.image["frames"]))
        segments = it.table["segment"]
        pages = [page for one in segments for page in range(one["page"], one["page"] + one["pages"])]
        regions = {page // _TABLE_PAGES for page in pages}
        need = _KERNELS_FRAMES + len(regions) + len(pages)
        if pool < need:
            yield Refusal(10, it.number, pool, need)

    def _shared(self) -> Iterator[Refusal]:
        if not self.has_machine or not self._is_good(PARTS[0]):
            return
        shared, line = self.image["shared"], self.image["line"]
        if shared % line or shared < line or shared > keys.SHARED_MOST:
            yield Refusal(11, 1, shared, keys.SHARED_MOST)
            return
        frames = -(-shared // PAGE)
        if frames > self.image["l2"]["ways"]:
            yield Refusal(11, 2, frames, self.image["l2"]["ways"])
        there = self._colours_there
        if there is not None and (frames - 1) * there >= self.image["frames"]:
            yield Refusal(11, 3, (frames - 1) * there, self.image["frames"])

    def _segments(self) -> Iterator[Refusal]:
        for it in self.domains:
            segments = it.table["segment"]
            for place, one in enumerate(segments):
                for case in _segment_cases(one, segments[:place]):
                    yield Refusal(12, it.number, place, case)
            entry = it.table["entry"]
            is_text = any(
                "x" in one["rights"] and one["page"] <= entry // PAGE < one["page"] + one["pages"]
                for one in segments
                if one["rights"] in keys.RIGHTS
            )
            if entry % 4 or not is_text:
                yield Refusal(12, it.number, entry, 6)

    def _caps(self) -> Iterator[Refusal]:
        for it in self.domains:
            caps = it.table.get("caps", [])
            if len(caps) > keys.CAPS_MOST:
                yield Refusal(13, it.number, len(caps), 1)
            for slot, text in enumerate(caps):
                case = _cap_case(text, caps[:slot], it.table)
                if case is not None:
                    yield Refusal(13, it.number, slot, case)

    def _lines(self) -> Iterator[Refusal]:
        owners: dict[int, int] = {}
        for it in self.domains:
            for line in it.table.get("lines", []):
                if not _is_within(line, keys.LINE):
                    yield Refusal(14, it.number, line, keys.LINE.high + 1)
                elif line in owners:
                    yield Refusal(14, it.number, line, owners[line])
                owners.setdefault(line, it.number)

    def _moments(self) -> Iterator[Refusal]:
        for it in self.domains:
            moments = it.table.get("moments", [])
            if len(moments) > keys.MOMENTS_MOST:
                yield Refusal(15, it.number, len(moments), 1)
            for place, (cycle, line) in enumerate(moments):
                if not _is_within(cycle, keys.MOMENT):
                    yield Refusal(15, it.number, place, 2)
                if line not in it.table.get("lines", []):
                    yield Refusal(15, it.number, place, 3)
                if place and moments[place] <= moments[place - 1]:
                    yield Refusal(15, it.number, place, 4)

    # ---- the schedule

    def _schedule(self) -> Iterator[Refusal]:
        count = len(_tables(self.image, "schedule"))
        if (22, 0) not in self.rows and not _is_within(count, self.limits.entries):
            yield Refusal(16, 0, count, 1)
        domains = len(_tables(self.image, "domain"))
        for number, it in self.entries:
            if not 0 <= it["domain"] < domains:
                yield Refusal(16, number, it["domain"], 2)
            if not _is_within(it["length"], keys.LENGTH):
                yield Refusal(16, number, it["length"], 3)
            if not _is_within(it["pad"], keys.PAD):
                yield Refusal(16, number, it["pad"], 4)

    def _pads(self) -> Iterator[Refusal]:
        broken = [*self._machine(), *self._shared()]
        if not self.has_machine or any(it.rule in (3, 6) or (it.rule, it.at) == (11, 1) for it in broken):
            return
        l2 = self.image["l2"] | {"back": self._optional("back", False, Place.LEVEL2)}
        image = self.image | {"muldiv": self._optional("muldiv", None), "l2": l2}
        for number, it in self.entries:
            calls = self._calls_of(it["domain"])
            if calls is None or not _is_within(it["pad"], keys.PAD):
                continue
            bound = bound_on_a_switch(image, calls)
            if it["pad"] < bound:
                yield Refusal(17, number, it["pad"], bound)

    def _calls_of(self, domain: int) -> frozenset[int] | None:
        """The calls that an entry's domain may make, where they can be told."""
        if self.is_first_version:
            return EVERY_CALL
        return calls_of(self.image, domain) if any(it.number == domain for it in self.domains) else None

    # ---- calls

    def _calls(self) -> Iterator[Refusal]:
        if self.is_first_version:
            return
        for it in self.domains:
            calls = it.table.get("calls", [])
            for place, call in enumerate(calls):
                is_call = _is_within(call, keys.CALL) or _is_within(call, keys.MAIL_CALL)
                if not is_call or (place and call <= calls[place - 1]):
                    yield Refusal(18, it.number, place, keys.CALL.high)

    # ---- harts

    def _harts(self) -> Iterator[Refusal]:
        harts = [(number, it["domain"], keys.hart_of(it)) for number, it in self.entries]
        for number, _, hart in harts:
            if not _is_within(hart, keys.HART):
                yield Refusal(19, number, hart, 1)
        good = [it for it in harts if _is_within(it[2], keys.HART)]
        if len(good) == len(_tables(self.image, "schedule")):
            there = {hart for _, _, hart in good}
            yield from (Refusal(19, hart, 0, 2) for hart in range(max(there, default=0)) if hart not in there)
        for place, (number, domain, hart) in enumerate(good):
            if any(of == domain and other != hart for _, of, other in good[:place]):
                yield Refusal(19, number, domain, 3)

    # ---- mailboxes

    def _boxes(self) -> Iterator[Refusal]:
        count = len(_tables(self.image, "mail"))
        if count > keys.BOXES_MOST:
            yield Refusal(20, 0, count, 1)
        domains = len(_tables(self.image, "domain"))
        earlier: dict[tuple[int, ...], int] = {}
        for number, it in self.boxes:
            ends = tuple(it[key] for key in keys.BOX_ENDS)
            nobodys = [end for end in dict.fromkeys(ends) if not 0 <= end < domains]
            yield from (Refusal(20, number, end, 2) for end in nobodys)
            if ends[0] == ends[1] and not nobodys:
                yield Refusal(20, number, ends[0], 3)
            if ends in earlier:
                yield Refusal(20, number, earlier[ends], 4)
            earlier.setdefault(ends, number)

    # ---- products and the target buffer

    def _extensions(self) -> Iterator[Refusal]:
        muldiv = self._optional("muldiv", None)
        for case, cost in enumerate(keys.PRODUCTS, 1):
            if muldiv is not None and not _is_within(muldiv[cost], keys.COST):
                yield Refusal(22, case, muldiv[cost], keys.COST.high)
        targets = self._optional("targets", None)
        if targets is not None and not (_is_within(targets, keys.TARGETS) and _is_power_of_two(targets)):
            yield Refusal(22, 3, targets, keys.TARGETS.high)


def _broken_rows(image: Image) -> Iterator[tuple[keys.KeyRow, int]]:
    """Each broken row of the table of keys, with the domain, entry or box; by the rows, then by those."""
    for row in keys.rows_of(image):
        root = None if row.place.is_one else row.place.path[0]
        count = 1 if root is None else len(_tables(image, root))
        for number in range(count):
            if keys.broken_place(row, image, number) is not None:
                yield row, number


def _tables(image: Image, key: str) -> list[dict[str, Any]]:
    value = image.get(key)
    return [it if isinstance(it, dict) else {} for it in value] if isinstance(value, list) else []


def _whole_tables(image: Image, key: str, broken: set[int]) -> list[tuple[int, dict[str, Any]]]:
    """The tables of an array that have all that they must, with their numbers."""
    # (what is no table is empty here, and breaks the array's own row)
    return [it for it in enumerate(_tables(image, key)) if it[1] and it[0] not in broken]


def _is_within(value: int, ends: Within) -> bool:
    return ends.low <= value <= ends.high


def _outside(rule: int, at: int, value: int, ends: Within) -> Iterator[Refusal]:
    """The refusal of a value that passes an end."""
    if not _is_within(value, ends):
        yield Refusal(rule, at, value, ends.low if value < ends.low else ends.high)


def _is_power_of_two(value: int) -> bool:
    return value > 0 and value & (value - 1) == 0


def _segment_cases(one: dict[str, Any], earlier: list[dict[str, Any]]) -> Iterator[int]:
    first, after = one["page"], one["page"] + one["pages"]
    if after > keys.PAGES_OF_ALL:
        yield 1
    if one["rights"] not in keys.RIGHTS:
        yield 2
    if not re.fullmatch(keys.HEX, one["hex"]):
        yield 3
    elif len(one["hex"]) // 2 > one["pages"] * PAGE:
        yield 4
    if any(first < it["page"] + it["pages"] and it["page"] < after for it in earlier):
        yield 5


def _cap_case(text: str, earlier: list[str], domain: dict[str, Any]) -> int | None:
    if not _CAP.fullmatch(text):
        return 2
    kind, _, number = text.partition(" ")
    if kind == "page" and not any(
        int(number) in range(one["page"], one["page"] + one["pages"]) for one in domain["segment"]
    ):
        return 3
    if kind == "irq" and int(number) not in domain.get("lines", []):
        return 4
    return 5 if kind != "none" and text in earlier else None
