"""The values that a sweep gives to one thing after the other, as words of the command line have them."""

from __future__ import annotations

import json
import re
import tomllib
from collections.abc import Iterable, Sequence
from typing import Any, overload

from tp_sdk.faults import Fault
from tp_sdk.values import integer_of

Value = int | bool | str | list[Any] | dict[str, Any] | None

NONE = "none"
_WRITTEN_OUT = 100_000  # values
_NUMBER = "0[xX][0-9A-Fa-f]{1,16}|[0-9]{1,19}"
_RANGE = re.compile(rf"({_NUMBER})\.\.({_NUMBER})(?:(\.\.|\*)({_NUMBER}))?")
_INTEGER = re.compile(_NUMBER)
_WORD = re.compile("[A-Za-z][A-Za-z0-9 _+-]*")
_OPENING, _CLOSING = "[{", "]}"
_WORDS: dict[str, Value] = {NONE: None, "true": True, "false": False}
WANTED = (
    "a number, A..B, A..B..STEP, A..B*FACTOR, a word, \"text\", [..], @FILE, or 'none', with commas between"
)


class Values(Sequence[Value]):
    """Values, of which a long range is not written out."""

    def __init__(self, parts: Iterable[Sequence[Value]]) -> None:
        self.parts = [part for part in parts if len(part)]
        self._length = sum(map(len, self.parts))

    def __len__(self) -> int:
        return self._length

    @overload
    def __getitem__(self, at: int) -> Value:
        ...

    @overload
    def __getitem__(self, at: slice) -> list[Value]:
        ...

    def __getitem__(self, at: int | slice) -> Value | list[Value]:
        if isinstance(at, slice):
            return [self[it] for it in range(*at.indices(len(self)))]
        if not -len(self) <= at < len(self):
            raise IndexError(at)
        place = at % len(self)
        for part in self.parts:
            if place < len(part):
                return part[place]
            place -= len(part)
        raise IndexError(at)

    def samples(self) -> Iterable[Value]:
        """Each value that may be at fault for itself: of a range its ends."""
        for part in self.parts:
            yield from (part[0], part[-1]) if isinstance(part, range) else part

    def in_short(self) -> str:
        """The same text for the same values, however they were asked for; of very many by their ranges."""
        if len(self) > _WRITTEN_OUT:
            return f"{self.parts}"
        return "\0".join(map(written, self))

    def twice(self) -> str | None:
        """A value that stands twice."""
        if len(self.parts) == 1 and isinstance(self.parts[0], range):
            return None
        before: set[str] = set()
        for value in self:
            if written(value) in before:
                return written(value)
            before.add(written(value))
        return None


def parse_values(text: str, asked: str) -> Values:
    """`8,16,0..15,0..64..8,8..64*2`, words, `"text"`, `[1, 2]`, `@FILE`, `none`; `asked` is what faults name."""
    return Values(_parse_item(item.strip(), asked) for item in _items(text))


def written(value: Value) -> str:
    """A value in a column: a number in decimal, a word as it is, what else there is as JSON."""
    if value is None:
        return NONE
    if type(value) is int:  # (most are, and no truths)
        return str(value)
    return value if isinstance(value, str) else json.dumps(value)


def as_read(cell: Value) -> Value:
    """A value of a column as a file has it: a text that is a number is that number."""
    return int(cell) if isinstance(cell, str) and re.fullmatch("[0-9]{1,19}", cell) else cell


def _items(text: str) -> list[str]:
    """What stands between commas that are in no brackets or quotes."""
    items, depth, is_quoted = [""], 0, False
    for at, letter in enumerate(text):
        if letter == '"' and text[at - 1 : at] != "\\":
            is_quoted = not is_quoted
        depth += 0 if is_quoted else (letter in _OPENING) - (letter in _CLOSING)
        if letter == "," and depth == 0 and not is_quoted:
            items.append("")
        else:
            items[-1] += letter
    return items


def _parse_item(item: str, asked: str) -> Sequence[Value]:
    if match := _RANGE.fullmatch(item):
        return _range(item, match, asked)
    if _INTEGER.fullmatch(item):
        return [integer_of(item)]
    if item in _WORDS:
        return [_WORDS[item]]
    if item.startswith("@") or _WORD.fullmatch(item):
        return [item]
    try:
        value: Value = tomllib.loads(f"value = {item}")["value"] if "\n" not in item else None
    except (ValueError, RecursionError):
        value = None
    if not isinstance(value, (str, list, dict)):
        raise Fault(f"{asked}: '{item}' is no value: {WANTED}")
    return [value]


def _range(item: str, match: re.Match[str], asked: str) -> Sequence[Value]:
    first, last = integer_of(match[1]), integer_of(match[2])
    step = integer_of(match[4]) if match[4] else 1
    if last < first:
        raise Fault(f"{asked}: the range {item} runs backwards: {match[2]}..{match[1]} is meant?")
    if match[3] != "*":
        if step == 0:
            raise Fault(f"{asked}: the range {item} has no end: its step is 0")
        return range(first, last + 1, step)
    if step < 2 or first == 0:
        raise Fault(f"{asked}: the range {item} has no end: each number is to be greater than the one before")
    numbers = []
    while first <= last:
        numbers.append(first)
        first *= step
    return numbers
