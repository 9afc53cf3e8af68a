"""Where each key and value of a TOML text stands. `tomllib` reads values and tells no places."""

from __future__ import annotations

import re
import tomllib
from dataclasses import dataclass, field
from typing import Any

Path = tuple[str | int, ...]

BARE_KEY = re.compile(r"[A-Za-z0-9_-]+")
_BLANK = re.compile(r"(?:[ \t\r\n]|#[^\n]*)*")
_SPACE = re.compile(r"[ \t]*")
_SCALAR = re.compile(r"[^,\]}#\n]*")
# The long ones first: two of their three quotes are no empty string.
_STRINGS = (
    re.compile(r'"""(?:\\.|[^\\])*?"{3,5}', re.DOTALL),
    re.compile(r"'''.*?'{3,5}", re.DOTALL),
    re.compile(r'"(?:\\.|[^"\\])*"'),
    re.compile(r"'[^']*'"),
)


@dataclass(frozen=True)
class Span:
    """A part of a text, by the numbers of its first character and of the one after its last."""

    start: int
    end: int


@dataclass(frozen=True)
class Position:
    """A line and a column, both from 1."""

    line: int
    column: int


@dataclass
class Places:
    """The places of a text's keys (a table's is its header) and values, by their paths."""

    text: str
    keys: dict[Path, Span] = field(default_factory=dict)
    values: dict[Path, Span] = field(default_factory=dict)

    def position(self, at: int) -> Position:
        """The line and column of a character."""
        line_start = self.text.rfind("\n", 0, at) + 1
        return Position(self.text.count("\n", 0, at) + 1, at - line_start + 1)

    def nearest(self, path: Path) -> Span:
        """The place of a value; of its key, or of what it should stand in, where there is none."""
        while path:
            span = self.values.get(path) or self.keys.get(path)
            if span is not None:
                return span
            path = path[:-1]
        return Span(0, 0)


def read_with_places(text: str) -> tuple[dict[str, Any], Places]:
    """The values of a TOML text and their places; `tomllib.TOMLDecodeError` where it is none."""
    places = Places(text)
    try:
        data = tomllib.loads(text)
        _Scanner(places).document()
    except tomllib.TOMLDecodeError:
        raise
    # (two limits of Python's, which `tomllib` doesn't tell of as its own)
    except ValueError:
        raise tomllib.TOMLDecodeError("an integer of too many digits") from None
    except RecursionError:
        raise tomllib.TOMLDecodeError("arrays or tables in one another too deep") from None
    return data, places


class _Scanner:
    """Goes through a text that `tomllib` has read, so one without faults."""

    def __init__(self, places: Places) -> None:
        self.text = places.text
        self.places = places
        self.at = 0
        self.counts: dict[Path, int] = {}  # the arrays of tables, and how many tables each has yet

    def document(self) -> None:
        table: Path = ()
        self.skip(_BLANK)
        while self.at < len(self.text):
            if self.text[self.at] == "[":
                table = self.header()
            else:
                self.key_and_value(table)
            self.skip(_BLANK)

    def skip(self, pattern: re.Pattern[str]) -> str:
        found = pattern.match(self.text, self.at)
        assert found is not None
        self.at = found.end()
        return found.group()

    def header(self) -> Path:
        start = self.at
        is_array = self.text.startswith("[[", start)
        brackets = 2 if is_array else 1
        self.at += brackets
        keys = self.dotted_key()
        self.at += brackets
        path = self.resolved(keys[:-1], start) + keys[-1:]
        if is_array:
            number = self.counts.get(path, 0)
            self.counts[path] = number + 1
            self.places.keys.setdefault(path, Span(start, self.at))
            path += (number,)
        self.places.keys.setdefault(path, Span(start, self.at))
        return path

    def resolved(self, keys: Path, start: int) -> Path:
        """A header's path: the name of an array of tables means the last of them."""
        path: Path = ()
        for key in keys:
            path += (key,)
            if path in self.counts:
                path += (self.counts[path] - 1,)
            else:
                self.places.keys.setdefault(path, Span(start, self.at))
        return path

    def dotted_key(self) -> Path:
        keys: Path = ()
        while True:
            self.skip(_SPACE)
            keys += (self.simple_key(),)
            self.skip(_SPACE)
            if self.text[self.at] != ".":
                return keys
            self.at += 1

    def simple_key(self) -> str:
        start = self.at
        if self.text[start] in "\"'":
            self.string()
            key = tomllib.loads(f"key = {self.text[start:self.at]}")["key"]
            assert isinstance(key, str)
            return key
        return self.skip(BARE_KEY)

    def key_and_value(self, table: Path) -> None:
        start = self.at
        keys = self.dotted_key()
        span = Span(start, self.at)
        for length in range(1, len(keys) + 1):
            self.places.keys.setdefault(table + keys[:length], span)
        self.at += 1  # the sign of equality
        self.skip(_SPACE)
        self.value(table + keys)

    def value(self, path: Path) -> None:
        start = self.at
        first = self.text[start]
        if first == "[":
            self.array(path)
        elif first == "{":
            self.inline_table(path)
        elif first in "\"'":
            self.string()
        else:
            self.at = start + len(self.skip(_SCALAR).rstrip())
        self.places.values[path] = Span(start, self.at)

    def string(self) -> None:
        for pattern in _STRINGS:
            found = pattern.match(self.text, self.at)
            if found is not None:
                self.at = found.end()
                return

    def array(self, path: Path) -> None:
        self.at += 1
        number = 0
        self.skip(_BLANK)
        while self.text[self.at] != "]":
            self.value(path + (number,))
            number += 1
            self.skip(_BLANK)
            if self.text[self.at] == ",":
                self.at += 1
                self.skip(_BLANK)
        self.at += 1

    def inline_table(self, path: Path) -> None:
        self.at += 1
        self.skip(_SPACE)
        while self.text[self.at] != "}":
            self.key_and_value(path)
            self.skip(_SPACE)
            if self.text[self.at] == ",":
                self.at += 1
                self.skip(_SPACE)
        self.at += 1
