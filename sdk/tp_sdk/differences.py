"""How two reports of the same domains and pads differ: section by section, and switch by switch."""

from __future__ import annotations

from collections.abc import Sequence
from dataclasses import asdict, dataclass
from typing import Any

from tp_sdk.report import Report, Section

_LONGEST = 60  # letters that are told of a line
_NONE = "none"
# What a line's list has, by the line's first word.
_ITEMS = {"readings": "reading", "replies": "reply"}


@dataclass(frozen=True)
class Differing:
    """What differs, and what each of the two reports has."""

    what: str
    here: str
    there: str

    def sentence(self) -> str:
        """The same in words."""
        return f"{self.what}: {self.here} here, {self.there} there"

    def fields(self) -> dict[str, Any]:
        """The same as an object."""
        return asdict(self) | {"sentence": self.sentence()}


@dataclass(frozen=True)
class SectionCompared:
    """A domain's two sections: what differs in them, line by line."""

    number: int
    name: str
    differing: tuple[Differing, ...]

    def sentence(self) -> str:
        """How much differs."""
        count = len(self.differing)
        told = (
            "1 line differs" if count == 1 else f"{count} lines differ" if count else "the same, to the byte"
        )
        return f"{self.name} (domain {self.number}): {told}"

    def fields(self) -> dict[str, Any]:
        """The same as an object."""
        differing = [it.fields() for it in self.differing]
        return {"number": self.number, "name": self.name, "sentence": self.sentence(), "differing": differing}


@dataclass(frozen=True)
class Differences:
    """Two reports compared; `other` is what a head of sentences says of the second."""

    other: str
    sections: tuple[SectionCompared, ...]
    switches: tuple[Differing, ...]

    def sentences(self) -> list[str]:
        """What differs, indented below the line of the second report, and below each domain."""
        lines = [f"compared with {self.other}"]
        for section in self.sections:
            lines += [f"  {section.sentence()}", *(f"    {it.sentence()}" for it in section.differing)]
        return lines + [f"  {it}" for it in self._about_switches()]

    def fields(self) -> dict[str, Any]:
        """The same as an object."""
        return {
            "other": self.other,
            "sections": [it.fields() for it in self.sections],
            "switches": [it.fields() for it in self.switches],
            "sentences": [line.strip() for line in self.sentences()],
        }

    def _about_switches(self) -> list[str]:
        return [it.sentence() for it in self.switches] or ["switches: the same"]


def differences_of(report: Report, other: Report, told: str) -> Differences:
    """What differs between two reports of the same domains and pads; `told` is said of the other."""
    sections = tuple(
        SectionCompared(one.number, one.name, tuple(_sections_differ(one, two)))
        for one, two in zip(report.sections, other.sections)
    )
    switches = [
        Differing(f"entry {one.entry}, {what}", f"{here:,}", f"{there:,}")
        for one, two in zip(report.switches, other.switches)
        for what, here, there in (("used", one.used, two.used), ("switches", one.count, two.count))
        if here != there
    ]
    return Differences(told, sections, tuple(switches))


def _sections_differ(one: Section, other: Section) -> list[Differing]:
    """Each line that is not the same in both, in the order of a report."""
    lines, others = _by_key(one), _by_key(other)
    keys = sorted(lines.keys() | others.keys(), key=_place)
    return [_lines_differ(key, lines.get(key, []), others.get(key, [])) for key in keys
            if lines.get(key) != others.get(key)]  # fmt: skip


def _by_key(section: Section) -> dict[str, list[str]]:
    """The words of each line after those that name it: `thread` and its number, else the first."""
    lines = [line.split() for line in section.text.splitlines()]
    named = [(2 if words[0] == "thread" else 1, words) for words in lines]
    return {" ".join(words[:count]): words[count:] for count, words in named}


def _place(key: str) -> tuple[int, int]:
    """Where a line of this key stands in a section."""
    word, _, number = key.partition(" ")
    order = ("status", "retired", "thread", "readings", "replies", "out", "mem")
    return (order.index(word) if word in order else len(order), int(number or 0))


def _lines_differ(key: str, here: list[str], there: list[str]) -> Differing:
    """What differs in a line: of lists the first item, of a thread the words that one report alone has."""
    if key in _ITEMS:
        lists = [words[words.index("list") + 1 :] if "list" in words else [] for words in (here, there)]
        lasts = [_at(words, 2) for words in (here, there)]
        return _lists_differ(key, _ITEMS[key], (here[0], there[0]), lists, lasts)
    if key == "out":
        printed = [[f"{it:02x}" for it in bytes.fromhex("".join(words[1:]))] for words in (here, there)]
        return _lists_differ("bytes printed", "byte", (here[0], there[0]), printed, [_NONE, _NONE])
    both = (here, there)
    if key.startswith("thread"):
        both = ([it for it in here if it not in there], [it for it in there if it not in here])
    return Differing(key, *(_cut(" ".join(it)) for it in both))


def _lists_differ(
    what: str, item: str, counts: tuple[str, str], lists: list[list[str]], lasts: list[str]
) -> Differing:
    """Of lists the first place in which they differ; that may be one past the items that a report lists,
    and then the last ones are told."""
    place = _first(*lists)
    values = lasts if place is None else [_at(values, place) for values in lists]
    in_all = [f"{value} ({count} in all)" for value, count in zip(values, counts)]
    since = "the last" if place is None else f"from {item} {place} on"
    here, there = values if counts[0] == counts[1] else in_all
    return Differing(f"{what}, {since}", here, there)


def _first(one: Sequence[str], other: Sequence[str]) -> int | None:
    """The first place in which two lists differ, if there is one."""
    both = min(len(one), len(other))
    places = (place for place in range(both) if one[place] != other[place])
    return next(places, None if len(one) == len(other) else both)


def _at(values: Sequence[str], place: int) -> str:
    return values[place] if place < len(values) else _NONE


def _cut(text: str) -> str:
    return (text if len(text) <= _LONGEST else f"{text[: _LONGEST - 3]}...") or _NONE
