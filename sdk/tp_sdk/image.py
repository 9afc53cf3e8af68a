"""An image as it is written."""

from __future__ import annotations

import json
from dataclasses import dataclass
from typing import Any

from tp_sdk.elf import Segment


@dataclass
class ImageDomain:
    """A domain of an image; it may make every call where `calls` is none."""

    name: str
    colours: list[int]
    entry: int
    caps: list[str]
    lines: list[int]
    moments: list[list[int]]
    calls: list[int] | None
    segments: list[Segment]

    def to_toml(self) -> str:
        """Its table."""
        lists = (("caps", self.caps), ("lines", self.lines), ("moments", self.moments))
        return "".join(
            [
                f"[[domain]]\nname = {_json(self.name)}\n",
                f"colours = {self.colours}\nentry = {self.entry:#x}\n",
                *(f"{key} = {_json(items)}\n" for key, items in lists if items),
                *([] if self.calls is None else [f"calls = {_json(self.calls)}\n"]),
                "segment = [\n",
                *(_segment(segment) for segment in self.segments),
                "]\n",
            ]
        )


@dataclass(frozen=True)
class ImageEntry:
    """An entry of the schedule."""

    domain: int
    length: int
    pad: int
    hart: int

    def to_toml(self) -> str:
        """Its table; that of hart 0 names none."""
        hart = f"hart = {self.hart}\n" if self.hart else ""
        return f"[[schedule]]\ndomain = {self.domain}\nlength = {self.length}\npad = {self.pad}\n{hart}"


@dataclass(frozen=True)
class ImageBox:
    """A mailbox."""

    sender: int
    receiver: int

    def to_toml(self) -> str:
        """Its table."""
        return f"[[mail]]\nfrom = {self.sender}\nto = {self.receiver}\n"


@dataclass
class Image:
    """An image: the version of its format, where it is told, the keys of its machine, its domains, its
    schedule, its mailboxes."""

    version: int | None
    machine: dict[str, Any]
    domains: list[ImageDomain]
    schedule: list[ImageEntry]
    boxes: list[ImageBox]

    def to_toml(self) -> str:
        """The text."""
        tables: list[ImageDomain | ImageEntry | ImageBox] = [*self.domains, *self.schedule, *self.boxes]
        return "\n".join([machine_text(self.version, self.machine), *(it.to_toml() for it in tables)])


def machine_text(version: int | None, machine: dict[str, Any]) -> str:
    """An image's first lines: its version, where it is told, and its machine's keys."""
    told = machine if version is None else {"version": version} | machine
    return "".join(f"{key} = {_value(value)}\n" for key, value in told.items())


def _value(value: Any) -> str:
    if isinstance(value, dict):
        return "{ " + ", ".join(f"{key} = {_value(item)}" for key, item in value.items()) + " }"
    return _json(value)


def _segment(segment: Segment) -> str:
    return (
        f"    {{ page = {segment.page}, pages = {segment.pages}, rights = {_json(segment.rights)}, "
        f'hex = "{segment.data.hex()}" }}, # {segment.name}\n'
    )


def _json(value: Any) -> str:
    """Strings, integers, and arrays of them: JSON and TOML write these alike."""
    return json.dumps(value, ensure_ascii=False)
