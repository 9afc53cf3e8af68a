"""A report's parts as its lines tell them, and its switches; and, quickly, what a sweep reads of one."""

from __future__ import annotations

from dataclasses import dataclass
from functools import lru_cache

from tp_sdk.faults import Fault
from tp_sdk.guards import GUARDS

_SWITCHES = 1024  # lines that are kept: those of many reports are alike
_DOMAIN, _SWITCH, _END = "\ndomain ", "\nswitch ", "\nend\n"

# What reading a line that isn't what it should be leads to.
BROKEN = (ValueError, IndexError, KeyError)


@dataclass(frozen=True)
class Switch:
    """The line of an entry's switches, and its number."""

    entry: int
    used: int
    pad: int
    count: int
    line: int = 0

    def __str__(self) -> str:
        return f"switch {self.entry} used {self.used} pad {self.pad} count {self.count}"


@dataclass(frozen=True)
class Outline:
    """A report's parts, each with the number of its first line before it: of each domain its lines, of each
    switch its line."""

    off: str | None
    sections: list[tuple[int, list[str]]]
    switches: list[tuple[int, str]]


def outline_of(text: str, file: str) -> Outline:
    """Takes a report apart; `file` is named where it is none."""
    lines = text.splitlines()
    if not lines or lines[-1] != "end":
        raise _no_report(lines, file)
    outline = Outline(_off(lines[0], file), [], [])
    starts = [number for number, line in enumerate(lines) if line.startswith(("domain ", "switch ", "end"))]
    for start, after in zip(starts, starts[1:]):
        if lines[start].startswith("domain "):
            outline.sections.append((start + 1, lines[start:after]))
        else:
            outline.switches.append((start + 1, lines[start]))
    return outline


@dataclass(frozen=True)
class Parts:
    """A report's parts as texts: each domain's section by its name, without the line that has it, and the lines of all
    switches."""

    sections: dict[str, str]
    switches: str


def parts_of(text: str, file: str) -> Parts:
    """Cuts a report where its parts begin, and looks at no line between: a sweep does this at each run."""
    if not text.endswith(_END):
        raise _no_report(text.splitlines(), file)
    whole, _, switches = text[: -len(_END)].partition(_SWITCH)
    before, *parts = f"\n{whole}".split(_DOMAIN)
    if before:
        _off(before[1:], file)
    heads = [part.partition("\n") for part in parts]
    return Parts({head.split()[1]: section for head, _, section in heads}, f"switch {switches}")


def _no_report(lines: list[str], file: str) -> Fault:
    told = f": the program's answer is '{lines[0]}'" if lines and lines[0].startswith("refused ") else ""
    return Fault(f"{file}: no report, which ends with the line 'end'{told}")


@lru_cache(_SWITCHES)
def switch_of(line: str, at: int, file: str) -> Switch:
    """Reads the line of an entry's switches, which is line `at` of a file."""
    try:
        return _switch(line, at)
    except BROKEN:
        raise no_part(file, at) from None


def no_part(file: str, at: int) -> Fault:
    """What is told of a line that isn't what it should be."""
    return Fault(f"{file}:{at}: no section of a report begins here")


def _off(line: str, file: str) -> str | None:
    """The guard of a first line `unprotected GUARD`."""
    if not line.startswith("unprotected"):
        return None
    guard = line.removeprefix("unprotected ")
    if guard not in GUARDS:
        raise Fault(f"{file}:1: '{line}' names no guard: unprotected {', '.join(GUARDS)}")
    return guard


def _switch(line: str, at: int) -> Switch:
    words = line.split()
    named = dict(zip(words[::2], words[1::2]))
    entry, used, pad, count = (int(named[key]) for key in ("switch", "used", "pad", "count"))
    if min(entry, used, pad, count) < 0:
        raise ValueError("no switch")
    return Switch(entry, used, pad, count, at)
