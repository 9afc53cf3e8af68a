"""A report that `tp run` or `tp ablate` wrote, as values."""

from __future__ import annotations

import re
from collections.abc import Iterator
from dataclasses import dataclass, field
from itertools import zip_longest
from pathlib import Path

from tp_sdk.faults import Fault, read_text
from tp_sdk.outline import BROKEN, Switch, no_part, outline_of, switch_of

MOST_READING = 0xFFFF_FFFF

_STATUS = re.compile(r"running|exited \d+|stopped \d+ pc [0-9a-f]{8} value [0-9a-f]{8}")


@dataclass(frozen=True)
class Stop:
    """The exception that stopped a domain."""

    code: int
    pc: int
    value: int


@dataclass(frozen=True)
class Thread:
    """A thread that was started; `line` is the one that it waits for. A register that isn't there is 0."""

    number: int
    state: str
    line: int | None
    pc: int
    registers: dict[int, int]


@dataclass(frozen=True)
class Reply:
    """The reply to a kernel call."""

    code: int
    value: int


@dataclass(frozen=True)
class Section:
    """What one domain saw: `text` has the section's lines after the one of its number and name, which
    is line `line` of the report. Of readings and replies the first are there, and their count is of all."""

    number: int
    name: str
    status: str
    readings_count: int
    readings: tuple[int, ...]
    out: bytes
    text: str
    line: int = 0
    retired: int = 0
    threads: tuple[Thread, ...] = ()
    last_reading: int | None = None
    replies_count: int = 0
    replies: tuple[Reply, ...] = ()
    mem: str = ""

    @property
    def exit_code(self) -> int | None:
        """The code with which the domain has exited."""
        words = self.status.split()
        return int(words[1]) if words[0] == "exited" else None

    @property
    def stop(self) -> Stop | None:
        """What stopped the domain."""
        words = self.status.split()
        if words[0] != "stopped":
            return None
        return Stop(int(words[1]), int(words[3], 16), int(words[5], 16))


@dataclass(frozen=True)
class Difference:
    """A line in which two reports differ, or which one of them lacks, as its text is empty: `of` is the
    domain's name, or `entry N` for the switches of an entry."""

    of: str
    here: str
    there: str

    def __str__(self) -> str:
        here, there = (f"'{it}'" if it else "nothing" for it in (self.here, self.there))
        return f"{self.of}: {here} here, and {there} there"


@dataclass(repr=False)
class Report:
    """What a run came to, as docs/REPORT.md tells it line by line: `sections`, one a domain, in their order;
    `switches`, one an entry of the schedule; the guard that was `off`, or `None`; the `text` of it all.

    A section has the domain's `name`, `status`, `readings` (the first 256 clocks that it read, in
    cycles), `replies` to its calls, the bytes that it printed (`out`). A switch has the most cycles
    that it `used`, its `pad` in cycles, and how many there were (`count`).
    """

    sections: list[Section] = field(default_factory=list)
    switches: list[Switch] = field(default_factory=list)
    off: str | None = None
    text: str = ""

    @classmethod
    def read(cls, file: str | Path) -> Report:
        """The report of a file; raises a `Fault` where it is none."""
        return parse_report(read_text(Path(file)), str(file))

    @classmethod
    def parse(cls, text: str) -> Report:
        """The report of a text; raises a `Fault` where it is none."""
        return parse_report(text, "the text")

    def readings(self, name: str) -> tuple[int, ...]:
        """The clocks that a domain read, the first 256, in cycles; raises a `Fault` where there is no such
        domain, as each of these does."""
        return self.section(name).readings

    def measurements(self, name: str, measure: str = "pairs") -> tuple[int, ...]:
        """The cycles that a domain measured: `pairs` are each second reading less the one before it, `steps`
        each reading less the one before it, `values` the readings themselves."""
        # (which itself tells of sections)
        from tp_sdk.measurements import MEASURES, by_pads, measurements_of

        if measure not in MEASURES:
            raise Fault(f"measure={measure!r}: there is no such measure: {', '.join(MEASURES)}")
        return measurements_of(self.section(name), measure, by_pads([])).cycles

    def differences(self, other: Report) -> list[Difference]:
        """Each line in which another report differs, domain by domain and then entry by entry; none where
        what all domains saw and what each switch used is the same."""
        found = []
        for of, here, there in _pairs(self._parts(), other._parts()):
            lines = zip_longest(here, there, fillvalue="")
            found += [Difference(of, one, another) for one, another in lines if one != another]
        return found

    def _parts(self) -> dict[str, list[str]]:
        """The lines of each section and of each entry's switches."""
        sections = {it.name: it.text.splitlines() for it in self.sections}
        return sections | {f"entry {it.entry}": [str(it)] for it in self.switches}

    def __str__(self) -> str:
        return self.text

    def __repr__(self) -> str:
        off = "" if self.off is None else f", {self.off} off"
        # (one domain alone has no switches, by which slots are told)
        slots = f": {self.slots} slots" if self.switches else ""
        return f"<Report of {', '.join(it.name for it in self.sections)}{slots}{off}>"

    def section(self, name: str) -> Section:
        """The section of the domain of this name."""
        for section in self.sections:
            if section.name == name:
                return section
        names = ", ".join(section.name for section in self.sections)
        raise Fault(f"the report has no domain '{name}': it has {names or 'none'}")

    @property
    def slots(self) -> int:
        """How many slots were run: each has a switch."""
        return sum(switch.count for switch in self.switches)


def _pairs(
    here: dict[str, list[str]], there: dict[str, list[str]]
) -> Iterator[tuple[str, list[str], list[str]]]:
    """What two reports have of each part that one of them has."""
    for of in {**here, **there}:
        yield of, here.get(of, []), there.get(of, [])


def parse_report(text: str, file: str) -> Report:
    """Reads a report; `file` is named where it is none."""
    outline = outline_of(text, file)
    report = Report(off=outline.off, text=text)
    for at, lines in outline.sections:
        try:
            report.sections.append(_section(lines, at))
        except BROKEN:
            raise no_part(file, at) from None
    for at, line in outline.switches:
        report.switches.append(switch_of(line, at, file))
    return report


def _section(lines: list[str], at: int) -> Section:
    _, number, name = lines[0].split()
    rest = {line.split()[0]: line.split()[1:] for line in lines[1:] if not line.startswith("thread ")}
    readings, replies = rest["readings"], rest["replies"]
    kept = [int(it) for it in _kept(readings)]
    if kept and not 0 <= min(kept) <= max(kept) <= MOST_READING:
        raise ValueError("no reading")
    status = " ".join(rest["status"])
    if _STATUS.fullmatch(status) is None:
        raise ValueError("no status")
    return Section(
        int(number),
        name,
        status,
        int(readings[0]),
        tuple(kept),
        bytes.fromhex("".join(rest["out"][1:])),
        "\n".join(lines[1:]) + "\n",
        at,
        int(rest["retired"][0]),
        tuple(_thread(line) for line in lines[1:] if line.startswith("thread ")),
        int(readings[2]) if kept else None,
        int(replies[0]),
        tuple(_reply(it) for it in _kept(replies)),
        rest["mem"][0],
    )


def _kept(words: list[str]) -> list[str]:
    return words[words.index("list") + 1 :] if "list" in words else []


def _thread(line: str) -> Thread:
    _, number, state, *words = line.split()
    waits_for = int(words.pop(0)) if state == "waiting" else None
    registers = (word.removeprefix("x").split("=") for word in words[2:])
    return Thread(
        int(number), state, waits_for, int(words[1], 16), {int(name): int(it, 16) for name, it in registers}
    )


def _reply(text: str) -> Reply:
    code, value = text.split(":")
    return Reply(int(code), int(value))
