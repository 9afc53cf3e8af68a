"""What is known of a run besides its report: the image's domains with their programs, its schedule."""

from __future__ import annotations

from dataclasses import dataclass, field
from pathlib import Path

from tp_sdk.calls import EVERY_CALL, calls_where
from tp_sdk.description import Description
from tp_sdk.elf import Loaded, load_elf
from tp_sdk.faults import Fault
from tp_sdk.report import Report
from tp_sdk.spelling import did_you_mean


@dataclass(frozen=True)
class KnownEntry:
    """An entry of the schedule; of a description its pad may be unknown."""

    domain: int
    pad: int | None
    hart: int = 0


@dataclass(frozen=True)
class KnownBox:
    """A mailbox, by the names of the domains at its ends."""

    number: int
    sender: str
    receiver: str


@dataclass
class Known:
    """An image, or nothing, as `file` is none; `there` has the calls that there are."""

    file: Path | None = None
    names: list[str] = field(default_factory=list)
    programs: list[Loaded] = field(default_factory=list)
    entries: list[KnownEntry] = field(default_factory=list)
    calls: list[frozenset[int]] = field(default_factory=list)
    there: frozenset[int] = EVERY_CALL
    boxes: list[KnownBox] = field(default_factory=list)

    @property
    def harts(self) -> int:
        """How many harts there are, as far as is known."""
        return 1 + max((0, *(entry.hart for entry in self.entries)))

    def calls_of(self, domain: int) -> frozenset[int]:
        """The calls that a domain may make, as far as is known."""
        return self.calls[domain] if domain < len(self.calls) else self.there

    def boxes_of(self, name: str) -> list[KnownBox]:
        """The boxes of which a domain is at an end."""
        return [it for it in self.boxes if name in (it.sender, it.receiver)]

    def program(self, domain: int) -> Loaded | None:
        """The program of a domain."""
        return self.programs[domain] if domain < len(self.programs) else None


def known_with(description: Description, programs: list[Loaded], elfs: list[str]) -> Known:
    """What an image, or a description, says, and ELF files, each `[DOMAIN=]FILE`, of its programs."""
    known = known_of(description, [*programs])
    for elf in elfs:
        _put_elf(known, elf, description.arch)
    return known


def known_of(description: Description, programs: list[Loaded]) -> Known:
    """What a description says, its programs loaded."""
    names = [it.name for it in description.domains]
    numbers = {name: number for number, name in enumerate(names)}
    entries = [
        KnownEntry(it.domain if isinstance(it.domain, int) else numbers.get(it.domain, -1), it.pad, it.hart)
        for it in description.schedule
    ]
    there = calls_where(bool(description.boxes))
    calls = [there if it.calls is None else there.intersection(it.calls) for it in description.domains]
    boxes = [
        KnownBox(number, *(names[end] if isinstance(end, int) else end for _, end in it.ends))
        for number, it in enumerate(description.boxes)
    ]
    return Known(description.file, names, programs, entries, calls, there, boxes)


def known_by(report: Report, file: Path) -> Known:
    """What a report alone tells of the image that it is of."""
    entries = [KnownEntry(-1, switch.pad) for switch in report.switches]
    return Known(file, [section.name for section in report.sections], [], entries)


def _put_elf(known: Known, elf: str, arch: str) -> None:
    """The symbols and segments' names are the file's, which must be the program of the domain."""
    named, equals, rest = elf.partition("=")
    file = Path(rest if equals else named)
    name = named if equals else known.names[0] if len(known.names) == 1 else file.stem
    if name not in known.names:
        meant = did_you_mean(name, known.names) or f": {', '.join(known.names)}"
        raise Fault(f"--elf {elf}: {known.file} has no domain '{name}'{meant} (DOMAIN=FILE says of which)")
    number = known.names.index(name)
    loaded = load_elf(file, arch)
    _refuse_another_program(known, number, loaded)
    known.programs[number] = loaded


def _refuse_another_program(known: Known, number: int, loaded: Loaded) -> None:
    """What can't be changed by a description is the same: the entry, and what may be run."""
    image = known.programs[number]
    texts = [
        [(it.page, bytes(it.data).rstrip(b"\0")) for it in program.segments if "x" in it.rights]
        for program in (image, loaded)
    ]
    if image.entry != loaded.entry or texts[0] != texts[1]:
        raise Fault(
            f"{loaded.file}: it isn't the program of domain {number} ({known.names[number]}) of "
            f"{known.file}: its text is another"
        )


def refuse_another_image(report: Report, file: Path, known: Known) -> None:
    """Faults the first line of a report that can't be of the image."""
    if known.file is None:
        return
    for section in report.sections:
        name = known.names[section.number] if section.number < len(known.names) else None
        if name != section.name:
            other = f"'{name}'" if name is not None else "none"
            raise Fault(
                f"{file}:{section.line}: a report of another image: domain {section.number} is "
                f"'{section.name}' here, and {other} in {known.file}"
            )
    if len(report.sections) != len(known.names):
        raise Fault(
            f"{file}: a report of another image: it has {len(report.sections)} domains, "
            f"and {known.file} has {len(known.names)}"
        )
    _refuse_another_schedule(report, file, known)


def _refuse_another_schedule(report: Report, file: Path, known: Known) -> None:
    if len(report.switches) != len(known.entries):
        raise Fault(
            f"{file}: a report of another image: its schedule has {len(report.switches)} entries, "
            f"and that of {known.file} has {len(known.entries)}"
        )
    for switch, entry in zip(report.switches, known.entries):
        if entry.pad is not None and entry.pad != switch.pad:
            raise Fault(
                f"{file}:{switch.line}: a report of another image: the pad of entry {switch.entry} is "
                f"{switch.pad} here, and {entry.pad} in {known.file}"
            )
