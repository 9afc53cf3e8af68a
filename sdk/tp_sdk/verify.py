"""Whether a report's section of a domain is what an image gives that its tenant holds."""

from __future__ import annotations

import tomllib
from dataclasses import dataclass
from itertools import zip_longest
from pathlib import Path

from tp_sdk.faults import Fault, read_text
from tp_sdk.mail import OpenOrders, boxes_of
from tp_sdk.program import Program
from tp_sdk.refusals import Image
from tp_sdk.report import Report, parse_report
from tp_sdk.running import words_for
from tp_sdk.schedule import domain_names, entries_of, slots_of_each


@dataclass(frozen=True)
class Difference:
    """The first line of a section that differs: what the report has at that line, and what the image gives."""

    line: int
    reported: str
    given: str

    def __str__(self) -> str:
        reported = f"'{self.reported}'" if self.reported else "the end of the section"
        given = f"'{self.given}'" if self.given else "the end of the section"
        return f"the report has {reported}, and the image gives {given}"


@dataclass(frozen=True)
class Held:
    """An image in which a domain is its tenant's own."""

    file: str
    text: str
    image: Image
    name: str

    @classmethod
    def read(cls, file: Path, name: str) -> Held:
        """The image of a file, which must have the domain."""
        text = read_text(file)
        try:
            image = tomllib.loads(text)
        except tomllib.TOMLDecodeError as error:
            raise Fault(f"{file}: no image: {error}") from None
        names = domain_names(image)
        if name not in names:
            raise Fault(f"{file}: there is no domain '{name}': it has {', '.join(names) or 'none'}")
        return cls(str(file), text, image, name)

    def slots_of(self, report: Report) -> int:
        """How many slots each hart had by a report."""
        if report.off is not None:
            raise Fault(
                f"the report is of a machine without its guard {report.off}, of which nothing is promised"
            )
        entries = entries_of(self.image, self.file)
        if [it.entry for it in report.switches] != list(range(len(entries))):
            raise Fault(f"{self.file} has {len(entries)} entries, and the report {len(report.switches)}")
        return slots_of_each(entries, report)

    def senders(self) -> list[str]:
        """The domains that may tell it words, by boxes to it and to those: what it sees goes by theirs, too."""
        _, *others = self._told_by()
        names = domain_names(self.image)
        return [names[it] for it in sorted(others)]

    def is_open(self) -> bool:
        """Which words come in to it, or to those, isn't the schedule's alone."""
        domains = self._told_by()
        return any(it.box.receiver in domains for it in OpenOrders(self.image, self.file).close)

    def _told_by(self) -> list[int]:
        """Its number, and then those of its senders."""
        boxes = boxes_of(self.image, self.file)
        found = [domain_names(self.image).index(self.name)]
        for domain in found:  # (it grows)
            found += [it.sender for it in boxes if it.receiver == domain and it.sender not in found]
        return found

    def difference(
        self, program: Program, report: Report, slots: int, is_alone: bool = True
    ) -> Difference | None:
        """The first line in which the domain's section after so many slots differs, if there is one: alone, where no
        word comes in, or else beside the other domains of the image."""
        section = report.section(self.name)
        reported = [f"domain {section.number} {section.name}", *section.text.splitlines()]
        given = self._section(program, slots, is_alone)
        for line, (had, gives) in enumerate(zip_longest(reported, given, fillvalue="")):
            if had != gives:
                return Difference(section.line + line, had, gives)
        return None

    def _section(self, program: Program, slots: int, is_alone: bool) -> list[str]:
        """The lines that the image gives."""
        domain = domain_names(self.image).index(self.name)
        words = [*words_for(alone=domain if is_alone else None), "--slots", str(slots)]
        ended = program.run(words, self.text)
        if ended.code != 0:
            raise Fault(f"{self.file}: tp {' '.join(words)} answers '{ended.text.strip()}'")
        if is_alone:
            return ended.text.splitlines()
        own = parse_report(ended.text, self.file).section(self.name)
        return [f"domain {own.number} {own.name}", *own.text.splitlines()]
