"""Whether a report is of an image, told by running the image again: a run is determined by its image."""

from __future__ import annotations

from pathlib import Path

from tp_sdk.build import build_text
from tp_sdk.description import Description
from tp_sdk.elf import Loaded
from tp_sdk.faults import Fault
from tp_sdk.program import Program
from tp_sdk.progress import Progress
from tp_sdk.report import Report, parse_report
from tp_sdk.running import words_for, written

# What takes longer is not run again for this alone: some seconds.
_MOST_CYCLES = 200_000_000


def refuse_another_run(
    report: Report, file: Path, description: Description, programs: list[Loaded], shown: Progress
) -> None:
    """Faults the first line that the image doesn't come to, where there is the program and
    the run is no long one."""
    cycles = [entry.length * switch.count for entry, switch in zip(description.schedule, report.switches)]
    if sum(cycles) > _MOST_CYCLES:
        return
    program = Program.if_any(shown)
    if program is None:
        return
    text = build_text(description, program, programs)
    harts = 1 + max(entry.hart for entry in description.schedule)
    words = [*words_for(report.off), "--slots", str(report.slots // harts)]
    again = parse_report(written(program, words, text, str(description.file)), str(description.file))
    for one, other in zip(report.sections, again.sections):
        lines = zip(one.text.splitlines(), other.text.splitlines())
        for number, (line, due) in enumerate(lines, one.line + 1):
            if line != due:
                raise Fault(
                    f"{file}:{number}: a report of another image: '{_cut(line)}' of domain {one.number} "
                    f"({one.name}), and {description.file} comes to '{_cut(due)}'"
                )
    # (of several harts it may go by the order of their events, which a report doesn't tell)
    for switch, its in zip(report.switches, again.switches):
        if harts == 1 and (switch.used, switch.count) != (its.used, its.count):
            raise Fault(
                f"{file}:{switch.line}: a report of another image: {switch.count} switches of entry "
                f"{switch.entry} used {switch.used} at most, and {its.count} of {description.file} {its.used}"
            )


def _cut(line: str) -> str:
    return line if len(line) <= 60 else f"{line[:57]}..."
