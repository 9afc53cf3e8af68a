"""tp-plot: pictures of what a run did, and of what a spy could tell."""

from __future__ import annotations

import sys
from argparse import Namespace
from collections.abc import Callable, Sequence
from dataclasses import dataclass
from math import log2
from pathlib import Path
from typing import TYPE_CHECKING

from tp_sdk.bounds import EntryBound, bounds_of
from tp_sdk.commands.plot_words import parser_of_words
from tp_sdk.faults import Fault, Missing, read_text
from tp_sdk.images import read_image
from tp_sdk.information import Measured, capacity, entropy, measure
from tp_sdk.keys import VERSION, version_of
from tp_sdk.measurements import by_pads, by_schedule, measurements_of, rows_of
from tp_sdk.mail import Mail, boxes_in_use, boxes_of, longest_events
from tp_sdk.memory import memory_of
from tp_sdk.pictures import refuse_suffix
from tp_sdk.plot_tables import write_channel, write_chart, write_memory, write_readings, write_timeline
from tp_sdk.program import Program
from tp_sdk.progress import progress
from tp_sdk.refusals import Image
from tp_sdk.replay import Replay, replay
from tp_sdk.report import Report, Section, parse_report
from tp_sdk.schedule import Entry, domain_names, entries_of, slots_of_each
from tp_sdk.sweeping.charts import chart_of

# (each picture's library is loaded as the picture is drawn: words need none)
if TYPE_CHECKING:
    from tp_sdk.plot_matrix import Side
    from tp_sdk.plot_readings import Panel


def main(words: list[str]) -> int:
    """Draws what is asked for."""
    asked = parser_of_words().parse_args(words)
    refuse_suffix(asked.out)
    if asked.dark:
        from tp_sdk.plots import use_dark_paper

        use_dark_paper()
    _DRAWN[asked.picture](asked)
    return 0


def _sweep(asked: Namespace) -> None:
    from tp_sdk.plot_sweep import draw_sweep

    chart = chart_of(asked.table, asked.of, asked.key, asked.where, asked.observer)
    draw_sweep(asked.out, chart, asked.form)
    if asked.csv is not None:
        write_chart(asked.csv, chart)


def _read(file: Path) -> Report:
    return parse_report(read_text(file), str(file))


@dataclass(frozen=True)
class _Scheduled:
    """An image, the names of its domains, and its schedule."""

    file: Path
    image: Image
    names: list[str]
    entries: list[Entry]

    def refuse_others(self, file: Path, report: Report) -> None:
        """Refuses the report of another image, as far as its lines tell."""
        pads = [switch.pad for switch in report.switches]
        if pads != [entry.pad for entry in self.entries] or [it.name for it in report.sections] != self.names:
            raise Fault(f"{file}: a report of another image than {self.file}")
        if report.off == "pad":
            raise Fault(f"{file}:1: pad was off: slots began at other cycles than the schedule tells")


def _read_image(file: Path, program: Program | None) -> _Scheduled:
    image = read_image(file, program)
    return _Scheduled(file, image, domain_names(image), entries_of(image, str(file)))


def _timeline(asked: Namespace) -> None:
    from tp_sdk.plot_timeline import Strip, draw_timeline

    with progress("tp-plot") as shown:
        try:
            program = Program.find(shown)
        except Missing as missing:
            print(f"tp-plot: totals alone: {missing}", file=sys.stderr)
            program = None
        image = _read_image(asked.image, program)
        strips = [
            Strip(file.name, report, _replay(program, image, report, asked.slots))
            for file, report in _reports_of_image(image, asked.reports)
        ]
    told = _bounds(image), _mail(image)
    draw_timeline(asked.out, image.names, image.entries, strips, asked.slots, *told)
    if asked.csv is not None:
        write_timeline(asked.csv, image.names, image.entries, strips, asked.slots)


def _reports_of_image(image: _Scheduled, files: Sequence[Path]) -> list[tuple[Path, Report]]:
    reports = [(file, _read(file)) for file in files]
    for file, report in reports:
        image.refuse_others(file, report)
        if report.off is not None:
            raise Fault(f"{file}:1: {report.off} was off: a timeline is of a run with all guards on")
    return reports


def _bounds(image: _Scheduled) -> list[EntryBound]:
    """The bounds of an image's entries, where its version has lists of calls, by which they differ."""
    if version_of(image.image) == VERSION.low:
        return []
    try:
        return bounds_of(image.image)
    except (KeyError, IndexError, TypeError, ZeroDivisionError):
        raise Fault(f"{image.file}: no bound can be told of it: does 'tp check' accept it?") from None


def _mail(image: _Scheduled) -> Mail:
    """The boxes into which words may be put."""
    file = str(image.file)
    boxes = boxes_in_use(image.image, boxes_of(image.image, file))
    return Mail(boxes, longest_events(image.image, file) if boxes else [])


def _replay(
    program: Program | None, image: _Scheduled, report: Report, slots: int
) -> tuple[Replay, ...] | None:
    return None if program is None else replay(program, image.image, str(image.file), report, slots)


def _memory(asked: Namespace) -> None:
    from tp_sdk.plot_memory import draw_memory

    image = _read_image(asked.image, Program.if_any())
    memory = memory_of(image.image, str(asked.image))
    draw_memory(asked.out, image.names, memory, boxes_of(image.image, str(asked.image)))
    if asked.csv is not None:
        write_memory(asked.csv, image.names, memory)


def _readings(asked: Namespace) -> None:
    from tp_sdk.plot_readings import draw_histogram, draw_matrix

    reports = _reports_of(asked.folder)
    image = None if asked.image is None else _read_image(asked.image, Program.if_any())
    if image is not None:
        for file, report in reports:
            image.refuse_others(file, report)
    if asked.against is not None and asked.against not in [file.stem for file, _ in reports]:
        raise Fault(f"{asked.folder}: there is no {asked.against}.report to compare with")
    panels = [_panel(domain, reports, asked, image) for domain in asked.domain]
    for panel in panels:
        print(panel.verdict)
    draw = draw_matrix if asked.form == "matrix" else draw_histogram
    draw(asked.out, panels)
    if asked.csv is not None:
        write_readings(asked.csv, panels)


def _reports_of(folder: Path) -> list[tuple[Path, Report]]:
    """The reports of a folder, by their names: two or more."""
    if not folder.is_dir():
        raise Fault(f"{folder}: there is no such folder")
    files = sorted(folder.glob("*.report"))
    if len(files) < 2:
        raise Fault(f"{folder}: two reports NAME.report or more are wanted, and {len(files)} are there")
    return [(file, _read(file)) for file in files]


def _matrix(asked: Namespace) -> None:
    from tp_sdk.plot_matrix import draw_channel

    first, *others = asked.folders
    reports = {folder: _reports_of(folder) for folder in asked.folders}
    secrets = [file.stem for file, _ in reports[first]]
    for folder in others:
        _refuse_other_names(first, secrets, folder, [file.stem for file, _ in reports[folder]])
    sides = {folder: _side(of, asked.domain, asked.measure) for folder, of in reports.items()}
    for folder, side in sides.items():
        most = f"{log2(len(secrets)):.2f} would tell all {len(secrets)} apart"
        print(f"{folder}: {side.guards}: {side.bits} ({most})")
    draw_channel(asked.out, asked.domain, secrets, list(sides.values()))
    if asked.csv is not None:
        write_channel(asked.csv, asked.domain, secrets, list(sides.values()))


def _refuse_other_names(one: Path, ones: Sequence[str], other: Path, others: Sequence[str]) -> None:
    for name in sorted({*ones} ^ {*others}):
        has, lacks = (one, other) if name in ones else (other, one)
        raise Fault(f"{lacks}: there is no {name}.report, as there is in {has}")


def _side(reports: Sequence[tuple[Path, Report]], domain: str, measure_by: str) -> Side:
    """What a domain measured in each report, all of which have the same guard off."""
    from tp_sdk.plot_matrix import Side

    first, of_first = reports[0]
    for file, report in reports:
        if report.off != of_first.off:
            raise Fault(f"{file}:1: {_guards(report)}, and {_guards(of_first)} in {first}")
    sections = [_section(file, report, domain) for file, report in reports]
    # (all are drawn: that a slot ended within a measurement may be what tells)
    rows = [measurements_of(section, measure_by, by_pads([])).cycles for section in sections]
    readings = [section.readings for section in sections]
    return Side(of_first.off, rows, entropy(readings), capacity(readings))


def _guards(report: Report) -> str:
    return "all guards were on" if report.off is None else f"{report.off} was off"


def _section(file: Path, report: Report, domain: str) -> Section:
    try:
        return report.section(domain)
    except Fault as fault:
        raise Fault(f"{file}: {fault}") from None


def _panel(
    domain: str, reports: Sequence[tuple[Path, Report]], asked: Namespace, image: _Scheduled | None
) -> Panel:
    from tp_sdk.plot_readings import Panel

    sections, series = [], []
    for file, report in reports:
        section = _section(file, report, domain)
        if image is None:
            slot_ended = by_pads(switch.pad for switch in report.switches)
        else:
            slot_ended = by_schedule(image.entries, slots_of_each(image.entries, report), section.number)
        sections.append(section.text)
        series.append((file.stem, measurements_of(section, asked.measure, slot_ended)))
    measured = measure(sections, [it.cycles for _, it in series])
    return Panel(domain, rows_of(series), verdict(domain, measured), asked.against)


def verdict(domain: str, measured: Measured) -> str:
    """What the sections tell, in a sentence."""
    many = measured.neighbours
    most = f"{measured.most:.2f} would tell all {many} apart"
    if measured.sections == 1:
        return (
            f"{domain}: no difference: its sections are equal to the byte in {many} reports "
            f"(entropy 0.00, capacity 0.00 bits; {most})"
        )
    told = (
        f"{domain}: {measured.sections} different sections in {many} reports: "
        f"entropy {measured.of_section:.2f}, capacity {measured.capacity:.2f} bits"
    )
    if measured.best_reading is None:
        alone = "no measurement alone tells any"
    else:
        alone = f"measurement {measured.best_reading} alone tells most, {measured.of_one_reading:.2f}"
    return f"{told} ({most}); {alone}"


_DRAWN: dict[str, Callable[[Namespace], None]] = {
    "timeline": _timeline,
    "readings": _readings,
    "matrix": _matrix,
    "memory": _memory,
    "sweep": _sweep,
}
