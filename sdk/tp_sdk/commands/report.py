"""tp-report: a report in sentences."""

from __future__ import annotations

import json
import tomllib
from argparse import ArgumentParser, Namespace, RawDescriptionHelpFormatter
from dataclasses import replace
from pathlib import Path

from tp_sdk.build import build_text, load_programs
from tp_sdk.description import Description, read_description
from tp_sdk.differences import Differences, differences_of
from tp_sdk.elf import Loaded
from tp_sdk.faults import EXIT_CODES, read_text, write_bytes
from tp_sdk.known import Known, known_by, known_with, refuse_another_image
from tp_sdk.page_facts import facts_of
from tp_sdk.page_file import page_of
from tp_sdk.progress import progress
from tp_sdk.refusals import Image
from tp_sdk.report import Report, parse_report
from tp_sdk.report_schema import report_schema
from tp_sdk.run_again import refuse_another_run
from tp_sdk.telling import Telling

_HELP = """Tells in sentences what a report of `tp run` says: what each domain came to, and where in
its program; its calls, by the errors of their replies; its boxes; its readings, as differences.

  tp-report mine.report --image mine.toml     a description: its programs' symbols and lines are told
  tp-report mine.report --image mine.image --elf mine=out/mine.elf
  tp-report mine.report --against other.report    also where the second report differs
  tp-report mine.report --image mine.toml --html mine.html

The last writes a page: one file with the sentences, a timeline, with arrows to where words of boxes may
have come in, what switches used of their pads, whose memory is whose, and readings. It asks no server for
anything. With no image it has no map of the memory, and of the timeline the pads alone.

Source lines are there where a program was compiled with -g, as sdk/c/Makefile does. A reply has
no call's number: the calls that may have had it are told.

A report of another image than that of --image is refused: by its names and pads; and where the
program is there and the run is no long one, by running the image again. That of --against has the
same domains and pads; it may be of other programs, of another number of slots, or with a guard off."""


def main(words: list[str]) -> int:
    """Writes the sentences, or the object, or its schema, or a page."""
    parser = _parser()
    asked = parser.parse_args(words)
    if asked.schema:
        print(json.dumps(report_schema(), indent=2))
        return 0
    if asked.report is None:
        parser.error("the report is wanted")
    if asked.elf and asked.image is None:
        parser.error("--elf wants --image, too")
    _tell(asked)
    return 0


def _parser() -> ArgumentParser:
    parser = ArgumentParser(
        "tp-report", description=_HELP, epilog=EXIT_CODES, formatter_class=RawDescriptionHelpFormatter
    )
    parser.add_argument("report", type=Path, nargs="?", help="the report; -: standard input")
    parser.add_argument("--image", type=Path, help="the image that was run, or its description")
    parser.add_argument(
        "--elf",
        action="append",
        default=[],
        metavar="[DOMAIN=]FILE",
        help="a domain's program, where the image alone is there; may stand several times",
    )
    parser.add_argument("--against", type=Path, metavar="REPORT", help="a second report, which is compared")
    form = parser.add_mutually_exclusive_group()
    form.add_argument("--json", action="store_true", help="writes an object, for programs")
    form.add_argument(
        "--html", type=Path, metavar="PAGE", help="writes a page into a file; -: to standard output"
    )
    form.add_argument("--schema", action="store_true", help="writes a JSON schema of that object, and ends")
    return parser


def _tell(asked: Namespace) -> None:
    """In the form that is asked for, once nothing is at fault any more."""
    report = _read(asked.report)
    known, image = Known(), None
    if asked.image is not None:
        description = read_description(asked.image)
        programs = load_programs(description)
        known = known_with(description, programs, asked.elf)
        refuse_another_image(report, asked.report, known)
        with progress("tp-report") as shown:
            refuse_another_run(report, asked.report, description, programs, shown)
        image = _image(description, programs, report) if asked.html is not None else None
    other = None if asked.against is None else _read(asked.against)
    differences = None if other is None else _differences(asked, report, other, known)
    telling = Telling(report, str(asked.report), known, differences=differences)
    if asked.html is not None:
        page = page_of(facts_of(telling, image, other))
        # (a file's name may be no text)
        write_bytes(asked.html, page.encode(errors="replace"))
    elif asked.json:
        print(json.dumps(telling.fields(), indent=2))
    else:
        print("\n".join(telling.sentences()))


def _read(file: Path) -> Report:
    return parse_report(read_text(file), str(file))


def _image(description: Description, programs: list[Loaded], report: Report) -> Image:
    """The image's values. Pads that a description leaves to the program are those of the report."""
    pairs = zip(description.schedule, report.switches)
    schedule = [replace(entry, pad=switch.pad) for entry, switch in pairs]
    return tomllib.loads(build_text(replace(description, schedule=schedule), None, programs))


def _differences(asked: Namespace, report: Report, other: Report, known: Known) -> Differences:
    refuse_another_image(other, asked.against, known_by(report, asked.report))
    told = Telling(other, str(asked.against), replace(known, file=None))
    return differences_of(report, other, told.head())
