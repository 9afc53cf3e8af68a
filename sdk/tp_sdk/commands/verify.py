"""tp-verify: whether a report's section of a domain is what an image gives."""

from __future__ import annotations

from argparse import ArgumentParser, Namespace, RawDescriptionHelpFormatter
from pathlib import Path

from tp_sdk.calls import in_words
from tp_sdk.faults import EXIT_CODES, INPUT_AT_FAULT, read_text
from tp_sdk.program import Program
from tp_sdk.progress import progress
from tp_sdk.report import Report, parse_report
from tp_sdk.running import with_end
from tp_sdk.verify import Held
from tp_sdk.words import slots_from

_HELP = """Runs one domain of an image alone, for as many slots as a report tells of, and compares
the section that it has then with the report's, byte for byte.

  tp-verify mine.toml theirs.report --domain mine
  tp-verify mine.toml mine.section --domain mine --slots 24

The second takes the section alone, as `tp alone` writes it, and how many slots its hart had.

The image need not be the one that was run: it must say the same to all domains, and the same of
this one. What the others have in it makes no difference. Of two sections that differ, the first
line that does is told, and the exit code is 1.

Where boxes lead to the domain, it sees the words that come in, too. So then it is run beside the
others, and of those that may tell it words, themselves or by way of others, the image must say
what the one that was run does, too: whose that is, is told. (A section alone may also be that
without any word, as `tp alone` writes it.)"""

_OPEN = "; which words come in may go by who passes a slot's end, as tp-explain tells of the image"


def main(words: list[str]) -> int:
    """Tells that the sections are the same, or the first line that differs."""
    parser = ArgumentParser(
        "tp-verify", description=_HELP, epilog=EXIT_CODES, formatter_class=RawDescriptionHelpFormatter
    )
    parser.add_argument("image", type=Path, help="an image with this domain and the same schedule")
    parser.add_argument("report", type=Path, help="the report, or the section alone")
    parser.add_argument("--domain", required=True, metavar="NAME", help="the domain")
    parser.add_argument(
        "--slots",
        type=slots_from(0),
        metavar="N",
        help="how many slots its hart had, where a section stands alone",
    )
    asked = parser.parse_args(words)
    text = read_text(asked.report)
    report = parse_report(text if asked.slots is None else with_end(text), str(asked.report))
    held = Held.read(asked.image, asked.domain)
    slots = held.slots_of(report) if asked.slots is None else asked.slots
    with progress("tp-verify") as shown:
        return _told(asked, held, report, slots, Program.find(shown))


def _told(asked: Namespace, held: Held, report: Report, slots: int, program: Program) -> int:
    """Tells what comes of it, and gives the exit code."""
    senders = held.senders()
    beside = f" beside {in_words(senders, 'and')}, as {held.file} has them" if senders else ""
    same = f"{asked.domain}: the section of {slots} slots is the same"
    difference = held.difference(program, report, slots, is_alone=not senders)
    if difference is None:
        print(f"{same}{beside}")
        return 0
    if senders and asked.slots is not None and held.difference(program, report, slots) is None:
        print(f"{same} alone, with no word coming in")
        return 0
    print(f"{asked.report}:{difference.line}: {difference}{beside}{_OPEN if held.is_open() else ''}")
    return INPUT_AT_FAULT
