"""tp-counts: what happened in a domain's slots, by the events that cost cycles."""

from __future__ import annotations

import json
from argparse import ArgumentParser, Namespace, RawDescriptionHelpFormatter
from collections.abc import Sequence
from pathlib import Path

from tp_sdk.counts import Counted, count_events, counted_in
from tp_sdk.faults import EXIT_CODES, Fault
from tp_sdk.images import read_image
from tp_sdk.program import Program
from tp_sdk.progress import Progress, progress
from tp_sdk.refusals import Image
from tp_sdk.schedule import domain_names, entries_of
from tp_sdk.words import slots_from

_HELP = """Counts the events of a domain's slots, by their costs:

  tp-counts mine.toml --domain victim --slots 4

The program is run many times, with each cost one cycle more: so it must be there, and what
the domain does must not depend on its clock, nor may it have interrupts, nor may a box lead to
it: it is checked that it comes to the same state, and that the counts make up the cycles. A slot's
last instruction or call is not counted: its time may be the pad's. '?' is a slot that is too
short to tell. The columns are, by the costs of docs/IMAGE.md:

  instructions   calls among them
  first level    lines that are fetched, loaded or stored, those of the kernel's calls, too
  second level   those that the first level misses, and each read of a walk
  memory         those of the second level's that it misses
  write-backs    dirty lines that gave way
  translations   pages looked up: one for each instruction, load and store
  wrong guesses  of branches, and of where jumps go
  calls          of the kernel
  products, steps of divisions   where the machine has `muldiv`"""

_WHAT = {
    "base": "instructions",
    "l1": "first level",
    "l2": "second level",
    "mem": "memory",
    "wb": "write-backs",
    "tlb": "translations",
    "mispredict": "wrong guesses",
    "trap": "calls",
    "mul": "products",
    "div": "steps of divisions",
}


def main(words: list[str]) -> int:
    """Writes the counts."""
    parser = ArgumentParser(
        "tp-counts", description=_HELP, epilog=EXIT_CODES, formatter_class=RawDescriptionHelpFormatter
    )
    parser.add_argument("image", type=Path, help="the image, or its description")
    parser.add_argument("--domain", required=True, help="its name")
    parser.add_argument(
        "--slots", type=slots_from(1), default=4, help="of its hart's first so many slots (%(default)s)"
    )
    parser.add_argument("--json", action="store_true", help="writes an array with an object for each slot")
    asked = parser.parse_args(words)
    with progress("tp-counts") as shown:
        image, counted = _counted(asked, shown)
    table = json.dumps([vars(it) for it in counted]) if asked.json else _table(counted, counted_in(image))
    print(table)
    return 0


def _counted(asked: Namespace, shown: Progress) -> tuple[Image, list[Counted]]:
    program = Program.if_any(shown)
    image = read_image(asked.image, program)
    entries_of(image, str(asked.image))
    names = domain_names(image)
    if asked.domain not in names:
        raise Fault(f"{asked.image}: there is no domain '{asked.domain}': {', '.join(names)}")
    domain = names.index(asked.domain)
    return image, count_events(program or Program.find(shown), image, str(asked.image), domain, asked.slots)


def _table(counted: Sequence[Counted], costs: Sequence[str]) -> str:
    heads = ["slot", "cycles", *(_WHAT[cost] for cost in costs)]
    lines = [heads]
    for it in counted:
        told = None if it.events is None else [it.cycles, *(it.events[cost] for cost in costs)]
        lines.append(
            [
                str(it.slot),
                *("?" if told is None else f"{told[column]:,}" for column in range(len(heads) - 1)),
            ]
        )
    widths = [max(len(line[column]) for line in lines) for column in range(len(heads))]
    return "\n".join("  ".join(word.rjust(width) for word, width in zip(line, widths)) for line in lines)
