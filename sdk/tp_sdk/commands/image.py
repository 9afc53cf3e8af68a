"""tp-image: makes an image from a description and ELF files."""

from __future__ import annotations

import json
import sys
import tomllib
from argparse import ArgumentParser, RawDescriptionHelpFormatter
from pathlib import Path

from tp_sdk.build import build_text, set_moments, set_words
from tp_sdk.description import read_description
from tp_sdk.description_schema import description_schema
from tp_sdk.faults import EXIT_CODES, STANDARD, Fault, Missing, write_bytes
from tp_sdk.mail import OpenOrders
from tp_sdk.program import Program
from tp_sdk.progress import Progress, progress

MOST_BYTES = 1_048_576

_HELP = """Makes an image from a short description in TOML:

  version = 2                   where it is of the second version of the format
  machine = "machine.toml"      a file with the keys of the machine (docs/IMAGE.md)

  [[domain]]
  name = "driver"
  program = "driver.elf"        or a source in C or assembler (.c, .s, .S); beside the description
  colours = [1]
  stack = 2                     pages, if others than the program's own
  caps = ["irq 3", "data", "data+1", "none"]    a segment's name means its page
  lines = [3]
  moments = [[9000, 3]]
  calls = ["exit", "put", "wait"]               of version 2: those that it may make, else all
  words = { key = 0x5a, "table+4" = [1, 2], title = "text", noise = "@noise.bin" }
                                what stands at symbols: words, a string and a zero, a file's bytes

  [[schedule]]
  domain = "driver"             by name, or by its place as in an image
  length = 10000
  pad = 6150                    left out: what `tp bound` says, in version 2 of this entry
  hart = 1                      which hart runs it; left out: 0

  [[mail]]                      a box into which one may put words, and another take them
  from = "driver"               by names, or by places
  to = "log"

An image's own keys may stand in it, too: the machine's in the place of `machine`, `entry` and
`segment` in that of `program`. So every image is a description.

Segments and their rights are those of the ELF file's program headers, each named after its
first section. The program is looked for where the variable TP says, else where ./tp --prove builds
it; it computes pads and must accept the image. Where an image has several harts, standard error names the
boxes for which the schedule alone doesn't tell which words come in."""


def main(words: list[str]) -> int:
    """Makes the image, or raises the fault."""
    parser = ArgumentParser(
        "tp-image", description=_HELP, epilog=EXIT_CODES, formatter_class=RawDescriptionHelpFormatter
    )
    parser.add_argument("description", type=Path, nargs="?", help="the description; -: standard input")
    parser.add_argument(
        "-o",
        dest="out",
        type=Path,
        default=STANDARD,
        metavar="IMAGE",
        help="the image's file, else standard output",
    )
    parser.add_argument(
        "--set",
        action="append",
        default=[],
        metavar="DOMAIN.SYMBOL[+OFFSET]=VALUE",
        help='puts a word, [1, 2], "text" or @FILE at a symbol, in the place of the description\'s; '
        "may stand several times",
    )
    parser.add_argument(
        "--moments",
        action="append",
        default=[],
        metavar="DOMAIN=[[CYCLE, LINE], ..]",
        help="gives a domain these moments, in the place of the description's; may stand several times",
    )
    parser.add_argument(
        "--schema", action="store_true", help="writes a JSON schema of descriptions, for editors, and ends"
    )
    asked = parser.parse_args(words)
    if asked.schema:
        print(json.dumps(description_schema(), indent=2))
        return 0
    if asked.description is None:
        parser.error("the description is wanted")
    description = read_description(asked.description)
    set_words(description, asked.set)
    set_moments(description, asked.moments)
    with progress("tp-image") as shown:
        text = build_text(description, _program(shown))
    _tell_open_orders(text, asked.description)
    image = text.encode()
    if len(image) > MOST_BYTES:
        raise Fault(
            f"{asked.description}: the image has {len(image)} bytes, and {MOST_BYTES} are read at most"
        )
    write_bytes(asked.out, image)
    return 0


def _tell_open_orders(text: str, description: Path) -> None:
    """Names, beside the image, the boxes for which the order of switches isn't the schedule's."""
    for told in OpenOrders(tomllib.loads(text), str(description)).sentences():
        print(f"tp-image: {description}: {told}", file=sys.stderr)


def _program(shown: Progress) -> Program | None:
    try:
        return Program.find(shown)
    except Missing as missing:
        print(f"tp-image: not checked: {missing}", file=sys.stderr)
        return None
