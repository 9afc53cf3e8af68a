"""The words of tp-plot."""

from __future__ import annotations

from argparse import ArgumentParser, RawDescriptionHelpFormatter
from pathlib import Path

from tp_sdk.faults import EXIT_CODES
from tp_sdk.measurements import MEASURES
from tp_sdk.sweeping.charts import UNITS
from tp_sdk.words import slots_from

_HELP = """Draws reports of `tp run`, `tp harts` and `tp ablate`, as NAME.svg or NAME.png:

  tp-plot timeline mine.toml mine.report -o mine.svg
      what was done in each slot, and what each switch used of its pad, as running the image
      again tells; with no program, what the report alone does; of several harts a lane for each, by
      its own clock; arrows to where words of boxes may have come in; of an image of version 2 also
      each domain's bound on a switch, beside the one with every call
  tp-plot readings FOLDER --domain spy -o spy.svg
      what one domain measured in each FOLDER/*.report: a spy beside many neighbours, say
  tp-plot matrix FOLDER OTHER --domain spy -o spy.svg
      what one domain measured beside each secret, in FOLDER/*.report and in OTHER/*.report of the
      same names, on one scale, with the bits that it tells: all guards on, and one off, say; where
      there are too many measurements for a picture, those that differ. Bits are told as the entropy,
      where each neighbour or secret is equally likely, and the capacity, however likely each is
  tp-plot memory mine.toml -o mine.svg
      whose each frame and each set of the second level is, what is shared, and who may tell whom
  tp-plot sweep out.csv -o out.svg
      what tp-sweep wrote: the capacity, or another column (--of), by one or two of the varied
      things (--key), as lines or as a map, a side for each observer

An image may be a description, too (tp-image). Pictures are 830 pixels wide, as a page of text is."""


def parser_of_words() -> ArgumentParser:
    """What takes them apart; `picture` is the first one."""
    parser = ArgumentParser(
        "tp-plot", description=_HELP, epilog=EXIT_CODES, formatter_class=RawDescriptionHelpFormatter
    )
    commands = parser.add_subparsers(
        dest="picture", required=True, metavar="timeline|readings|matrix|memory|sweep"
    )
    timeline = commands.add_parser("timeline", help="slots, what was done in them, pads and switches")
    readings = commands.add_parser("readings", help="what a domain measured in many reports")
    matrix = commands.add_parser("matrix", help="secrets by measurements, on one scale")
    memory = commands.add_parser("memory", help="whose colours, frames, pages and sets are whose")
    sweep = commands.add_parser("sweep", help="a column of what tp-sweep wrote, by what was varied")
    _add_timeline(timeline)
    _add_readings(readings)
    _add_sweep(sweep)
    matrix.add_argument("folders", type=Path, nargs="+", metavar="folder")
    matrix.add_argument("--domain", required=True, help="its name")
    memory.add_argument("image", type=Path)
    measures = "; ".join(f"{name}: {what}" for name, what in MEASURES.items())
    for command in (readings, matrix):
        command.add_argument("--measure", choices=MEASURES, default="pairs", help=measures)
    for command in (timeline, readings, matrix, memory, sweep):
        command.add_argument(
            "-o", dest="out", type=Path, required=True, metavar="PICTURE", help="NAME.svg or NAME.png"
        )
        command.add_argument("--dark", action="store_true", help="light on dark, for a dark page")
        command.add_argument(
            "--csv",
            type=Path,
            metavar="FILE",
            help="writes the picture's numbers, too, as a table; -: as output",
        )
    return parser


def _add_timeline(command: ArgumentParser) -> None:
    command.add_argument("image", type=Path)
    command.add_argument("reports", type=Path, nargs="+", metavar="report")
    command.add_argument(
        "--slots",
        type=slots_from(1),
        default=12,
        help="how many slots of each hart are drawn, from the first on (%(default)s)",
    )


def _add_readings(command: ArgumentParser) -> None:
    command.add_argument("folder", type=Path)
    command.add_argument("--domain", action="append", required=True, help="its name; may stand several times")
    command.add_argument("--as", dest="form", choices=("matrix", "histogram"), default="matrix")
    command.add_argument(
        "--image",
        type=Path,
        help="an image with the reports' schedule: it tells exactly within which measurements a slot ended",
    )
    command.add_argument(
        "--against",
        metavar="REPORT",
        help="the name of the report that others are compared with, else the first",
    )


def _add_sweep(command: ArgumentParser) -> None:
    command.add_argument("table", type=Path, help="what tp-sweep wrote: NAME.csv, NAME.jsonl, NAME.parquet")
    command.add_argument(
        "--of", choices=UNITS, default="capacity", help="the column that is drawn (%(default)s)"
    )
    command.add_argument(
        "--key",
        action="append",
        default=[],
        metavar="NAME",
        help="what is varied to the right; a second one: a line for each of its values, or upwards; else what "
        "has several values",
    )
    command.add_argument(
        "--where", action="append", default=[], metavar="NAME=VALUE", help="of the rows with this value alone"
    )
    command.add_argument(
        "--observer", action="append", default=[], metavar="DOMAIN", help="this one's side; else each one's"
    )
    command.add_argument(
        "--as", dest="form", choices=("lines", "map"), help="else a map of more than 8 lines"
    )
