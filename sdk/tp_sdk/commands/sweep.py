"""tp-sweep: an image with many values in it, as numbers."""

from __future__ import annotations

import re
from argparse import ArgumentParser, RawDescriptionHelpFormatter
from pathlib import Path

from tp_sdk.faults import EXIT_CODES, STANDARD, Fault
from tp_sdk.keys import Within
from tp_sdk.program import Program
from tp_sdk.progress import progress
from tp_sdk.words import SEED, number_within, slots_from

_HELP = """Runs an image with each combination of other values in it, and writes a row for each:

  tp-sweep mine.toml --vary machine.l1d.sets=8,16,32 --vary key=mine.key:0..15 \\
      --off none,flush --slots 24 -o out.csv

What is varied is named by its place, with a name of the column's own before it or none:
--vary WHERE=VALUES or --vary NAME=WHERE:VALUES. A place is

  machine.KEY            a key of the machine: machine.l1d.sets, machine.costs.mem, machine.l2.policy
  domain.NAME.KEY        colours, stack, caps, lines, moments or calls of a domain
  schedule.KEY           length, pad or hart of every entry; schedule.NAME.KEY: of a domain's
                         entries, schedule.0.KEY: of one entry. A pad is a number or 'bound'
  NAME.SYMBOL[+OFFSET]   what stands at a symbol of a domain's program, as that of --set

and values, with commas between, are numbers, 0..15, 0..64..8 (each eighth), 8..64*2 (8, 16, 32,
64), words, "text", [1, 2], @FILE, and 'none': the key is left out.

The secret is what is varied at symbols, or as moments, of the first domain that --vary names one
of; the other domains observe (itself, where there is no other). --secret and --observer say
otherwise. An observer to which a box leads from the secret's domain may be told it.

A point is a combination of all that is varied and is no secret. At each point every value of the
secret is run, and a row tells of each observer

  sections     how many different sections it has: 1, where it can't tell any two secrets apart
  entropy      bits of the secret that a section tells where each secret is equally likely
  capacity     the most bits that it can tell, however likely each is: log2 of `sections`

with the capacity for each slot and each million cycles; the cycles of its hart, in all and in
slots; the greatest pad, and the most that a switch used; instructions retired; what the observer
came to. An image that is refused has a row that says why. The same command goes on from what is
in its file."""


def main(words: list[str]) -> int:
    """Writes the rows."""
    asked = _parser().parse_args(words)
    from tp_sdk.sweeping.api import swept
    from tp_sdk.sweeping.planning import Asked, plan_of
    from tp_sdk.sweeping.tables import Table, format_of
    from tp_sdk.sweeping.values import parse_values

    format_of(asked.out)
    vary = {}
    for given in asked.vary:
        name, where, values = _varied(given)
        if name in vary:
            raise Fault(f"--vary {given}: two things have the name '{name}': NAME=WHERE:VALUES gives another")
        vary[name] = (where, parse_values(values, f"--vary {name}"))
    drawn = {
        name: parse_values(values, f"--{name}")
        for name, values in (("off", asked.off), ("noise", asked.noise), ("harts", asked.harts))
        if values is not None
    }
    with progress("tp-sweep") as shown:
        program = Program.find()
        plan = plan_of(
            Asked(
                asked.description,
                asked.slots,
                vary,
                drawn,
                asked.set,
                asked.secret,
                asked.observer,
                asked.random,
                asked.secrets,
                asked.seed,
                asked.yes,
            ),
            program,
        )
        table = Table(asked.out, plan)
        for _ in swept(plan, program, table, asked.jobs, asked.scheduler, shown):
            pass
    return 0


_NAMED = re.compile(r"([^=]+)=([^=:\"@\[{]*\.[^=:\"@\[{]*):(.*)", re.DOTALL)


def _varied(given: str) -> tuple[str, str, str]:
    """The name, the place and the values of `NAME=WHERE:VALUES` or `WHERE=VALUES`."""
    match = _NAMED.fullmatch(given)
    if match is not None:
        return match[1], match[2], match[3]
    where, is_there, values = given.partition("=")
    if not is_there:
        raise Fault(f"--vary {given}: WHERE=VALUES or NAME=WHERE:VALUES is wanted")
    return where, where, values


def _parser() -> ArgumentParser:
    parser = ArgumentParser(
        "tp-sweep", description=_HELP, epilog=EXIT_CODES, formatter_class=RawDescriptionHelpFormatter
    )
    add = parser.add_argument
    add("description", type=Path, help="the description, or an image")
    add("--slots", type=slots_from(0), required=True, help="how many slots each hart runs, 0 to 65,536")
    add("--vary", action="append", default=[], metavar="[NAME=]WHERE..", help="what is varied; see above")
    add("--off", metavar="GUARDS", help="none, or the guard that is off, as in `tp ablate`: none,flush")
    add(
        "--noise",
        metavar="SEEDS",
        help="none, or puts beside a domain whose program is the first that `tp gen` draws from the seed, "
        "with the least colour that is free, and a slot at the schedule's end as long as the last one",
    )
    add("--harts", metavar="SEEDS", help="none, or draws the order of the harts' events, as in `tp harts`")
    add("--set", action="append", default=[], metavar="DOMAIN.SYMBOL=VALUE", help="as that of tp-image")
    add("--secret", action="append", metavar="NAME", help="a column that is (part of) the secret; 'none'")
    add("--observer", action="append", metavar="DOMAIN", help="a domain that observes")
    add("--random", type=_many, metavar="N", help="so many points, drawn")
    add("--secrets", type=_many, metavar="N", help="so many values of the secret, drawn")
    add("--seed", type=number_within(SEED, "a seed"), default=0, help="decides what is drawn (%(default)s)")
    add("--jobs", type=_many, metavar="N", help="how many processors work, else all")
    add("--scheduler", metavar="ADDRESS", help="of Dask: its workers work, as tcp://127.0.0.1:8786")
    add("--yes", action="store_true", help="more than a million runs are meant")
    add(
        "-o",
        dest="out",
        type=Path,
        default=STANDARD,
        metavar="TABLE",
        help="NAME.csv, NAME.jsonl or NAME.parquet, else CSV on standard output",
    )
    return parser


_many = number_within(Within(1, 1_000_000_000), "a number")
