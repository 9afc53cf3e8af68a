"""tp-run: from programs, or a description, to an explained report."""

from __future__ import annotations

import json
import re
import sys
from argparse import ArgumentParser, Namespace, RawDescriptionHelpFormatter
from pathlib import Path

from tp_sdk.build import build_text, domain_of, load_programs, set_words
from tp_sdk.description import Description, describe, read_description
from tp_sdk.faults import EXIT_CODES, INPUT_AT_FAULT, STANDARD, Fault, read_bytes, write_bytes
from tp_sdk.folders import C
from tp_sdk.guards import GUARDS
from tp_sdk.known import known_of
from tp_sdk.program import Program
from tp_sdk.progress import progress
from tp_sdk.report import parse_report
from tp_sdk.running import with_end, words_for, written
from tp_sdk.telling import Telling
from tp_sdk.words import SEED, number_within, slots_from

_HELP = """Compiles programs, makes their image, runs it, and explains the report:

  tp-run mine.c --slots 4
  tp-run mine.c other.c --slots 24 --set mine.key=7     a domain each
  tp-run mine.toml --slots 4                            a description, with all that it says
  tp-run mine.c other.c --slots 24 --off flush          without a guard, as `tp ablate`
  tp-run mine.c other.c --slots 24 --alone mine         one domain with no other at all

A program is a source in C or assembler, or an ELF file; its domain has the file's name. Each has
as many of the machine's colours as the others, and a slot in turn. A domain that was stopped is no
fault of the command's: with --strict it ends with 1 then."""

_LENGTH = 10_000
_NO_LETTER = re.compile("[^a-z0-9]")
_NAME_MOST = 16
_DESCRIPTION = Path("tp-run")  # what faults name in the place of a description's file


def main(words: list[str]) -> int:
    """Does what is asked for; 0 also where a domain was stopped, if nobody asks for more."""
    parser = _parser()
    asked = parser.parse_args(words)
    is_description = any(it.suffix == ".toml" for it in asked.programs)
    if is_description and len(asked.programs + asked.beside) > 1:
        parser.error("a description says itself what is beside: no other program is taken")
    # (the sentences, or the object, are for standard output where no other text is)
    others = [it for it in (asked.image, asked.report) if it == STANDARD]
    if len(others) + asked.json > 1:
        parser.error("--json, --image - and --report -: one text alone can be on standard output")
    with progress("tp-run") as shown:
        telling = _run(asked, Program.find(shown))
    if not others:
        sys.stdout.write(_text(telling, asked.json) + "\n")
    is_stopped = any(section.stop is not None for section in telling.report.sections)
    return INPUT_AT_FAULT if asked.strict and is_stopped else 0


def _parser() -> ArgumentParser:
    parser = ArgumentParser(
        "tp-run", description=_HELP, epilog=EXIT_CODES, formatter_class=RawDescriptionHelpFormatter
    )
    add = parser.add_argument
    add(
        "programs",
        type=Path,
        nargs="+",
        metavar="program",
        help="programs, each a domain; or a description (.toml)",
    )
    add("--slots", type=slots_from(0), required=True, help="how many slots each hart runs, 0 to 65,536")
    add("--beside", type=Path, action="append", default=[], metavar="PROGRAM", help="one more program")
    add("--set", action="append", default=[], metavar="DOMAIN.SYMBOL=VALUE", help="as that of tp-image")
    add("--stack", type=int, metavar="PAGES", help="of each program in C, else 1")
    add("--length", type=int, default=_LENGTH, help=f"cycles of each slot, else {_LENGTH}")
    add("--machine", type=Path, default=C / "machine.toml", help="a file with its keys")
    how = parser.add_mutually_exclusive_group()
    how.add_argument("--off", choices=GUARDS, help="the guard that is off, as in `tp ablate`")
    how.add_argument(
        "--alone", metavar="NAME", help="the domain that alone is there, as in `tp alone`: no word comes in"
    )
    how.add_argument(
        "--harts",
        type=number_within(SEED, "a seed"),
        metavar="SEED",
        help="draws the order of the harts' events, as in `tp harts`",
    )
    add("--strict", action="store_true", help="ends with 1 where a domain was stopped")
    add("--json", action="store_true", help="writes an object, as that of tp-report")
    add("--image", type=Path, help="the file in which the image is kept; -: written in the sentences' place")
    add("--report", type=Path, help="the file in which the report is kept; -: likewise")
    return parser


def _run(asked: Namespace, program: Program) -> Telling:
    description = _description(asked)
    programs = load_programs(description)
    text = build_text(description, program, programs)
    if asked.image is not None:
        write_bytes(asked.image, text.encode())
    words, how = _words(asked, description)
    file = ", ".join(map(str, asked.programs))
    report = written(program, [*words, "--slots", str(asked.slots)], text, file)
    if asked.report is not None:
        write_bytes(asked.report, report.encode())
    name = file if asked.report in (None, STANDARD) else str(asked.report)
    known = known_of(description, programs)
    known.file = asked.programs[0] if len(asked.programs) == 1 else None
    slots = asked.slots if asked.alone else None
    return Telling(parse_report(with_end(report), name), name, known, slots, how)


def _words(asked: Namespace, description: Description) -> tuple[list[str], str]:
    """The program's words, and what a head of sentences says of them."""
    if asked.off is not None and any(entry.hart for entry in description.schedule):
        raise Fault(f"--off {asked.off}: {description.file} has several harts, and all their guards stay")
    alone, how = None, ""
    if asked.alone is not None:
        domain = domain_of(description, asked.alone, f"--alone {asked.alone}")
        alone, how = description.domains.index(domain), f", {asked.alone} alone"
    elif asked.harts is not None:
        how = f", in the order of seed {asked.harts}"
    return words_for(asked.off, alone, asked.harts), how


def _text(telling: Telling, is_json: bool) -> str:
    return json.dumps(telling.fields(), indent=2) if is_json else "\n".join(telling.sentences())


def _description(asked: Namespace) -> Description:
    if asked.programs[0].suffix == ".toml":
        description = read_description(asked.programs[0])
        set_words(description, asked.set)
        return description
    programs = [*asked.programs, *asked.beside]
    for program in programs:
        read_bytes(program)
    names = [_name(program) for program in programs]
    for number, name in enumerate(names):
        if name in names[:number]:
            raise Fault(f"{programs[number]}: there are two domains '{name}': give the file another name")
    for name, program in zip(names, programs):
        if name != program.stem:
            print(f"tp-run: {program}: its domain's name is '{name}'", file=sys.stderr)
    text, told = describe(dict(zip(names, programs)), asked.machine, asked.length, asked.stack)
    description = read_description(_DESCRIPTION, text, told)
    set_words(description, [_with_name(setting, programs, names) for setting in asked.set])
    return description


def _name(program: Path) -> str:
    """The name of a program's domain: of its file's, what a name may have."""
    name = _NO_LETTER.sub("", program.stem.lower())[:_NAME_MOST]
    if not name:
        raise Fault(f"{program}: no name of a domain can be made of the file's: small letters and digits")
    return name


def _with_name(setting: str, programs: list[Path], names: list[str]) -> str:
    """A setting that begins with its domain's name, where it begins with that of a file."""
    for name, program in zip(names, programs):
        if setting.startswith(f"{program.stem}."):
            return name + setting.removeprefix(program.stem)
    return setting
