"""tp-explain: tells where an image breaks a rule, and what is wanted there; or what its bounds are of."""

from __future__ import annotations

import json
import sys
from argparse import ArgumentParser, Namespace, RawDescriptionHelpFormatter
from pathlib import Path

from tp_sdk.bounds import Bound, parse_bound
from tp_sdk.explain import explain_all
from tp_sdk.explain_bound import BoundTold
from tp_sdk.faults import EXIT_CODES, STANDARD, read_bytes, read_text
from tp_sdk.images import values_of
from tp_sdk.mail import OpenOrders
from tp_sdk.refusals import Refusal
from tp_sdk.schema import image_schema

_HELP = """Tells in a sentence where an image breaks a rule, what stands there, and what is wanted:

  ./tp check < mine.toml | tp-explain mine.toml
  tp-explain mine.toml 'refused K9 at 1 found 1 wanted 0'
  ./tp bound < mine.toml | tp-explain mine.toml
      what each part of the bound on a switch is of, and which calls of an entry's domain make it what
      it is; whether each pad is enough

Of an accepted image of several harts it names the boxes for which it isn't the schedule alone that
orders the switches by which words go off and come in, with the entries and the cycles.

The program tells the first rule that an image breaks; what else is broken comes after it, marked
'also', as far as it can be told."""

_MOST_OTHERS = 20


def main(words: list[str]) -> int:
    """Writes the explanations, or the schema."""
    parser = ArgumentParser(
        "tp-explain", description=_HELP, epilog=EXIT_CODES, formatter_class=RawDescriptionHelpFormatter
    )
    parser.add_argument("image", type=Path, nargs="?", help="the image; -: standard input")
    parser.add_argument("refusal", nargs="?", help="what the program wrote, else read from standard input")
    parser.add_argument(
        "--json", action="store_true", help="writes an object with the place and the words, for editors"
    )
    parser.add_argument(
        "--schema", action="store_true", help="writes a JSON schema of images, for editors, and ends"
    )
    asked = parser.parse_args(words)
    if asked.schema:
        print(json.dumps(image_schema(), indent=2))
        return 0
    if asked.image is None:
        parser.error("the image is wanted")
    if asked.image == STANDARD and asked.refusal is None:
        parser.error("the image alone can be on standard input: what the program wrote is wanted, too")
    written = sys.stdin.read() if asked.refusal is None else asked.refusal
    bound = parse_bound(written)
    if bound is None:
        _tell_refusal(asked, written.partition("\n")[0])
    else:
        _tell_bound(asked, bound)
    return 0


def _tell_refusal(asked: Namespace, line: str) -> None:
    text = read_bytes(asked.image)
    if line.strip() == "accepted":
        _tell_accepted(asked, text)
        return
    told, *others = explain_all(text, str(asked.image), Refusal.parse(line))
    if asked.json:
        print(json.dumps(told.fields() | {"also": [it.fields() for it in others]}))
        return
    print(told.sentence())
    for other in others[:_MOST_OTHERS]:
        print(other.sentence(also=True))
    if len(others) > _MOST_OTHERS:
        print(f"{asked.image}: and {len(others) - _MOST_OTHERS} more")


def _tell_accepted(asked: Namespace, text: bytes) -> None:
    file = str(asked.image)
    told = OpenOrders(values_of(text.decode(errors="replace"), asked.image), file)
    print("\n".join(["accepted: no rule is broken", *(f"{file}: {it}" for it in told.sentences())]))


def _tell_bound(asked: Namespace, bound: Bound) -> None:
    told = BoundTold(read_text(asked.image), str(asked.image), bound)
    print(json.dumps(told.fields()) if asked.json else "\n".join(told.sentences()))
