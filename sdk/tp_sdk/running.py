"""How an image is run: the words that ask the program for it, and the report that it writes."""

from __future__ import annotations

from tp_sdk.faults import Fault
from tp_sdk.program import Program


def words_for(off: str | None = None, alone: int | None = None, seed: int | None = None) -> list[str]:
    """The program's words, without the number of slots: with a guard off, for the domain of this number
    alone, or in the order of the harts' events that the seed draws; one of these at most."""
    if off is not None:
        return ["ablate", "--off", off]
    if alone is not None:
        return ["alone", "--domain", str(alone)]
    if seed is not None:
        return ["harts", "--seed", str(seed)]
    return ["run"]


def written(program: Program, words: list[str], text: str, file: str) -> str:
    """What the program writes of an image's text that it accepts; `file` is named where it doesn't."""
    ended = program.run(words, text)
    if ended.code != 0:
        raise Fault(f"{file}: the program ended with {ended.code}: {ended.text.strip()}")
    return ended.text


def with_end(text: str) -> str:
    """A section that stands alone, as a report."""
    return text if text.endswith("end\n") else f"{text}end\n"
