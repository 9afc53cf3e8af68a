"""Images and runs of them, as values: what `import tp_sdk` gives."""

from __future__ import annotations

import tomllib
from collections.abc import Mapping
from copy import deepcopy
from dataclasses import dataclass, replace
from functools import cached_property
from pathlib import Path
from typing import Any

from tp_sdk.build import refuse_broken, refuse_described
from tp_sdk.description import Description, read_description
from tp_sdk.faults import Fault, read_text
from tp_sdk.guards import GUARDS
from tp_sdk.images import is_described, values_of
from tp_sdk.program import Program
from tp_sdk.report import Report, parse_report
from tp_sdk.running import with_end, words_for, written
from tp_sdk.schedule import domain_names, entries_of, harts_in
from tp_sdk.spelling import did_you_mean
from tp_sdk.sweeping.images import Images
from tp_sdk.sweeping.images import Refused as NotBuilt
from tp_sdk.sweeping.places import Variant, find
from tp_sdk.sweeping.values import Value
from tp_sdk.sweeping.values import written as in_words
from tp_sdk.words import SEED, SLOTS, refuse_number

_TEXT = "<text>"  # what faults name in the place of a file


@dataclass(frozen=True)
class _Source:
    """What an image is made of: a variant of a description, and what builds its images."""

    description: Description
    images: Images
    variant: Variant

    @classmethod
    def of(cls, description: Description, program: Program) -> _Source:
        """The description as it is."""
        return cls(description, Images(description, {}, program), Variant.of(description))

    def with_value(self, where: str, value: Value) -> _Source:
        """The same with another value at a place."""
        place = find(where, self.description, where)
        fault = place.fault(value)
        if fault is not None:
            raise Fault(f"{where}: '{in_words(value)}': {fault}")
        variant = replace(self.variant, domains=[*self.variant.domains], schedule=[*self.variant.schedule])
        place.put(variant, value)
        return replace(self, variant=variant)

    def text(self, program: Program, name: str | None) -> str:
        """The image's text, which the program has accepted. Where nobody wrote the source, it has a name."""
        file = self.description.file
        self.images.load(self.variant)
        try:
            text = self.images.build(self.variant).text
        except NotBuilt as refused:
            text, ended = refused.text, refused.ended
        else:
            ended = program.run(["check"], text)
        if name is None:
            refuse_described(self.description, text, ended)
        else:
            refuse_broken(text, file, ended, name)
        return text


class Image:
    """An image that the program accepts: a machine, domains with their programs, a schedule.

    `Image.read` and `Image.parse` make one, and `vary` makes another of it; none is ever changed. Two
    images are equal where their texts are. All three raise a `Fault` of one sentence: `Refused` where
    the image breaks a rule of docs/IMAGE.md, which is told, and where; `Missing` where there is no
    program `tp`, or no compiler for a description's sources.
    """

    def __init__(self, text: str, file: Path, source: _Source | None = None, name: str | None = None) -> None:
        """For this module: an image that was accepted, and what it was made of, where that is another text."""
        self._text, self._file = text, file
        self._made_of, self._name = source, name or str(file)

    @classmethod
    def read(cls, file: str | Path) -> Image:
        """The image of a file, or the one that a description makes, as `tp-image` does: programs in C
        and in assembler are compiled, and pads that are left out are what `tp bound` says."""
        return cls._of(read_text(Path(file)), Path(file))

    @classmethod
    def parse(cls, text: str, folder: str | Path = ".") -> Image:
        """The image of a text in TOML, or of a description's; the files that this names are in the folder."""
        return cls._of(text, Path(folder) / _TEXT)

    @classmethod
    def _of(cls, text: str, file: Path) -> Image:
        program = Program.find()
        if is_described(values_of(text, file)):
            source = _Source.of(read_description(file, text), program)
            return cls(source.text(program, None), file, source)
        refuse_broken(text, file, program.run(["check"], text))
        return cls(text, file)

    @property
    def name(self) -> str:
        """Its file, and what was varied: what faults name."""
        return self._name

    @property
    def text(self) -> str:
        """The text that the program reads, in TOML."""
        return self._text

    @property
    def values(self) -> dict[str, Any]:
        """The values of that text by the keys of docs/IMAGE.md, as `tomllib` reads them: a copy."""
        return deepcopy(self._values)

    @property
    def domains(self) -> tuple[str, ...]:
        """The domains' names, in their order: a domain's number is its place."""
        return tuple(domain_names(self._values))

    @property
    def harts(self) -> int:
        """How many harts there are, 1 to 4."""
        return harts_in(entries_of(self._values, self._name))

    @cached_property
    def _values(self) -> dict[str, Any]:
        return tomllib.loads(self._text)

    def vary(self, values: Mapping[str, Value]) -> Image:
        """The image with other values at some places, which are named as in `sweep`: `machine.KEY`, as
        `machine.l2.ways`; `domain.NAME.KEY`, as `domain.spy.colours`; `schedule.KEY` of all entries,
        `schedule.NAME.KEY` of a domain's, `schedule.0.KEY` of one; and `NAME.SYMBOL` for what stands at a
        symbol of a program that the image is made of (an image's own text tells no symbols).

        `None` leaves a key out. Pads that a description leaves out are computed anew; those that are
        written stay, and with the pad `'bound'` are what `tp bound` says, too.
        """
        program, told = Program.find(), []
        source = self._made_of or _Source.of(read_description(self._file, self._text), program)
        for where, value in values.items():
            source = source.with_value(where, value)
            told.append(f"{where} = {in_words(value)}")
        name = f"{self._name} with {' and '.join(told)}" if told else self._name
        return Image(source.text(program, name), self._file, source, name)

    def __eq__(self, other: object) -> bool:
        return isinstance(other, Image) and self._text == other._text

    def __hash__(self) -> int:
        return hash(self._text)

    def __str__(self) -> str:
        return self._text

    def __repr__(self) -> str:
        return f"<Image {self._name}: {', '.join(self.domains)}>"


def run(
    image: Image | str | Path,
    slots: int,
    *,
    off: str | None = None,
    alone: str | None = None,
    seed: int | None = None,
) -> Report:
    """Runs an image, or that of a file, and answers the report.

    Each hart has `slots` slots, 0 to 65,536. At most one of these says how it is run, else it is as `tp run`:

    - `off`: without a guard: 'flush', 'prefetch', 'pad', 'colour', 'clone' or 'irq' (`tp ablate`);
      an image of several harts keeps all.
    - `alone`: one domain, by its name, with no other at all (`tp alone`): the report has its
      section and no line of switches.
    - `seed`: in an order of the harts' events that the seed draws, 0 to 4,294,967,295 (`tp harts`).

    The program is the one that the tools find (`TP`, the library libtp, `./tp --prove`). A run is
    determined by the image and these. Raises a `Fault` of one sentence, `Missing` where there is no program.
    """
    asked = [name for name, it in (("off", off), ("alone", alone), ("seed", seed)) if it is not None]
    if len(asked) > 1:
        raise Fault(f"{' and '.join(asked)}: one of off, alone and seed at most is taken")
    refuse_number(slots, SLOTS, "slots", "a number of slots")
    it = image if isinstance(image, Image) else Image.read(image)
    if off is not None:
        _refuse_guard(off, it)
    if seed is not None:
        refuse_number(seed, SEED, "seed", "a seed")
    number = None if alone is None else _domain_of(it, alone)
    words = [*words_for(off, number, seed), "--slots", str(slots)]
    return parse_report(with_end(written(Program.find(), words, it.text, it.name)), it.name)


def _refuse_guard(off: str, image: Image) -> None:
    if off not in GUARDS:
        raise Fault(f"off={off!r}: there is no such guard{did_you_mean(str(off), GUARDS) or f': {_GUARDS}'}")
    if image.harts > 1:
        raise Fault(f"off={off!r}: {image.name} has several harts, and all their guards stay")


def _domain_of(image: Image, alone: str) -> int:
    if alone not in image.domains:
        there = did_you_mean(str(alone), image.domains) or f": {', '.join(image.domains)}"
        raise Fault(f"alone={alone!r}: there is no such domain{there}")
    return image.domains.index(alone)


_GUARDS = ", ".join(GUARDS)
