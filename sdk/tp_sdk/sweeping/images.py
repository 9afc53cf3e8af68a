"""The images of a sweep: each is put together from texts, of which most are those of the image before."""

from __future__ import annotations

import tomllib
from collections.abc import Callable
from dataclasses import dataclass, replace
from functools import cached_property
from pathlib import Path
from typing import Any

from tp_sdk.build import bounds_in, image_boxes, image_domain, image_entry, load, numbers_of
from tp_sdk.description import Description, DomainDescription, EntryDescription
from tp_sdk.elf import Loaded, Segment
from tp_sdk.faults import Fault
from tp_sdk.image import machine_text
from tp_sdk.instructions import arch_of
from tp_sdk.keys import PAGE
from tp_sdk.program import Ended, Program
from tp_sdk.schedule import Entry
from tp_sdk.sweeping.places import Variant
from tp_sdk.sweeping.plan import Compiled
from tp_sdk.symbols import Symbols

NOISE = "noise"  # the name of the domain that is put beside
_MOST_KEPT = 1 << 22  # letters


class Refused(Exception):
    """The program takes no such image: what it answered, and the image."""

    def __init__(self, text: str, ended: Ended) -> None:
        super().__init__(ended.text)
        self.text, self.ended = text, ended


@dataclass(frozen=True)
class Built:
    """An image's text, and its schedule."""

    text: str
    entries: list[Entry]


@dataclass(frozen=True)
class _Frame:
    """The texts before and after those of the domains; the schedule's entries."""

    machine: str
    schedule: str
    entries: list[Entry]


class Images:
    """Builds the images of one description's variants. A source is compiled once for each stack and each kind
    of machine, a domain is written once for its values, and a bound is asked for once for each machine."""

    def __init__(
        self, description: Description, programs: dict[Compiled, Loaded], program: Program | None
    ) -> None:
        self._description, self._programs, self._program = description, programs, program
        self._texts = _Texts()
        self._bounds: dict[str, list[int]] = {}
        self._last: tuple[Any, _Frame] | None = None
        self._noise: dict[int, Loaded] = {}

    def load(self, variant: Variant) -> None:
        """Has the programs of a variant loaded, so that no other one with such a stack and machine needs files."""
        arch = arch_of(variant.machine)
        for number, it in enumerate(variant.domains):
            compiled = (number, it.stack, arch)
            if compiled not in self._programs:
                loaded = load(it, arch)
                # (what debuggers look for is not needed, and it is large)
                symbols = Symbols(b"", loaded.symbols.symbols, loaded.symbols.sections)
                self._programs[compiled] = replace(loaded, symbols=symbols)

    def build(self, variant: Variant) -> Built:
        """The image of a variant."""
        arch = arch_of(variant.machine)
        domains, schedule, texts = variant.domains, variant.schedule, []
        for number, it in enumerate(domains):
            texts.append(self._domain_text(number, it, arch))
        if variant.noise is not None:
            noise = self._noise_domain(variant, arch)
            domains, schedule = [*domains, noise], [*schedule, _noise_entry(schedule, noise)]
            texts.append(image_domain(noise, _copy(self._drawn(variant.noise))).to_toml())
        frame = self._frame(variant.machine, domains, schedule, texts)
        return Built("\n".join([frame.machine, *texts, frame.schedule]), frame.entries)

    def _frame(
        self,
        machine: dict[str, Any],
        domains: list[DomainDescription],
        schedule: list[EntryDescription],
        texts: list[str],
    ) -> _Frame:
        """What stands before and after the domains' texts: most often that of the run before."""
        numbers = self._numbers
        calls = [
            domains[_number(it, numbers)].calls if _is_one(it, numbers, domains) else None for it in schedule
        ]
        made_of = (machine, schedule, calls)
        if self._last is None or self._last[0] != made_of:
            self._last = made_of, self._framed(machine, schedule, calls, texts)
        return self._last[1]

    def _framed(
        self,
        machine: dict[str, Any],
        schedule: list[EntryDescription],
        calls: list[list[int] | None],
        texts: list[str],
    ) -> _Frame:
        """The same, written; the bound is asked for of an image with no pads, where a pad is to be that."""
        before = machine_text(self._description.version, machine)

        def frame(pads: list[int]) -> _Frame:
            entries = [image_entry(it, self._numbers, pad) for it, pad in zip(schedule, pads)]
            boxes = image_boxes(self._description, self._numbers)
            after = "\n".join([*(it.to_toml() for it in entries), *(it.to_toml() for it in boxes)])
            return _Frame(before, after, [Entry(it.domain, it.length, it.pad, it.hart) for it in entries])

        made = frame([0] * len(schedule))
        if any(it.pad is None for it in schedule) and self._program is not None:
            known = f"{before} {calls}"
            if known not in self._bounds:
                text = "\n".join([made.machine, *texts, made.schedule])
                self._bounds[known] = self._asked_bounds(text, len(schedule), self._program)
            made = frame(self._bounds[known])
        return made

    @cached_property
    def _numbers(self) -> dict[str, int]:
        return numbers_of(self._description) | {NOISE: len(self._description.domains)}

    def _domain_text(self, number: int, it: DomainDescription, arch: str) -> str:
        is_own = it is self._description.domains[number]
        varied = (it.colours, it.stack, it.caps, it.lines, it.moments, it.calls, it.words)
        known = f"{number} {arch} {None if is_own else varied}"
        return self._texts.of(
            known, lambda: image_domain(it, _copy(self._programs[number, it.stack, arch])).to_toml()
        )

    def _asked_bounds(self, text: str, entries: int, program: Program) -> list[int]:
        ended = program.run(["bound"], text)
        if ended.code != 0:
            raise Refused(text, ended)
        return bounds_in(ended.text, entries, program)

    def _noise_domain(self, variant: Variant, arch: str) -> DomainDescription:
        """The domain whose program is drawn: it has the least colour that no other has."""
        taken = {colour for it in variant.domains for colour in it.colours}
        colours = variant.machine["l2"]["sets"] * variant.machine["line"] // PAGE
        free = next((it for it in range(1, colours) if it not in taken), None)
        if free is None:
            raise Fault(f"{self._description.file}: no colour of the machine is free for the noise")
        return DomainDescription(NOISE, NOISE, Path(NOISE), [free], None, [], [], [], None, {})

    def _drawn(self, seed: int) -> Loaded:
        """The first program that `tp gen` draws."""
        if seed not in self._noise:
            assert self._program is not None
            ended = self._program.run(["gen", "--seed", str(seed)], "")
            if ended.code != 0:
                raise self._program.other()
            drawn = tomllib.loads(ended.text)["domain"][0]
            segments = [
                Segment(
                    f"{NOISE}{number}", it["page"], it["pages"], it["rights"], bytearray.fromhex(it["hex"])
                )
                for number, it in enumerate(drawn["segment"])
            ]
            self._noise[seed] = Loaded(Path(NOISE), drawn["entry"], segments, Symbols())
        return self._noise[seed]


class _Texts:
    """Texts that were written, by what they are of: the last ones, as far as they are not too long in all."""

    def __init__(self) -> None:
        self._texts: dict[str, str] = {}
        self._length = 0

    def of(self, known: str, write: Callable[[], str]) -> str:
        """A text, which is written where it is not there."""
        text = self._texts.get(known)
        if text is None:
            text = write()
            if self._length > _MOST_KEPT:
                self._texts.clear()
                self._length = 0
            self._texts[known] = text
            self._length += len(known) + len(text)
        return text


def _copy(loaded: Loaded) -> Loaded:
    """A program into which values may be put."""
    return replace(loaded, segments=[replace(it, data=bytearray(it.data)) for it in loaded.segments])


def _noise_entry(schedule: list[EntryDescription], noise: DomainDescription) -> EntryDescription:
    """A slot as long as the last entry's, on its hart."""
    return replace(schedule[-1], domain=noise.name)


def _number(entry: EntryDescription, numbers: dict[str, int]) -> int:
    return entry.domain if isinstance(entry.domain, int) else numbers[entry.domain]


def _is_one(entry: EntryDescription, numbers: dict[str, int], domains: list[DomainDescription]) -> bool:
    return 0 <= _number(entry, numbers) < len(domains)
