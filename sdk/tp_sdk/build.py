"""From a description to its image."""

from __future__ import annotations

import re
from dataclasses import replace
from pathlib import Path
from typing import TYPE_CHECKING

from tp_sdk.bounds import parse_bound
from tp_sdk.compiling import load_program
from tp_sdk.description import Description, DomainDescription, EntryDescription
from tp_sdk.elf import Loaded, Segment
from tp_sdk.faults import Fault, Missing, Refused
from tp_sdk.image import Image, ImageBox, ImageDomain, ImageEntry
from tp_sdk.keys import KEY_ROWS, PAGE, Array
from tp_sdk.program import Ended, Program
from tp_sdk.spelling import did_you_mean
from tp_sdk.values import PLACE, integer_of, parse_moments, parse_setting

if TYPE_CHECKING:
    from tp_sdk.explain import Explanation

STACK, STACK_TOP = "stack", "__stack_top"

_PLACE = re.compile(PLACE)
_CAP_BY_NAME = re.compile(r"([^ +]+)(?:\+([0-9]{1,9}))?")


def set_words(description: Description, settings: list[str]) -> None:
    """Puts values, each as `DOMAIN.SYMBOL[+OFFSET]=VALUE`, in the place of the description's."""
    for setting in settings:
        domain, where, data = parse_setting(setting)
        words = domain_of(description, domain, f"--set {setting.partition('=')[0]}").words
        words.pop(where, None)  # (what is put last stays)
        words[where] = data


def set_moments(description: Description, settings: list[str]) -> None:
    """Gives domains other moments, each as `DOMAIN=[[CYCLE, LINE], ..]`."""
    for setting in settings:
        domain, moments = parse_moments(setting)
        domain_of(description, domain, f"--moments {domain}").moments = moments


def domain_of(description: Description, name: str, asked: str) -> DomainDescription:
    """The domain that words of the command line name."""
    for it in description.domains:
        if it.name == name:
            return it
    names = [it.name for it in description.domains]
    raise Fault(f"{asked}: {description.file} has no domain '{name}'{did_you_mean(name, names)}")


def load_programs(description: Description) -> list[Loaded]:
    """The programs of its domains, with the stacks that it asks for."""
    return [load(it, description.arch) for it in description.domains]


def build_text(
    description: Description, program: Program | None, programs: list[Loaded] | None = None
) -> str:
    """The image's text, of programs that are loaded now where none are given. Where there is a program
    `tp`, it has accepted it."""
    loaded = load_programs(description) if programs is None else programs
    domains = [image_domain(it, its) for it, its in zip(description.domains, loaded)]
    numbers = numbers_of(description)
    boxes = image_boxes(description, numbers)

    def image(pads: list[int]) -> str:
        entries = [image_entry(it, numbers, pad) for it, pad in zip(description.schedule, pads)]
        return Image(description.version, description.machine, domains, entries, boxes).to_toml()

    pads = [0] * len(description.schedule)
    for entry in description.schedule:
        if entry.pad is None:
            if program is None:
                raise Missing(f"{entry.place}: no pad, which the program alone can tell, and it is not there")
            bound = program.run(["bound"], image(pads))
            refuse_described(description, image(pads), bound)
            pads = bounds_in(bound.text, len(pads), program)
            break
    text = image(pads)
    if program is not None:
        refuse_described(description, text, program.run(["check"], text))
    return text


def numbers_of(description: Description) -> dict[str, int]:
    """The domains' places by their names; each entry of the schedule and each end of a box names one."""
    numbers = {domain.name: number for number, domain in enumerate(description.domains)}
    named = [(entry.place, entry.domain) for entry in description.schedule]
    named += [end for box in description.boxes for end in box.ends]
    for place, name in named:
        if isinstance(name, str) and name not in numbers:
            meant = did_you_mean(name, numbers) or f": {', '.join(numbers)}"
            raise Fault(f"{place}: there is no domain '{name}'{meant}")
    return numbers


def bounds_in(text: str, entries: int, program: Program) -> list[int]:
    """The bound on the switch after each entry's slot, of what the program wrote."""
    bound = parse_bound(text)
    bounds = [None if bound is None else bound.of_entry(it) for it in range(entries)]
    if any(it is None for it in bounds):
        raise program.other()
    return [it for it in bounds if it is not None]


def refuse_broken(text: str, file: Path, ended: Ended, name: str | None = None) -> None:
    """Faults an image's text, by how the program ended on it. The first rule that it breaks is told with its
    place in the file or, where nobody wrote the text, with the name of it."""
    told = _broken(text, file, ended)
    if told is None:
        return
    if name is not None:
        raise Refused(f"{name}: the image is refused: {told.reason()}", told.refusal)
    where, it = f"{file}:{told.line}:{told.column}", told.other
    other = "" if it is None else it.told(f"{file}:{it.line}:{it.column}")
    raise Refused(f"{where}: the image is refused: {told.reason()}{other}", told.refusal)


def refuse_described(description: Description, text: str, ended: Ended) -> None:
    """Faults the image of a description so: what is told is the place in the description, and what stands there."""
    told = _broken(text, description.file, ended)
    if told is None:
        return
    where, other = description.place(told.path), ""
    told = replace(told, stands=description.name_at(told.path) or told.stands)
    if told.other is not None:
        it = replace(told.other, stands=description.name_at(told.other.path) or told.other.stands)
        other = it.told(description.place(it.path))
    raise Refused(f"{where}: the image is refused: {told.reason()}{other}", told.refusal)


def _broken(text: str, file: Path, ended: Ended) -> Explanation | None:
    """What is broken of an image, by how the program ended."""
    if ended.code == 0:
        return None
    if not is_refusal(ended):
        raise Fault(f"{file}: the program ended with {ended.code}: {ended.text.strip()}")
    return explanation_of(text, str(file), ended)


def explanation_of(text: str, file: str, ended: Ended) -> Explanation:
    """What a refusal of an image's text tells."""
    # (loaded as an image is refused: the rules and their words are many)
    from tp_sdk.explain import explain
    from tp_sdk.refusals import Refusal

    return explain(text.encode(), file, Refusal.parse(ended.text))


def is_refusal(ended: Ended) -> bool:
    """The program has refused the image."""
    return ended.code != 0 and ended.text.startswith("refused ")


def image_entry(entry: EntryDescription, numbers: dict[str, int], pad: int) -> ImageEntry:
    """An entry as the image has it; with no pad of its own it has this one."""
    domain = entry.domain if isinstance(entry.domain, int) else numbers[entry.domain]
    return ImageEntry(domain, entry.length, pad if entry.pad is None else entry.pad, entry.hart)


def image_boxes(description: Description, numbers: dict[str, int]) -> list[ImageBox]:
    """The mailboxes as the image has them."""
    ends = [[numbers[it] if isinstance(it, str) else it for _, it in box.ends] for box in description.boxes]
    return [ImageBox(*it) for it in ends]


def load(it: DomainDescription, arch: str) -> Loaded:
    """A domain's program for a machine with these instructions, with the stack that the domain asks for."""
    loaded = it.program if isinstance(it.program, Loaded) else load_program(it.program, it.stack, arch)
    if it.stack is not None:
        others = [segment for segment in loaded.segments if segment.name != STACK]
        loaded.segments = [*others, _stack(loaded, it.stack)]
    return loaded


def image_domain(it: DomainDescription, loaded: Loaded) -> ImageDomain:
    """A domain as the image has it: what the description puts at symbols is put into the program."""
    _refuse_clashes(loaded, it.place)
    for where, data in it.words.items():
        _put(loaded, where, data)
    caps = [_cap(cap, loaded.segments, it.place) for cap in it.caps]
    return ImageDomain(
        it.name, it.colours, loaded.entry, caps, it.lines, it.moments, it.calls, loaded.segments
    )


def _stack(loaded: Loaded, pages: int) -> Segment:
    top = loaded.symbol(STACK_TOP).address
    if top % PAGE or top < pages * PAGE:
        raise Fault(f"{loaded.file}: {STACK_TOP} is {top:#x}: no end of {pages} pages")
    return Segment(STACK, top // PAGE - pages, pages, "rw", bytearray())


def _refuse_clashes(loaded: Loaded, place: str) -> None:
    most = next(row.kind.most for row in KEY_ROWS if row.key == "segment" and isinstance(row.kind, Array))
    if most is not None and len(loaded.segments) > most:
        raise Fault(
            f"{place}: {loaded.file} has {len(loaded.segments)} segments, and a domain {most} at most"
        )
    ascending = sorted(loaded.segments, key=lambda segment: segment.page)
    for one, next_one in zip(ascending, ascending[1:]):
        if next_one.page < one.page + one.pages:
            raise Fault(
                f"{place}: {loaded.file}: the segments '{one.name}' and '{next_one.name}' clash: "
                f"both have page {next_one.page} ({next_one.page * PAGE:#x})"
            )


def _put(loaded: Loaded, where: str, data: bytes) -> None:
    """Puts bytes at a symbol, or at an offset from it; they fit into it, where its size is known."""
    match = _PLACE.fullmatch(where)
    if match is None:
        raise Fault(f"{loaded.file}: '{where}' is no symbol, nor SYMBOL+OFFSET")
    symbol, offset = loaded.symbol(match[1]), integer_of(match[2] or "0")
    if symbol.size and offset + len(data) > symbol.size:
        raise Fault(
            f"{loaded.file}: '{symbol.name}' has {symbol.size} bytes, and {len(data)} are put at {where}"
        )
    address = symbol.address + offset
    for segment in loaded.segments:
        if segment.start <= address and address + len(data) <= segment.end:
            segment.put(address, data)
            return
    raise Fault(f"{loaded.file}: '{where}' ({address:#x}) is in no segment")


def _cap(cap: str, segments: list[Segment], place: str) -> str:
    """A capability as images have it: `data+1` is the second page of the segment `data`."""
    if cap == "none" or cap.startswith(("irq ", "page ")):
        return cap
    match = _CAP_BY_NAME.fullmatch(cap)
    if match is not None:
        for segment in segments:
            offset = int(match[2] or 0)
            if segment.name == match[1] and offset < segment.pages:
                return f"page {segment.page + offset}"
    names = ", ".join(f"{it.name} ({it.pages} {'page' if it.pages == 1 else 'pages'})" for it in segments)
    raise Fault(f"{place}: '{cap}' is no capability: none, irq N, page N, or a segment, as {names}")
