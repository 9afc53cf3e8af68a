"""Whose memory is whose."""

from __future__ import annotations

import tomllib
from pathlib import Path
from typing import Any

import pytest
from conftest import REPOSITORY, examples, is_refused, run_tool

from tp_sdk.faults import Fault
from tp_sdk.memory import PAGES_OF_A_TABLE, Memory, Use, memory_of
from tp_sdk.program import Program
from tp_sdk.report import parse_report

EXAMPLES = REPOSITORY / "examples"
# (bound.toml has pads that are too short)
ACCEPTED = [image for image in examples() if not is_refused(image) and image.stem != "bound"]


def memory(image: Path) -> Memory:
    """The memory of an example."""
    return memory_of(tomllib.loads(image.read_text()), image.name)


def test_two_domains() -> None:
    # 64 frames of 4 colours: red has 1, 5, 9 .., blue 2, 6, 10 ..
    of = memory(EXAMPLES / "two-domains.toml")
    assert (of.colours, of.sets_of_colour, of.owners) == (4, 64, {1: 0, 2: 1})
    for domain, first in ((0, 1), (1, 2)):
        own = [frame for frame in of.frames if frame.domain == domain]
        assert [frame.number for frame in own] == list(range(first, 64, 4))
        uses = [Use.TEXT, Use.TEXT, Use.STACK, Use.DATA, Use.ROOT, Use.TABLE, Use.PAGE]
        assert [frame.use for frame in own] == uses + [Use.FREE] * 9
        assert own[6].page == 16
    assert [frame.number for frame in of.frames if frame.use is Use.SHARED] == [0]
    assert of.shared_lines == (1,) * 8 + (0,) * 56


def test_colours_beside_each_other_that_are_nobodys() -> None:
    of = Memory(12, (), {2: 0, 6: 1}, 64, 4, ())
    told = [(colours.start, len(colours)) for colours in of.ranges()]
    assert told == [(0, 1), (1, 1), (2, 1), (3, 3), (6, 1), (7, 5)]


def sum_of_words(domain: dict[str, Any], of: Memory, number: int) -> int:
    """The sum of a domain's pages and page tables, as they are at the boot."""
    own = [frame for frame in of.frames if frame.domain == number]
    tables = [frame.number for frame in own if frame.use is Use.TABLE]
    frame_of = {frame.page: frame.number for frame in own if frame.use is Use.PAGE}
    total = sum(frame * 1024 + 1 for frame in tables)
    for segment in domain["segment"]:
        data = bytes.fromhex(segment["hex"])
        words = data + bytes(-len(data) % 4)
        total += sum(int.from_bytes(words[at : at + 4], "little") for at in range(0, len(words), 4))
        rights = sum(
            value for letter, value in (("r", 2), ("w", 4 + 128), ("x", 8)) if letter in segment["rights"]
        )
        pages = range(segment["page"], segment["page"] + segment["pages"])
        total += sum(frame_of[page] * 1024 + 81 + rights for page in pages)
    assert len(tables) == len({page // PAGES_OF_A_TABLE for page in frame_of if page is not None})
    return total % 2**32


@pytest.mark.parametrize("image", ACCEPTED, ids=lambda it: it.stem)
def test_the_frames_are_those_that_the_programs_tables_name(program: Program, image: Path) -> None:
    text = image.read_text()
    report = parse_report(program.run(["run", "--slots", "0"], text).text, image.name)
    of = memory(image)
    for number, domain in enumerate(tomllib.loads(text)["domain"]):
        told = report.sections[number].text.splitlines()[-1]
        assert told == f"mem {sum_of_words(domain, of, number):08x}"


def test_a_picture_of_it(tmp_path: Path) -> None:
    pytest.importorskip("matplotlib")
    picture = tmp_path / "memory.svg"
    ended = run_tool("tp-plot", "memory", EXAMPLES / "two-domains.toml", "-o", picture)
    assert (ended.returncode, ended.stdout, ended.stderr) == (0, "", "")
    text = picture.read_text()
    for words in (
        "red's alone",
        "0: the kernel",
        "2: blue",
        "3: nobody",
        ">stack<",
        "shared by all (8 lines",
    ):
        assert words in text


@pytest.mark.parametrize("line", ("", "line = 0", "line = 8192"))
def test_an_image_that_is_none(line: str) -> None:
    image = tomllib.loads((EXAMPLES / "two-domains.toml").read_text())
    image |= tomllib.loads(line) if line else {"domain": [{"name": "red", "colours": [1]}]}
    with pytest.raises(Fault, match="image: no memory can be made of it"):
        memory_of(image, "image")


def test_a_disk_that_is_full(tmp_path: Path) -> None:
    pytest.importorskip("matplotlib")
    if not Path("/dev/full").exists():
        pytest.skip("there is no /dev/full")
    full = tmp_path / "full.svg"
    full.symlink_to("/dev/full")
    ended = run_tool("tp-plot", "memory", EXAMPLES / "two-domains.toml", "-o", full)
    assert (ended.returncode, ended.stderr) == (1, f"tp-plot: {full}: No space left on device\n")
