"""Descriptions where an image may stand, and on the standard streams."""

from __future__ import annotations

import shutil
import tomllib
from pathlib import Path

import pytest
from conftest import REPOSITORY, SDK, run_tool

EXAMPLES = REPOSITORY / "examples"
EXITS = """
    .globl _start
_start:
    li x5, 0
    li x6, 40
1:  addi x5, x5, 1
    bne x5, x6, 1b
    li x17, 0
    ecall
"""
DESCRIPTION = """
machine = "machine.toml"
domain = [{ name = "loop", program = "loop.s", colours = [1] }]
schedule = [{ domain = "loop", length = 3000 }]
"""


@pytest.fixture
def described(program: object, compiler: str, tmp_path: Path) -> Path:
    """A description beside its source, its image and the image's report."""
    pytest.importorskip("elftools")
    (tmp_path / "loop.s").write_text(EXITS)
    (tmp_path / "loop.toml").write_text(DESCRIPTION)
    shutil.copy(SDK / "c" / "machine.toml", tmp_path)
    words = ("--slots", "2", "--image", tmp_path / "loop.image", "--report", tmp_path / "loop.report")
    assert run_tool("tp-run", tmp_path / "loop.toml", *words).returncode == 0
    return tmp_path


def test_counts_of_a_description(described: Path) -> None:
    ended = run_tool("tp-counts", described / "loop.toml", "--domain", "loop", "--slots", "1")
    assert (ended.returncode, ended.stderr) == (0, "")
    # (three instructions and forty rounds of two; the EXIT is the last of all)
    _, first = ended.stdout.splitlines()
    assert first.split()[0] == "0" and first.split()[2] == "83"


def test_pictures_of_a_description_are_those_of_its_image(described: Path) -> None:
    pytest.importorskip("matplotlib")
    for words in (("timeline", "IMAGE", described / "loop.report"), ("memory", "IMAGE")):
        drawn = []
        for end in ("toml", "image"):
            picture = described / f"{end}.svg"
            asked = [described / f"loop.{end}" if it == "IMAGE" else it for it in words]
            ended = run_tool("tp-plot", *asked, "-o", picture)
            assert (ended.returncode, ended.stderr) == (0, "")
            drawn.append(picture.read_text())
        assert drawn[0] == drawn[1]


def test_a_description_at_fault_is_told_with_its_place(described: Path) -> None:
    (described / "loop.toml").write_text(DESCRIPTION.replace('"loop", length', '"lop", length'))
    for words in (("tp-counts", "--domain", "loop"), ("tp-plot", "memory", "-o", described / "a.svg")):
        ended = run_tool(words[0], *words[1:], described / "loop.toml")
        assert ended.returncode == 1
        assert f"{described}/loop.toml:4:13: there is no domain 'lop': did you mean 'loop'?" in ended.stderr


# ---- the standard streams


def test_a_description_on_standard_input() -> None:
    file = EXAMPLES / "two-domains.toml"
    given, named = run_tool("tp-image", "-", given=file.read_text()), run_tool("tp-image", file)
    assert (given.returncode, given.stdout) == (0, named.stdout)
    assert tomllib.loads(given.stdout) == tomllib.loads(file.read_text())
    wrong = run_tool("tp-image", "-", given=file.read_text().replace("frames =", "frame =", 1))
    assert wrong.returncode == 1 and wrong.stderr.startswith("tp-image: -:")
    two = run_tool("tp-explain", "-", given=file.read_text())
    assert two.returncode == 2 and "the image alone can be on standard input" in two.stderr
