"""The pages of the tools, word for word: the files that they show, the commands, what those write."""

from __future__ import annotations

from pathlib import Path

import pytest
from conftest import SDK
from pages import Reader

from tp_sdk.program import Program
from tp_sdk.report import parse_report

COMPILER = Path(__file__).parent / "reports" / "compiler"


@pytest.fixture
def reader(program: Program, built: Path, compiler: str, tmp_path: Path) -> Reader:
    """Who follows a page, with the compiler whose programs it tells of."""
    pytest.importorskip("matplotlib")
    of = COMPILER.read_text().strip()
    if compiler != of:
        pytest.skip(f"the page shows what programs do that {of} built")
    return Reader.begin(tmp_path, program, built)


def test_the_readme_does_what_it_says(reader: Reader) -> None:
    reader.follow(SDK / "README.md", reader.top)


def test_the_page_of_spies_does_what_it_says(reader: Reader) -> None:
    reader.follow(SDK / "SPY.md", reader.own)
    # (and what it says of a report with `flush` off, whose first line says so)
    text = (reader.own / "off" / "0.report").read_text().removeprefix("unprotected flush\n")
    readings = parse_report(text, "off").section("spy").readings
    cycles = [after - before for before, after in zip(readings[::2], readings[1::2])]
    for look in range(4):
        covered, others = cycles[16 * look : 16 * look + 8], cycles[16 * look + 8 : 16 * look + 16]
        assert min(covered) == 44 and others == [44, *[28] * 7]
