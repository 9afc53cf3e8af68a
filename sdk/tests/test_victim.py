"""A victim whose look-ups depend on its key, and a spy that primes and probes sixteen sets."""

from __future__ import annotations

import tomllib
from pathlib import Path

import pytest
from conftest import REPOSITORY, run_tool, stored_picture

from tp_sdk.program import Program
from tp_sdk.report import parse_report

KEYS = ("00000000", "01010101", "01230123", "01234567", "76543210", "feedbeef")


@pytest.fixture(scope="module")
def beside(program: Program, built: Path, tmp_path_factory: pytest.TempPathFactory) -> Path:
    """A folder with the report of each key."""
    folder = tmp_path_factory.mktemp("beside")
    for key in KEYS:
        made = run_tool("tp-image", built / "victim.toml", "--set", f"victim.key=0x{key}")
        assert (made.returncode, made.stderr) == (0, "")
        ended = program.run(["run", "--slots", "24"], made.stdout)
        (folder / f"{key}.report").write_text(ended.text)
    return folder


@pytest.mark.usefixtures("program")
def test_the_example_is_what_the_tools_make(built: Path, compiler: str) -> None:
    of = (Path(__file__).parent / "reports" / "compiler").read_text().strip()
    if compiler != of:
        pytest.skip(f"the example is of programs that {of} built")
    made = run_tool("tp-image", built / "victim.toml", "--set", "victim.key=0x01234567")
    assert tomllib.loads(made.stdout) == tomllib.loads((REPOSITORY / "examples" / "victim.toml").read_text())


def test_the_victims_readings_tell_the_key_and_the_spys_nothing(beside: Path) -> None:
    reports = [parse_report((beside / f"{key}.report").read_text(), key) for key in KEYS]
    assert len({report.section("victim").readings for report in reports}) == len(KEYS)
    spies = {report.section("spy").text for report in reports}
    assert len(spies) == 1 and "readings 256 " in spies.pop()


def test_the_first_look_up_of_a_line_is_the_one_that_takes_long(beside: Path) -> None:
    for key in KEYS:
        readings = parse_report((beside / f"{key}.report").read_text(), key).section("victim").readings
        cycles = [after - before for before, after in zip(readings[0:16:2], readings[1:16:2])]
        digits = key[::-1]
        is_new = [digit not in digits[:place] for place, digit in enumerate(digits)]
        assert [it > 40 for it in cycles] == is_new


def test_the_spys_picture_is_one_row(beside: Path, compiler: str, tmp_path: Path) -> None:
    pytest.importorskip("matplotlib")
    picture = tmp_path / "victim.svg"
    words = ("readings", beside, "--domain", "victim", "--domain", "spy", "-o", picture)
    ended = run_tool("tp-plot", *words)
    assert (ended.returncode, ended.stderr) == (0, "")
    assert ended.stdout.startswith(
        "victim: 6 different sections in 6 reports: entropy 2.58, capacity 2.58 bits"
    )
    assert "\nspy: no difference: its sections are equal to the byte in 6 reports" in ended.stdout
    text = picture.read_text()
    assert "00000000 and 5 more" in text and "one row for all 6 reports: every difference is 0" in text
    assert picture.stat().st_size < 60_000
    # it is the one of the documents, to the byte
    if compiler == (Path(__file__).parent / "reports" / "compiler").read_text().strip():
        assert text == stored_picture("victim")
