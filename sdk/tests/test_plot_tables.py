"""Pictures of sweeps, and the numbers of every picture as a table."""

from __future__ import annotations

import csv
from pathlib import Path

import pytest
from conftest import REPOSITORY, run_tool

EXAMPLES = REPOSITORY / "examples"
CHANNEL = EXAMPLES / "channels" / "lines"
# What a sweep over two keys of the machine wrote, with a guard on and off.
SWEEP = "ways,sets,off,observer,secret,secrets,sections,entropy,capacity,cycles\n" + "".join(
    f"{ways},{sets},{off},spy,key,8,{sections},{bits},{bits},{1000 * sets}\n"
    for ways in (1, 2)
    for sets in (8, 16, 32)
    for off, sections, bits in (("none", 1, 0.0), ("flush", ways * 2, float(ways)))
)


def rows_in(file: Path) -> list[list[str]]:
    with file.open() as lines:
        return list(csv.reader(lines))


@pytest.fixture
def swept(tmp_path: Path) -> Path:
    (tmp_path / "swept.csv").write_text(SWEEP)
    return tmp_path / "swept.csv"


def test_a_sweep_by_one_key_is_lines(swept: Path) -> None:
    pytest.importorskip("matplotlib")
    picture, table = swept.with_suffix(".svg"), swept.with_name("drawn.csv")
    words = ("--key", "sets", "--key", "off", "--where", "ways=2")
    ended = run_tool("tp-plot", "sweep", swept, *words, "-o", picture, "--csv", table)
    assert (ended.returncode, ended.stderr) == (0, "")
    assert "capacity" in picture.read_text()
    head, *rows = rows_in(table)
    assert head == ["observer", "sets", "off", "capacity"]
    due = [
        ["spy", sets, off, bits]
        for off, bits in (("none", "0.0"), ("flush", "2.0"))
        for sets in ("8", "16", "32")
    ]
    assert sorted(rows) == sorted(due)


def test_a_sweep_by_two_keys_is_a_map(swept: Path) -> None:
    pytest.importorskip("matplotlib")
    words = ("--of", "cycles", "--key", "sets", "--key", "ways", "--where", "off=flush", "--as", "map")
    ended = run_tool("tp-plot", "sweep", swept, *words, "-o", swept.with_suffix(".png"), "--csv", "-")
    assert (ended.returncode, ended.stderr) == (0, "")
    assert swept.with_suffix(".png").read_bytes().startswith(b"\x89PNG")
    lines = ended.stdout.splitlines()
    assert lines[0] == "observer,sets,ways,cycles" and len(lines) == 7
    assert "spy,32,2,32000" in lines or "spy,32,2,32000.0" in lines


def test_what_can_be_no_picture_of_a_sweep(swept: Path) -> None:
    pytest.importorskip("matplotlib")
    for words, told in (
        (("--key", "size"), "size"),
        (("--where", "sets=9"), "9"),
        (("--key", "sets", "--key", "ways", "--where", "off=none", "--observer", "blue"), "blue"),
    ):
        ended = run_tool("tp-plot", "sweep", swept, *words, "-o", swept.with_suffix(".svg"))
        assert ended.returncode != 0 and told in ended.stderr and "Traceback" not in ended.stderr
        assert not swept.with_suffix(".svg").exists()


def test_readings_are_a_table(tmp_path: Path) -> None:
    pytest.importorskip("matplotlib")
    table = tmp_path / "a.csv"
    words = ("--domain", "spy", "-o", tmp_path / "a.svg", "--csv", table)
    ended = run_tool("tp-plot", "readings", CHANNEL / "flush", *words)
    assert (ended.returncode, ended.stdout.count("\n") <= 2) == (0, True)
    head, *rows = rows_in(table)
    assert head == ["domain", "report", "measurement", "cycles", "slot_ended"]
    assert {row[0] for row in rows} == {"spy"} and len({row[1] for row in rows}) == 8
    assert all(int(row[3]) > 0 for row in rows)


@pytest.mark.usefixtures("program")
def test_a_timeline_and_a_memory_are_tables(tmp_path: Path) -> None:
    pytest.importorskip("matplotlib")
    image, report, out = EXAMPLES / "victim.toml", EXAMPLES / "victim.report", tmp_path / "a.svg"
    for words, columns in (
        (("timeline", image, report, "--slots", "4"), "hart"),
        (("memory", image), "domain"),
    ):
        table = tmp_path / f"{words[0]}.csv"
        ended = run_tool("tp-plot", *words, "-o", out, "--csv", table)
        assert (ended.returncode, ended.stderr) == (0, "")
        head, *rows = rows_in(table)
        assert columns in head and rows and all(len(row) == len(head) for row in rows)
