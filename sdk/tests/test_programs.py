"""The programs in C: their reports, and what a spy beside a key store learns of the key."""

from __future__ import annotations

import subprocess
import tomllib
from pathlib import Path

import pytest
from conftest import REPOSITORY, run_tool

from tp_sdk.program import Program
from tp_sdk.report import Report, parse_report

REPORTS = Path(__file__).parent / "reports"
# What an image is run for, by its name.
SLOTS = {"hello": 1, "spy": 24, "victim": 24, "driver": 6, "all": 44, "calls": 1}
KEYS = (0, 1, 2, 3, 4, 5, 6, 7)


def run(program: Program, built: Path, name: str, *settings: str) -> str:
    """The report of an image of this name."""
    made = run_tool("tp-image", built / f"{name}.toml", *(word for it in settings for word in ("--set", it)))
    assert (made.returncode, made.stderr) == (0, "")
    ended = program.run(["run", "--slots", str(SLOTS[name])], made.stdout)
    assert ended.code == 0
    return ended.text


def test_another_stack_or_architecture_builds_anew(built: Path) -> None:
    elf = built / "out" / "hello.elf"
    for setting, is_other in (
        ("STACK=4096", False),
        ("STACK=8192", True),
        ("STACK=8192", False),
        ("ARCH=rv32im", True),
        ("ARCH=rv32im", False),
        ("ARCH=rv32i", True),
    ):
        before = elf.stat().st_mtime_ns
        subprocess.run(["make", "-C", built, setting], check=True, capture_output=True)
        assert (elf.stat().st_mtime_ns != before) == is_other


@pytest.mark.parametrize("name", SLOTS)
def test_reports_are_those_stored(program: Program, built: Path, compiler: str, name: str) -> None:
    of = (REPORTS / "compiler").read_text().strip()
    if compiler != of:
        pytest.skip(f"the stored reports are of programs that {of} built")
    assert run(program, built, name) == (REPORTS / f"{name}.report").read_text()


@pytest.mark.usefixtures("program")
@pytest.mark.parametrize("name", ("powers", "powers-muldiv"))
def test_the_examples_are_what_the_tools_make(built: Path, compiler: str, name: str) -> None:
    of = (REPORTS / "compiler").read_text().strip()
    if compiler != of:
        pytest.skip(f"the examples are of programs that {of} built")
    made = run_tool("tp-image", built / f"{name}.toml")
    example = (REPOSITORY / "examples" / f"{name}.toml").read_text()
    assert tomllib.loads(made.stdout) == tomllib.loads(example)
    # (and its comment is the description's, and a command)
    comment = (built / f"{name}.toml").read_text().split("machine =")[0]
    assert example.startswith(f"{comment}#\n#   ./tp run --slots 1 < examples/{name}.toml\n")


def test_products_are_instructions_where_the_machine_has_them(program: Program, built: Path) -> None:
    reports = {}
    for name in ("powers", "powers-muldiv"):
        made = run_tool("tp-image", built / f"{name}.toml")
        reports[name] = parse_report(program.run(["run", "--slots", "1"], made.stdout).text, name)
    without, having = (report.section("powers") for report in reports.values())
    due = "".join(f"{base}^1000003 mod 65521 = {pow(base, 1000003, 65521)}\n" for base in range(2, 6))
    assert without.out == having.out == due.encode()
    assert without.retired > 5 * having.retired
    slow, fast = (
        [after - before for before, after in zip(it.readings[::2], it.readings[1::2])]
        for it in (without, having)
    )
    assert all(5 * one < other for one, other in zip(fast, slow))


def test_a_call_that_is_left_out_is_a_bad_call(program: Program, built: Path, tmp_path: Path) -> None:
    image, report = tmp_path / "calls.toml", tmp_path / "calls.report"
    words = ("--slots", "1", "--image", image, "--report", report)
    ended = run_tool("tp-run", built / "calls.toml", *words)
    assert (ended.returncode, ended.stderr) == (0, "")
    for line in (
        "calls (domain 0): exited with code 1",
        "  | left out",
        "  10 replies to calls, 9 of them PUT; refused: 1",
        "    1 by BadCall (1: no call has the number, or the domain's `calls` leave it out), as all but EXIT "
        "and PUT are: reply 0",
        "entry 0 (calls): 1 switch used 755 of the 2,374 cycles of its pad at most",
    ):
        assert line in ended.stdout.splitlines()
    assert tomllib.loads(image.read_text())["domain"][0]["calls"] == [0, 1]
    # (the same program, where the list has ALLOC)
    text = (built / "calls.toml").read_text()
    (built / "allocs.toml").write_text(text.replace('"exit", "put"', '"exit", "put", "alloc"'))
    ended = run_tool("tp-run", built / "allocs.toml", "--slots", "1")
    assert "  | done\n" in ended.stdout and "of the 6,150 cycles of its pad" in ended.stdout


def test_each_program_does_what_it_says(program: Program, built: Path) -> None:
    report = parse_report(run(program, built, "all"), "all")
    ended = {section.name: (section.status, section.out) for section in report.sections}
    assert ended["hello"] == ("exited 0", b"hello\n")
    assert ended["driver"] == ("exited 0", b"abcd")
    assert ended["spy"] == ("exited 0", b"")
    assert ended["store"][0] == "running" and ended["store"][1] != b""
    assert report.section("spy").readings_count == 256


@pytest.mark.parametrize("image", ("spy", "all"))
def test_the_spy_learns_nothing_of_the_key(program: Program, built: Path, image: str) -> None:
    reports: list[Report] = [
        parse_report(run(program, built, image, f"store.key={key}"), f"key {key}") for key in KEYS
    ]
    assert len({report.section("spy").text for report in reports}) == 1
    assert len({report.section("store").text for report in reports}) == len(KEYS)
    # the key shows in how long the store's switches take, which their pads hide
    entry = reports[0].section("store").number
    assert len({report.switches[entry].used for report in reports}) > 1
