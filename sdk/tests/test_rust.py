"""The programs in Rust, built where a compiler has the machine's target."""

from __future__ import annotations

import os
import re
import shutil
import subprocess
from pathlib import Path

import pytest
from conftest import SDK, run_tool
from pages import Reader

from tp_sdk.calls import CALLS, ERRORS
from tp_sdk.program import Program
from tp_sdk.report import parse_report

TARGET = "riscv32i-unknown-none-elf"
EXAMPLES = Path("sdk") / "rust" / "out" / TARGET / "release" / "examples"


@pytest.fixture(scope="module")
def reader(program: Program, built: Path, tmp_path_factory: pytest.TempPathFactory) -> Reader:
    """A copy of the tools with the examples built."""
    rustc = os.environ.get("RUSTC", "rustc")
    if shutil.which(rustc) is None or shutil.which("cargo") is None:
        pytest.skip("there is no rustc, or no cargo")
    words = [rustc, "--print", "target-libdir", "--target", TARGET]
    told = subprocess.run(words, capture_output=True, text=True, check=False)
    if told.returncode != 0 or not list(Path(told.stdout.strip()).glob("libcore-*.rlib")):
        pytest.skip(f"{rustc} has no core library for it: rustup target add {TARGET}")
    reader = Reader.begin(tmp_path_factory.mktemp("rust"), program, built)
    words = ["cargo", "build", "--release", "--quiet", "--offline", "--locked", "--examples"]
    folder = reader.top / "sdk" / "rust"
    ended = subprocess.run(words, cwd=folder, capture_output=True, text=True, check=False)
    assert (ended.returncode, ended.stderr) == (0, "")
    return reader


def told(reader: Reader, name: str, *words: str | Path) -> list[str]:
    """What tp-run says of an example."""
    ended = run_tool("tp-run", reader.top / EXAMPLES / name, "--slots", "20", *words)
    assert (ended.returncode, ended.stderr) == (0, "")
    return ended.stdout.splitlines()


def test_a_call_and_its_error(reader: Reader) -> None:
    lines = told(reader, "hello")
    assert lines[1] == "hello (domain 0): exited with code 0"
    assert "  | hello, 42" in lines and "  | Err(BadSlot)" in lines


def test_threads_a_product_of_64_bits_and_a_panic(reader: Reader) -> None:
    lines = told(reader, "threads")
    assert lines[1].startswith("threads (domain 0): stopped by an EBREAK (code 3)")
    printed = [line.removeprefix("  | ") for line in lines if line.startswith("  | ")]
    product = 1_000_000_007**2 // 65_521
    assert printed[:2] == ["second x", f"first Ok(1) {product}"]
    assert printed[2].startswith("panicked at examples/threads.rs:")
    assert printed[3] == "attempt to divide by zero"


def test_the_spy_finds_its_lines_again_until_its_slot_is_over(reader: Reader, tmp_path: Path) -> None:
    report = tmp_path / "spy.report"
    told(reader, "spy", "--report", report)
    section = parse_report(report.read_text(), "spy").section("spy")
    assert (section.status, section.readings_count) == ("exited 0", 256)
    # in each look the rest has lasted into another slot, as 12,000 cycles are longer than one
    first = section.readings[0::32]
    assert all(later - earlier > 12_000 + 6_150 for earlier, later in zip(first, first[1:]))


def test_the_page_does_what_it_says(reader: Reader) -> None:
    reader.follow(SDK / "rust" / "README.md", reader.own)


def test_calls_and_errors_are_those_of_the_kernel() -> None:
    text = (SDK / "rust" / "src" / "lib.rs").read_text()
    errors = re.findall(r"^    (\w+) = (\d+),$", text.partition("pub enum Error")[2].partition("}")[0], re.M)
    assert [(name, int(code)) for name, code in errors] == [(it.name, it.code) for it in ERRORS]
    listed = re.findall(r"Self::(\w+),", text.partition("const ALL")[2].partition("];")[0])
    assert listed == [it.name for it in ERRORS]
    functions = re.findall(r"pub (?:unsafe )?fn (\w+)\([^{]*\{(.*?)^\}", text, re.M | re.S)
    made = {
        name: int(number) for name, body in functions for number in re.findall(r"\bcall\(\s*(\d+),", body)
    }
    others = {"yield_now": "YIELD", "start_thread": "SPAWN"}
    assert {others.get(name, name.upper()): number for name, number in made.items()} == {
        it.name: it.number for it in CALLS if it.name != "ENDTHREAD"  # (a thread's function returns)
    }
