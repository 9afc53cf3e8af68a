"""The commands' words and exit codes."""

from __future__ import annotations

import os
import subprocess
import sys
from pathlib import Path

import pytest
from conftest import REPOSITORY, SDK, bare_python, run_tool
from elf_files import Elf, Load, R, X

LIBRARIES = {
    "tp-image": "elftools",
    "tp-run": "elftools",
    "tp-report": "elftools",
    "tp-explain": "json",
    "tp-plot": "matplotlib",
    "tp-counts": "json",
    "tp-sweep": "json",
    "tp-verify": "json",
}
TOOLS = sorted(LIBRARIES)
SKELETON = REPOSITORY / "examples" / "skeleton.toml"


@pytest.mark.parametrize("tool", TOOLS)
def test_help_tells_the_exit_codes(tool: str) -> None:
    pytest.importorskip(LIBRARIES[tool])
    ended = run_tool(tool, "--help")
    assert (
        ended.returncode == 0 and "exit codes:" in ended.stdout and ended.stdout.startswith(f"usage: {tool}")
    )


@pytest.mark.parametrize("tool", TOOLS)
def test_words_that_are_no_command(tool: str) -> None:
    pytest.importorskip(LIBRARIES[tool])
    assert run_tool(tool).returncode == 2
    assert run_tool(tool, "--fly").returncode == 2


@pytest.mark.parametrize("tool", TOOLS)
def test_a_command_is_run_from_any_folder(tool: str, tmp_path: Path) -> None:
    assert os.access(SDK / tool, os.X_OK)
    link = tmp_path / tool
    link.symlink_to(SDK / tool)
    pytest.importorskip(LIBRARIES[tool])
    assert run_tool(str(link), "--help").returncode == 0


@pytest.mark.parametrize("tool", ("tp-image", "tp-report", "tp-plot"))
def test_a_python_without_the_library_leaves_it_to_debians(tool: str, tmp_path: Path) -> None:
    bare = bare_python(LIBRARIES[tool], tmp_path)
    (tmp_path / "mine.elf").write_bytes(Elf([Load(0x10000, R | X, bytes(4))]).encode())
    (tmp_path / "machine.toml").write_text((SDK / "c" / "machine.toml").read_text())
    text = (SDK / "c" / "hello.toml").read_text().replace("out/hello.elf", "mine.elf")
    (tmp_path / "mine.toml").write_text(text.replace("length =", "pad = 6150\nlength ="))
    loud = REPOSITORY / "examples" / "spy-loud"
    words, told = {
        "tp-image": (("mine.toml",), 'name = "hello"'),
        "tp-report": (
            (f"{loud}.report", "--image", f"{loud}.toml", "--elf", "loud=mine.elf"),
            "it isn't the program of domain 0",
        ),
        "tp-plot": (
            ("readings", loud.parent / "channels" / "lines" / "run", "--domain", "spy", "-o", "a.svg"),
            "spy: no",
        ),
    }[tool]
    ended = subprocess.run(
        [bare, SDK / tool, *words], cwd=tmp_path, capture_output=True, text=True, check=False
    )
    assert told in ended.stdout + ended.stderr
    if tool == "tp-image":
        # (what was read of standard input by the first Python is there for the other)
        given = (tmp_path / "mine.toml").read_text()
        again = subprocess.run(
            [bare, SDK / tool, "-"], cwd=tmp_path, input=given, capture_output=True, text=True, check=False
        )
        assert (again.returncode, again.stdout) == (0, ended.stdout)


def test_standard_output_that_is_full() -> None:
    if not Path("/dev/full").exists():
        pytest.skip("there is no /dev/full")
    with open("/dev/full", "w") as full:
        command = [sys.executable, SDK / "tp-explain", "--schema"]
        ended = subprocess.run(command, stdout=full, stderr=subprocess.PIPE, text=True, check=False)
    assert (ended.returncode, ended.stderr) == (1, "tp-explain: standard output: No space left on device\n")


def test_explanations_from_standard_input() -> None:
    assert run_tool("tp-explain", SKELETON, given="accepted\n").stdout == "accepted: no rule is broken\n"
    missing = run_tool("tp-explain", "none.toml", "refused K4 at 0 found 63 wanted 64")
    assert (missing.returncode, missing.stderr) == (1, "tp-explain: none.toml: No such file or directory\n")
    wrong = run_tool("tp-explain", SKELETON, given="")
    assert wrong.returncode == 1 and "no refusal" in wrong.stderr


def test_a_program_that_is_missing(monkeypatch: pytest.MonkeyPatch, tmp_path: Path) -> None:
    pytest.importorskip("elftools")
    monkeypatch.setenv("TP", str(tmp_path / "tp"))
    description = tmp_path / "red.toml"
    description.write_text((SDK / "c" / "hello.toml").read_text().replace("out/hello.elf", "hello.elf"))
    (tmp_path / "machine.toml").write_text((SDK / "c" / "machine.toml").read_text())
    ended = run_tool("tp-image", description)
    assert ended.returncode == 1 and "hello.elf: No such file" in ended.stderr
    (tmp_path / "hello.elf").write_bytes(Elf([Load(0x10000, R | X, bytes(4))]).encode())
    ended = run_tool("tp-image", description)
    assert ended.returncode == 3 and "not checked: there is no program at TP=" in ended.stderr
    assert "red.toml:9:1: no pad, which the program alone can tell" in ended.stderr
    ended = run_tool("tp-run", description, "--slots", "1")
    assert ended.returncode == 3 and ended.stderr.startswith("tp-run: there is no program at TP=")
