"""Which libraries a tool needs: none for its words, and those alone with which it does its work."""

from __future__ import annotations

import json
import subprocess
import sys
from pathlib import Path

import pytest
from conftest import REPOSITORY, SDK
from elf_files import Elf, Load, R, X

EXAMPLES = REPOSITORY / "examples"
WITHOUT = Path(__file__).parent / "tools_without.py"
LIBRARIES = "matplotlib,numpy,elftools,jsonschema,tqdm,distributed"
TOOLS = ("tp-counts", "tp-explain", "tp-image", "tp-plot", "tp-report", "tp-run", "tp-sweep", "tp-verify")


def run_without(libraries: str, tool: str, *words: str | Path) -> subprocess.CompletedProcess[str]:
    command = [sys.executable, WITHOUT, libraries, SDK / tool, *words]
    return subprocess.run(command, capture_output=True, text=True, check=False)


@pytest.mark.parametrize("tool", TOOLS)
def test_words_need_no_library(tool: str) -> None:
    ended = run_without(LIBRARIES, tool, "--help")
    assert (ended.returncode, ended.stderr) == (0, "") and ended.stdout.startswith(f"usage: {tool}")
    assert run_without(LIBRARIES, tool, "--fly").returncode == 2


def test_a_report_needs_no_library() -> None:
    report = EXAMPLES / "spy-loud.report"
    ended = run_without(LIBRARIES, "tp-report", report, "--json")
    assert (ended.returncode, ended.stderr) == (0, "") and json.loads(ended.stdout)["slots"] == 16
    # (nor does an image, which has no ELF file)
    of_image = run_without(LIBRARIES, "tp-report", report, "--image", EXAMPLES / "spy-loud.toml")
    assert (of_image.returncode, of_image.stderr) == (0, "")


def test_an_image_needs_none_and_a_program_one(tmp_path: Path) -> None:
    made = run_without(LIBRARIES, "tp-image", EXAMPLES / "skeleton.toml")
    assert made.returncode == 0 and "[[schedule]]" in made.stdout
    (tmp_path / "mine.elf").write_bytes(Elf([Load(0x10000, R | X, bytes(4))]).encode())
    (tmp_path / "machine.toml").write_text((SDK / "c" / "machine.toml").read_text())
    text = (SDK / "c" / "hello.toml").read_text().replace("out/hello.elf", "mine.elf")
    (tmp_path / "mine.toml").write_text(text)
    ended = run_without(LIBRARIES, "tp-image", tmp_path / "mine.toml")
    told = "another Python was asked for" if sys.executable != "/usr/bin/python3" else "has no pyelftools"
    assert told in ended.stderr and ended.returncode != 0


def test_a_picture_needs_one(tmp_path: Path) -> None:
    words = ("memory", EXAMPLES / "victim.toml", "-o", tmp_path / "a.svg")
    ended = run_without("matplotlib", "tp-plot", *words)
    told = "another Python was asked for" if sys.executable != "/usr/bin/python3" else "has no matplotlib"
    assert told in ended.stderr and ended.returncode != 0
