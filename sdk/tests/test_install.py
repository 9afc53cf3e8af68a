"""The package as pip installs it, without a network, in an environment that has the libraries."""

from __future__ import annotations

import json
import os
import shutil
import subprocess
import sys
import tomllib
from importlib.util import find_spec
from pathlib import Path

import pytest
from conftest import REPOSITORY, SDK

from tp_sdk.program import VARIABLE, Program

TOOLS = sorted(it.name for it in SDK.glob("tp-*"))
CALLS = """
import json, tp_sdk
print(json.dumps([tp_sdk.__version__, tp_sdk.__file__, tp_sdk.Image.__name__, tp_sdk.Report.__name__]))
"""


def run_in(folder: Path, *words: str | Path, program: str = "") -> subprocess.CompletedProcess[str]:
    variables = {name: it for name, it in os.environ.items() if name not in (VARIABLE, "PYTHONPATH")}
    variables |= {VARIABLE: program} if program else {}
    return subprocess.run(
        words,
        cwd=folder,
        env=variables,
        capture_output=True,
        text=True,
        check=False,
        stdin=subprocess.DEVNULL,
    )


@pytest.fixture(scope="module")
def installed(tmp_path_factory: pytest.TempPathFactory) -> Path:
    """The folder of an environment's commands, in which the package is installed."""
    lacking = [it for it in ("pip", "setuptools", "elftools", "matplotlib") if find_spec(it) is None]
    if lacking:
        pytest.skip(f"there is no {lacking[0]}")
    folder = tmp_path_factory.mktemp("installed")
    # (from a copy: pip builds where the sources are)
    top = folder / "top"
    shutil.copytree(SDK, top / "sdk", ignore=shutil.ignore_patterns("tests", "out", "__pycache__"))
    shutil.copy(REPOSITORY / "VERSION", top)
    made = [sys.executable, "-m", "venv", "--system-site-packages", "--without-pip", folder / "venv"]
    subprocess.run(made, check=True, capture_output=True)
    commands = folder / "venv" / "bin"
    words = [
        "-m",
        "pip",
        "install",
        "-q",
        "--disable-pip-version-check",
        "--no-build-isolation",
        "--no-index",
    ]
    ended = run_in(folder, commands / "python", *words, top / "sdk")
    assert (ended.returncode, ended.stderr) == (0, "")
    shutil.rmtree(top)
    return commands


def test_each_tool_is_a_command(installed: Path, tmp_path: Path) -> None:
    scripts = tomllib.loads((SDK / "pyproject.toml").read_text())["project"]["scripts"]
    assert sorted(scripts) == TOOLS
    for tool in TOOLS:
        assert (installed / tool).is_file()
    ended = run_in(tmp_path, installed / "tp-report", "--help")
    assert (ended.returncode, ended.stderr) == (0, "") and ended.stdout.startswith("usage: tp-report")


def test_the_package_is_of_the_release(installed: Path, tmp_path: Path) -> None:
    ended = run_in(tmp_path, installed / "python", "-c", CALLS)
    assert ended.stderr == ""
    version, file, *names = json.loads(ended.stdout)
    assert version == (REPOSITORY / "VERSION").read_text().strip() and names == ["Image", "Report"]
    assert Path(file).is_relative_to(installed.parent)
    schemas = Path(file).parent / "schemas"
    for schema in ("image", "description", "report"):
        name = f"{schema}.schema.json"
        assert (schemas / name).read_text() == (SDK / name).read_text()


def test_it_compiles_a_program_with_its_own_headers(
    installed: Path, program: Program, compiler: str, tmp_path: Path
) -> None:
    source = tmp_path / "mine.c"
    source.write_text('#include <stdio.h>\nint main(void) { puts("here"); return 0; }\n')
    ended = run_in(tmp_path, installed / "tp-run", source, "--slots", "2", program=str(program.path))
    assert (ended.returncode, ended.stderr) == (0, "") and "  | here" in ended.stdout


def test_it_says_how_the_program_is_named(installed: Path, tmp_path: Path) -> None:
    image = REPOSITORY / "examples" / "skeleton.toml"
    ended = run_in(tmp_path, installed / "tp-run", image, "--slots", "2")
    told = "tp-run: there is no program: the variable TP names one, and it is not set\n"
    assert (ended.returncode, ended.stderr) == (3, told)


def test_a_library_that_is_missing_is_told_of_and_no_other_python_asked(
    installed: Path, tmp_path: Path
) -> None:
    without = "import sys; sys.modules['matplotlib'] = None; import tp_sdk.start; sys.argv = {}; tp_sdk.start.plot()"
    words = [
        str(installed / "tp-plot"),
        "memory",
        str(REPOSITORY / "examples" / "victim.toml"),
        "-o",
        "a.svg",
    ]
    ended = run_in(tmp_path, installed / "python", "-c", without.format(words))
    assert ended.returncode == 3 and ended.stderr.startswith(f"tp-plot: {installed / 'python'}")
    assert "has no matplotlib" in ended.stderr and ended.stderr.count("\n") == 1
