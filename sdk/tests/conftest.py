"""What the tests run on: the program, the compiler. A test is skipped where one is missing."""

from __future__ import annotations

import os
import shutil
import signal
import subprocess
import sys
from pathlib import Path

import pytest

SDK = Path(__file__).resolve().parents[1]
sys.path.insert(0, str(SDK))

from tp_sdk.faults import Missing  # noqa: E402
from tp_sdk.program import REPOSITORY, Program  # noqa: E402
from tp_sdk.python import DEBIANS  # noqa: E402

# A shell has its jobs in the background ignore Ctrl-C, and so do all that they start: tests that send it start tools
# that hear it, as a user's do.
signal.signal(signal.SIGINT, signal.default_int_handler)

CFLAGS = "CFLAGS=-Os -g -Wall -Wextra -Werror"
COMPILER = os.environ.get("CROSS", "riscv64-unknown-elf-") + "gcc"


def examples() -> list[Path]:
    """The images of the repository."""
    return sorted((REPOSITORY / "examples").glob("*.toml"))


def is_refused(image: Path) -> bool:
    """It is one of those that show a refusal."""
    return image.stem.startswith("refused-")


def run_tool(name: str, *words: str | Path, given: str = "") -> subprocess.CompletedProcess[str]:
    """Runs a command of the kit as a user does."""
    command = [sys.executable, SDK / name, *words]
    return subprocess.run(command, input=given, capture_output=True, text=True, check=False)


def bare_python(library: str, folder: Path) -> Path:
    """A Python that lacks a library, where Debian's own has it."""
    has = ["-c", f"import tomllib, {library}"]
    debians = Path(DEBIANS)
    if not debians.exists() or subprocess.run([debians, *has], capture_output=True, check=False).returncode:
        pytest.skip(f"{DEBIANS} has no {library}")
    # (a virtual environment is no more than this, and has no libraries)
    home = Path(sys.base_prefix) / "bin"
    (folder / "pyvenv.cfg").write_text(f"home = {home}\ninclude-system-site-packages = false\n")
    (folder / "bin").mkdir()
    bare = folder / "bin" / "python3"
    bare.symlink_to(Path(sys.executable).resolve())
    assert subprocess.run([bare, *has], capture_output=True, check=False).returncode != 0
    return bare


def stored_picture(name: str) -> str:
    """A picture of the documents, where the library that is there draws the same bytes."""
    matplotlib = pytest.importorskip("matplotlib")
    text = (REPOSITORY / "docs" / "pictures" / f"{name}.svg").read_text()
    if f"Matplotlib v{matplotlib.__version__}," not in text:
        pytest.skip(f"the pictures are of another version than Matplotlib v{matplotlib.__version__}")
    return text


@pytest.fixture(scope="session")
def program() -> Program:
    """The program."""
    try:
        return Program.find()
    except Missing as missing:
        pytest.skip(str(missing))


@pytest.fixture(scope="session")
def compiler() -> str:
    """The compiler, as it names itself."""
    if shutil.which(COMPILER) is None or shutil.which("make") is None:
        pytest.skip(f"there is no {COMPILER}, or no make")
    told = subprocess.run([COMPILER, "--version"], capture_output=True, text=True, check=True)
    return told.stdout.splitlines()[0]


@pytest.fixture(scope="session")
def built(compiler: str, tmp_path_factory: pytest.TempPathFactory) -> Path:
    """A copy of sdk/c with its programs built: descriptions beside their ELF files."""
    pytest.importorskip("elftools")
    folder = tmp_path_factory.mktemp("sdk") / "c"
    shutil.copytree(SDK / "c", folder, ignore=shutil.ignore_patterns("out"))
    subprocess.run(["make", "-C", folder, CFLAGS], check=True, capture_output=True)
    return folder
