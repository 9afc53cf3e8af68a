"""The library in the program's place: which of them is found, and that both answer alike."""

from __future__ import annotations

import ctypes
import os
import signal
import subprocess
import sys
import time
from concurrent.futures import ThreadPoolExecutor
from pathlib import Path

import pytest
from conftest import REPOSITORY, SDK, examples

from tp_sdk import library
from tp_sdk.faults import Missing
from tp_sdk.program import Ended, Program

PROGRAM = REPOSITORY / "crates" / "tp" / "out" / "tp"
TWO_DOMAINS = (REPOSITORY / "examples" / "two-domains.toml").read_text()
TWO_HARTS = (REPOSITORY / "examples" / "two-harts.toml").read_text()
WORDS = [
    ["check"],
    ["bound"],
    ["run", "--slots", "4"],
    ["harts", "--seed", "7", "--slots", "4"],
    ["alone", "--slots", "4", "--domain", "1"],
    ["ablate", "--off", "colour", "--slots", "4"],
    ["redact", "--domain", "1"],
    ["gen", "--seed", "4294967295"],
    ["demo", "--seed", "3"],
]


@pytest.fixture(scope="module")
def shared() -> Path:
    """The library that is built."""
    path = REPOSITORY / library.BUILT
    if not path.is_file():
        pytest.skip("there is no library: make -C lib builds it")
    return path


@pytest.fixture(scope="module")
def process(program: Program) -> Program:
    """The program itself, whatever is found."""
    path = PROGRAM if program.shared else program.path
    if not path.is_file():
        pytest.skip("there is no program: ./tp --prove builds it")
    return Program(path)


@pytest.fixture
def built(tmp_path: Path) -> tuple[Path, Path]:
    """A repository in which both are built, the library last: the program and the library."""
    program, shared = tmp_path / "tp", tmp_path / library.BUILT
    shared.parent.mkdir(parents=True)
    for age, path in enumerate((program, shared)):
        path.touch()
        os.utime(path, (1000 + age, 1000 + age))
    return program, shared


def test_the_library_is_found_where_it_is_built(built: tuple[Path, Path], tmp_path: Path) -> None:
    program, shared = built
    assert library.newest(tmp_path, program) == shared
    program.unlink()
    assert library.newest(tmp_path, program) == shared


def test_a_newer_program_comes_first(built: tuple[Path, Path], tmp_path: Path) -> None:
    program, shared = built
    os.utime(program, (2000, 2000))
    assert library.newest(tmp_path, program) is None
    shared.unlink()
    assert library.newest(tmp_path, program) is None


def test_an_installed_library_is_found_by_its_version(tmp_path: Path) -> None:
    """As `make install` and `make -C lib install` lay them out, in any order, with one PREFIX."""
    installed, shared = tmp_path / "kizhombai", tmp_path / library.BESIDE
    program = installed / "tp"
    installed.mkdir()
    (installed / "VERSION").write_text("1.2.3\n")
    assert library.newest(installed, program) is None
    for version, is_found in (("1.2.4", False), ("1.2.3", True)):
        (tmp_path / f"{library.BESIDE}.{version}").touch()
        shared.unlink(missing_ok=True)
        shared.symlink_to(f"{library.BESIDE}.{version}")
        assert library.newest(installed, program) == (shared if is_found else None)
    program.touch()
    assert library.newest(installed, program) == shared
    # (beside a repository with its sources stands another's)
    (installed / "crates.txt").touch()
    assert library.newest(installed, program) is None


def test_the_variable_decides(built: tuple[Path, Path], monkeypatch: pytest.MonkeyPatch) -> None:
    program, shared = built
    program.chmod(0o755)
    monkeypatch.setenv("TP", str(program))
    assert Program.find() == Program(program)
    monkeypatch.setenv("TP", str(shared))
    assert Program.find().shared == shared
    shared.unlink()
    with pytest.raises(Missing, match="there is no program at TP="):
        Program.find()


@pytest.mark.parametrize(
    "words",
    [
        ["fly"],
        [],
        ["run"],
        ["run", "--slots"],
        ["run", "--slots", "x"],
        ["run", "--slots", "-1"],
        ["run", "--slots", "٤"],
        ["run", "--slots", "4294967296"],
        ["run", "--slots", "4", "--slots", "4"],
        ["run", "--seed", "4"],
        ["check", "--slots", "4"],
        ["ablate", "--off", "Flush", "--slots", "4"],
        ["run", "--help"],
    ],
)
def test_words_that_are_no_call_are_the_programs(shared: Path, words: list[str]) -> None:
    assert library.answer(shared, words, TWO_DOMAINS) is None


@pytest.mark.parametrize("words", WORDS, ids=lambda words: words[0])
@pytest.mark.parametrize("image", [TWO_DOMAINS, TWO_HARTS, "", "no image\0"])
def test_both_answer_alike(shared: Path, process: Program, words: list[str], image: str) -> None:
    assert Program(process.path, shared).run(words, image) == process.run(words, image)


@pytest.mark.parametrize("option", ["--slots", "--domain"])
def test_values_out_of_range(shared: Path, process: Program, option: str) -> None:
    given = {"--slots": "4", "--domain": "0", option: "65537"}
    words = ["alone", *(word for pair in given.items() for word in pair)]
    assert library.answer(shared, words, TWO_DOMAINS) == (2, process.run(words, TWO_DOMAINS).text)


def test_a_text_that_is_longer_than_the_buffer(shared: Path, process: Program) -> None:
    words = ["run", "--slots", "24"]
    image = (REPOSITORY / "examples" / "victim.toml").read_text()
    due = process.run(words, image)
    library._buffer.text = ctypes.create_string_buffer(1)
    assert Program(process.path, shared).run(words, image) == due


def test_eight_threads_at_once(shared: Path, process: Program) -> None:
    images = [path.read_text() for path in examples()[:16]]
    words = ["run", "--slots", "4"]
    due = [process.run(words, image) for image in images]
    with ThreadPoolExecutor(8) as threads:
        found = list(
            threads.map(lambda image: Ended(*library.answer(shared, words, image) or (-1, "")), images * 4)
        )
    assert found == due * 4


def test_a_long_run_can_be_interrupted(shared: Path, tmp_path: Path) -> None:
    endless = tmp_path / "endless.toml"
    skeleton = (REPOSITORY / "examples" / "skeleton.toml").read_text()
    code = "37040200032504009308000073000000"
    assert skeleton.count(code) == 1 and skeleton.count("length = 10000\n") == 1
    # (a jump to itself)
    endless.write_text(skeleton.replace(code, "6f000000").replace("length = 10000\n", "length = 1000000\n"))
    asks = (
        "import sys; from pathlib import Path; from tp_sdk import library; print('begins', flush=True); "
        "library.answer(Path(sys.argv[1]), ['run', '--slots', '65536'], Path(sys.argv[2]).read_text())"
    )
    words = [sys.executable, "-c", asks, shared, endless]
    with subprocess.Popen(words, cwd=SDK, stdout=subprocess.PIPE, stderr=subprocess.DEVNULL) as asking:
        assert asking.stdout is not None and asking.stdout.readline() == b"begins\n"
        time.sleep(0.5)
        asking.send_signal(signal.SIGINT)
        assert asking.wait(timeout=30) != 0
