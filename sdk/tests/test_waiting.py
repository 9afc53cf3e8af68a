"""What a tool does while it works: Ctrl-C ends it with one line, and a terminal sees how long it takes."""

from __future__ import annotations

import os
import pty
import re
import signal
import subprocess
import sys
import threading
import time
from collections.abc import Callable
from pathlib import Path

import pytest
from conftest import REPOSITORY, SDK
from test_libraries import WITHOUT

EXAMPLES = REPOSITORY / "examples"
SKELETON = EXAMPLES / "skeleton.toml"
# The words of each tool that read a file.
READS: dict[str, tuple[tuple[str, ...], tuple[str, ...]]] = {
    "tp-counts": ((), ("--domain", "red")),
    "tp-explain": ((), ("refused K4 at 0 found 63 wanted 64",)),
    "tp-image": ((), ()),
    "tp-plot": (("memory",), ("-o", "a.svg")),
    "tp-report": ((), ()),
    "tp-run": ((), ("--slots", "1")),
    "tp-sweep": ((), ("--slots", "1")),
    "tp-verify": ((str(SKELETON),), ("--domain", "mine")),
}
# A program that writes its process's number, and takes its time.
SLOW = """#!/bin/sh
cat > /dev/null
echo $$ > "{told}"
exec sleep {seconds}
"""
ACCEPTS = """#!/bin/sh
cat > /dev/null
sleep {seconds}
echo accepted
"""
# One that ends when a file is there.
AWAITS = """#!/bin/sh
cat > /dev/null
until [ -e "{gate}" ]; do sleep 0.1; done
echo accepted
"""


MOST_SECONDS = 60
ROUNDS = 5


def script(file: Path, text: str) -> Path:
    file.write_text(text)
    file.chmod(0o755)
    return file


def wait_for(what: Callable[[], bool], process: subprocess.Popen[str]) -> None:
    """Until it is so, while the process runs."""
    end = time.monotonic() + MOST_SECONDS
    while not what():
        if process.poll() is not None or time.monotonic() > end:
            process.kill()
            pytest.fail(f"{process.args} did not wait")
        time.sleep(0.02)


def ended(process: subprocess.Popen[str]) -> tuple[str, str]:
    """What a process has written and said, once it is over."""
    try:
        return process.communicate(timeout=MOST_SECONDS)
    finally:
        process.kill()


def is_read(pipe: Path, ends: list[int]) -> bool:
    """Somebody reads from a pipe, which then is open for writing, too."""
    try:
        ends.append(os.open(pipe, os.O_WRONLY | os.O_NONBLOCK))
    except OSError:
        return False
    return True


@pytest.mark.parametrize("tool", READS)
def test_an_interrupt_is_one_line(tool: str, tmp_path: Path) -> None:
    before, after = READS[tool]
    pipe = tmp_path / "pipe.toml"
    os.mkfifo(pipe)
    command = [sys.executable, SDK / tool, *before, pipe, *after]
    tp = script(tmp_path / "tp", ACCEPTS.format(seconds=0))
    out = subprocess.PIPE
    ends: list[int] = []
    with subprocess.Popen(
        command, cwd=tmp_path, env=os.environ | {"TP": str(tp)}, stdout=out, stderr=out, text=True
    ) as it:
        wait_for(lambda: is_read(pipe, ends), it)
        it.send_signal(signal.SIGINT)
        # (an interrupt right before it waits for bytes is told of once these have an end)
        os.close(ends[0])
        written, said = ended(it)
    assert (it.returncode, written, said) == (130, "", f"{tool}: interrupted\n")


@pytest.mark.parametrize("tool", READS)
@pytest.mark.parametrize("module", ("fnmatch", "argparse"))
def test_an_interrupt_while_modules_are_loaded_is_one_line(tool: str, module: str, tmp_path: Path) -> None:
    # (a module of Python's own, in whose place another interrupts the process)
    interrupts = "import os, signal, time\nos.kill(os.getpid(), signal.SIGINT)\ntime.sleep(60)\n"
    (tmp_path / f"{module}.py").write_text(interrupts)
    environment = os.environ | {"PYTHONPATH": str(tmp_path)}
    command = [sys.executable, SDK / tool, "--help"]
    it = subprocess.run(command, env=environment, capture_output=True, text=True, check=False)
    assert (it.returncode, it.stdout, it.stderr) == (130, "", f"{tool}: interrupted\n")


@pytest.mark.parametrize("words", (("tp-run", SKELETON, "--slots", "1"), ("tp-image", SKELETON)))
def test_an_interrupt_ends_the_program_too(words: tuple[str, ...], tmp_path: Path) -> None:
    told = tmp_path / "told"
    slow = script(tmp_path / "tp", SLOW.format(told=told, seconds=MOST_SECONDS))
    command = [sys.executable, SDK / words[0], *words[1:]]
    environment = os.environ | {"TP": str(slow)}
    with subprocess.Popen(command, env=environment, stderr=subprocess.PIPE, text=True) as it:
        wait_for(lambda: told.exists() and told.read_text().endswith("\n"), it)
        it.send_signal(signal.SIGINT)
        _, said = ended(it)
    assert (it.returncode, said) == (130, f"{words[0]}: interrupted\n")
    with pytest.raises(ProcessLookupError):
        os.kill(int(told.read_text()), 0)


def said_to_a_terminal(
    command: list[str | Path], tp: Path, heard: Callable[[str], None] = lambda said: None
) -> tuple[int, str]:
    """A command's exit code, and what it says on a terminal, where somebody hears it."""
    ours, its = pty.openpty()
    environment = os.environ | {"TP": str(tp)}
    with subprocess.Popen(command, env=environment, stdout=subprocess.DEVNULL, stderr=its) as it:
        os.close(its)
        said = b""
        while True:
            try:
                part = os.read(ours, 4096)
            # (its end is closed)
            except OSError:
                part = b""
            if not part:
                break
            said += part
            heard(said.decode(errors="replace"))
    os.close(ours)
    return it.returncode, said.decode()


@pytest.mark.parametrize(
    "words",
    (
        ("tp-counts", SKELETON, "--domain", "mine"),
        ("tp-image", SKELETON),
        ("tp-plot", "timeline", SKELETON, SKELETON.with_suffix(".report"), "-o", "/dev/null/a.svg"),
        ("tp-report", SKELETON.with_suffix(".report"), "--image", SKELETON),
        ("tp-run", SKELETON, "--slots", "1"),
        ("tp-verify", SKELETON, SKELETON.with_suffix(".report"), "--domain", "mine"),
    ),
    ids=lambda it: it[0],
)
def test_a_terminal_sees_how_long_it_takes(words: tuple[str | Path, ...], tmp_path: Path) -> None:
    pytest.importorskip("tqdm")
    gate = tmp_path / "gate"
    slow = script(tmp_path / "tp", AWAITS.format(gate=gate))
    told = re.compile(rf"{words[0]}: 0 runs of tp ended, 00:0[1-9]")

    def heard(said: str) -> None:
        if told.search(said):
            gate.touch()

    late = threading.Timer(MOST_SECONDS, gate.touch)
    late.start()
    _, said = said_to_a_terminal([sys.executable, SDK / words[0], *words[1:]], slow, heard)
    late.cancel()
    assert told.search(said)
    # (and the line is cleared before another is written)
    assert said.split("ended, ")[-1].split("\r")[1].strip() == ""


def test_what_is_quick_says_nothing(tmp_path: Path) -> None:
    quick = script(tmp_path / "tp", ACCEPTS.format(seconds=0))
    command: list[str | Path] = [sys.executable, SDK / "tp-image", SKELETON]
    # (on a busy machine it may take long for once)
    assert any(said_to_a_terminal(command, quick) == (0, "") for _ in range(ROUNDS))


def test_what_is_no_terminal_sees_nothing_nor_does_one_without_the_library(tmp_path: Path) -> None:
    slow = script(tmp_path / "tp", ACCEPTS.format(seconds=1.3))
    command: list[str | Path] = [sys.executable, SDK / "tp-image", SKELETON]
    quiet = subprocess.run(command, env=os.environ | {"TP": str(slow)}, capture_output=True, check=False)
    assert (quiet.returncode, quiet.stderr) == (0, b"")
    without: list[str | Path] = [sys.executable, WITHOUT, "tqdm", SDK / "tp-image", SKELETON]
    assert said_to_a_terminal(without, slow) == (0, "")
