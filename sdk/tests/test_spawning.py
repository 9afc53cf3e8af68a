"""A process for each run: it has what it is given, and files that runs before it had, of which nothing is left."""

from __future__ import annotations

import multiprocessing
import os
import shutil
import signal
from pathlib import Path

import pytest
from test_waiting import script

from tp_sdk import spawning

CAT, ENV = shutil.which("cat"), shutil.which("env")
pytestmark = pytest.mark.skipif(
    CAT is None or ENV is None or not hasattr(os, "posix_spawn"), reason="there is no cat, or no posix_spawn"
)
TIMES = 200


def test_nothing_is_left_of_the_run_before() -> None:
    for given in (b"long " * 100_000, b"short", b"", b"longer"):
        assert spawning.run([f"{CAT}"], given, {}) == (0, given)


def test_a_run_that_fails_leaves_nothing_either() -> None:
    with pytest.raises(OSError):
        spawning.run(["/no/such/program"], b"given", {})
    code, written = spawning.run([f"{CAT}", "/no/such/file"], b"given", {})
    assert code > 0 and written == b""
    assert spawning.run([f"{CAT}"], b"after", {}) == (0, b"after")


def test_the_environment_is_the_one_that_is_given() -> None:
    assert spawning.run([f"{ENV}"], b"", {"ONE": "1", "TWO": "two words"}) == (0, b"ONE=1\nTWO=two words\n")


def test_an_interrupt_as_a_run_begins_ends_it(tmp_path: Path) -> None:
    told = tmp_path / "told"
    program = script(tmp_path / "tp", f'#!/bin/sh\necho $$ > "{told}"\nkill -INT $PPID\nexec sleep 60\n')
    for _ in range(TIMES // 4):
        with pytest.raises(KeyboardInterrupt):
            spawning.run([str(program)], b"", dict(os.environ))
        with pytest.raises(ProcessLookupError):
            os.kill(int(told.read_text()), 0)
    assert signal.pthread_sigmask(signal.SIG_BLOCK, ()) == set()


def _echoes(name: str) -> bool:
    texts = [f"{name} {number}\n".encode() * 500 for number in range(TIMES)]
    return all(spawning.run([f"{CAT}"], text, {}) == (0, text) for text in texts)


def test_copies_of_the_process_have_files_of_their_own() -> None:
    """As a sweep's workers are, which run the program side by side."""
    assert _echoes("before")
    with multiprocessing.get_context("fork").Pool(4) as workers:
        assert workers.map(_echoes, "abcd", chunksize=1) == [True] * 4
    assert _echoes("after")
